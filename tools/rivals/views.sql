-- The same rows as a viewer sees them, by row security.
create table people(email text primary key, region text);
insert into people values('vi@x.org', 'South');
create role viewer login; create role censor; grant create on schema public to censor;
alter table tasks enable row level security; grant select on people to viewer, censor;
create policy own on tasks for select to viewer, censor
    using (region = (select region from people where email = current_setting('app.email', true)));
grant select (id, region, title, n, secret, assignee, stage, hours) on tasks to viewer;
grant select (id, region, title, n, secret, assignee, stage, hours, note) on tasks to censor;
set role censor;
create view shown as select id, assignee, hours, n, case when secret = 1 then '[C]' else note end note,
    region, secret, stage, title from tasks;
grant select on shown to viewer; reset role;
alter role viewer set app.email = 'vi@x.org';
analyze;
