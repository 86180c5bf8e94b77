/* Sixteen clients, an echo server with a thread a connection, and sixteen threads that insert rows by SQLite.
   serving load PORT STRIDE REQUESTS: requests and lines a second; serving echo PORT; serving sqlite FILE REQUESTS. */
#include <arpa/inet.h>
#include <netinet/tcp.h>
#include <pthread.h>
#include <sqlite3.h>
#include <stdio.h>
#include <stdlib.h>
#include <string.h>
#include <time.h>
#include <unistd.h>
enum { LANES = 16 };
static int port, stride, requests;
static pthread_barrier_t ready; static long lines;
static double now(void) { struct timespec t; clock_gettime(CLOCK_MONOTONIC, &t); return t.tv_sec + t.tv_nsec / 1e9; }
static void send_all(int s, const char *b, size_t n) { while (n) { ssize_t w = write(s, b, n); if (w <= 0) exit(3); b += w; n -= w; } }
static int joined(int p) {
  struct sockaddr_in a = {0}; int s = socket(AF_INET, SOCK_STREAM, 0), one = 1, i;
  a.sin_family = AF_INET; a.sin_port = htons(p); a.sin_addr.s_addr = htonl(INADDR_LOOPBACK);
  setsockopt(s, IPPROTO_TCP, TCP_NODELAY, &one, sizeof one);
  for (i = 0; i < 1000; i++) { if (!connect(s, (void *)&a, sizeof a)) return s; usleep(5000); }
  exit(4);
}
/* reads lines up to a reply: one that begins with "ok" or, of an echo, the first one */
static void await_reply(FILE *in, int echo) {
  static __thread char *line; static __thread size_t room;
  for (;;) {
    if (getline(&line, &room, in) < 0) exit(5);
    __atomic_fetch_add(&lines, 1, __ATOMIC_RELAXED);
    if (echo || !strncmp(line, "{\"ok\"", 5)) return;
    if (!strncmp(line, "{\"error\"", 8)) { fputs(line, stderr); exit(6); }
  }
}
static void *client(void *at) {
  long lane = (long)at; int echo = !stride, s = joined(port + stride * lane), i; char line[256]; FILE *in = fdopen(s, "r");
  const char *open = "{\"method\":\"openDoc\",\"token\":\"ta\"}\n";
  setvbuf(in, malloc(1 << 16), _IOFBF, 1 << 16);
  send_all(s, open, strlen(open)); await_reply(in, echo);
  pthread_barrier_wait(&ready);
  for (i = 0; i < requests; i++) {
    int n = snprintf(line, sizeof line, "{\"actions\":[[\"AddRecord\",\"Table1\",null,{\"A\":%d,\"B\":\"x%ld\"}]],\"method\":\"applyUserActions\"}\n", i, lane);
    send_all(s, line, n); await_reply(in, echo);
  }
  pthread_barrier_wait(&ready);
  shutdown(s, SHUT_WR);
  return 0;
}
static void *echoed(void *at) {
  int s = (int)(long)at; char b[65536]; ssize_t n;
  while ((n = read(s, b, sizeof b)) > 0) send_all(s, b, n);
  close(s); return 0;
}
static sqlite3 *db; static sqlite3_stmt *put; static pthread_mutex_t turn = PTHREAD_MUTEX_INITIALIZER;
static void *writer(void *at) {
  long lane = (long)at; int i; char text[128];
  pthread_barrier_wait(&ready);
  for (i = 0; i < requests; i++) {
    int n = snprintf(text, sizeof text, "{\"actions\":[[\"BulkAddRecord\",\"Table1\",[%d],{\"A\":[%d],\"B\":[\"x%ld\"]}]],\"number\":%d,\"version\":2}", i, i, lane, i);
    pthread_mutex_lock(&turn);
    sqlite3_bind_text(put, 1, text, n, SQLITE_STATIC);
    if (sqlite3_step(put) != SQLITE_DONE) exit(7);
    sqlite3_reset(put);
    pthread_mutex_unlock(&turn);
  }
  pthread_barrier_wait(&ready);
  return 0;
}
int main(int count, char **words) {
  pthread_t each[LANES]; long i; double start;
  if (!strcmp(words[1], "echo")) {
    struct sockaddr_in a = {0}; int s = socket(AF_INET, SOCK_STREAM, 0), one = 1;
    a.sin_family = AF_INET; a.sin_port = htons(atoi(words[2])); a.sin_addr.s_addr = htonl(INADDR_LOOPBACK);
    setsockopt(s, SOL_SOCKET, SO_REUSEADDR, &one, sizeof one);
    if (bind(s, (void *)&a, sizeof a) || listen(s, 64)) return 2;
    for (;;) { int c = accept(s, 0, 0); pthread_t t; setsockopt(c, IPPROTO_TCP, TCP_NODELAY, &one, sizeof one); pthread_create(&t, 0, echoed, (void *)(long)c); }
  }
  if (!strcmp(words[1], "sqlite")) {
    requests = atoi(words[3]);
    if (sqlite3_open(words[2], &db)) return 1;
    sqlite3_exec(db, "PRAGMA journal_mode=WAL; PRAGMA synchronous=FULL; CREATE TABLE record (number INTEGER PRIMARY KEY, bytes BLOB NOT NULL) STRICT", 0, 0, 0);
    if (sqlite3_prepare_v2(db, "INSERT INTO record (bytes) VALUES (CAST(?1 AS BLOB))", -1, &put, 0)) return 1;
  } else { port = atoi(words[2]); stride = atoi(words[3]); requests = atoi(words[4]); }
  pthread_barrier_init(&ready, 0, LANES + 1);
  for (i = 0; i < LANES; i++) pthread_create(&each[i], 0, put ? writer : client, (void *)i);
  pthread_barrier_wait(&ready); start = now(); lines = 0;
  pthread_barrier_wait(&ready); start = now() - start;
  printf("%.1f %.1f\n", LANES * (double)requests / start, lines / start);
  return 0;
}
