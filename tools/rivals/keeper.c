/* Records kept by SQLite, beside a kept document, in the same mode (WAL, each record synced in a transaction of its own).
   keeper copy FROM TO: each record, one a transaction; keeper read FROM: all of them. Prints seconds and a count. */
#include <sqlite3.h>
#include <stdio.h>
#include <stdlib.h>
#include <string.h>
#include <time.h>
static double now(void) { struct timespec t; clock_gettime(CLOCK_MONOTONIC, &t); return t.tv_sec + t.tv_nsec / 1e9; }
int main(int count, char **words) {
  sqlite3 *from, *to; sqlite3_stmt *get, *put; long n = 0; int i;
  double start = now();
  if (sqlite3_open(words[2], &from)) return 1;
  if (sqlite3_prepare_v2(from, "SELECT number, bytes FROM record ORDER BY number", -1, &get, 0)) return 1;
  if (!strcmp(words[1], "read")) {
    long sum = 0;
    while (sqlite3_step(get) == SQLITE_ROW) { sum += sqlite3_column_bytes(get, 1); n++; }
    printf("%.9f %ld\n", now() - start, n);
    return 0;
  }
  char **texts = malloc(sizeof(char *) * 1000000); int *sizes = malloc(sizeof(int) * 1000000);
  while (sqlite3_step(get) == SQLITE_ROW) {
    sizes[n] = sqlite3_column_bytes(get, 1); texts[n] = malloc(sizes[n] + 1);
    memcpy(texts[n], sqlite3_column_blob(get, 1), sizes[n]); n++;
  }
  if (sqlite3_open(words[3], &to)) return 1;
  sqlite3_exec(to, "PRAGMA journal_mode=WAL; PRAGMA synchronous=FULL; CREATE TABLE record (number INTEGER PRIMARY KEY, bytes BLOB NOT NULL) STRICT", 0, 0, 0);
  if (sqlite3_prepare_v2(to, "INSERT INTO record (number, bytes) VALUES (?1, ?2)", -1, &put, 0)) return 1;
  start = now();
  for (i = 0; i < n; i++) {
    sqlite3_bind_int64(put, 1, i); sqlite3_bind_blob(put, 2, texts[i], sizes[i], SQLITE_STATIC);
    if (sqlite3_step(put) != SQLITE_DONE) return 2;
    sqlite3_reset(put);
  }
  printf("%.9f %ld\n", now() - start, n);
  return 0;
}
