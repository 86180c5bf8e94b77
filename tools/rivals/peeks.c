/* One connection that writes and so many that look at a table, for so many milliseconds.
   peeks PORT LOOKERS METHOD MILLISECONDS PAUSE QUIET: bundles and looks a second. The writer is at PORT, the others
   behind it; it changes rows of a table of 1,000 rows that it adds first, and no more where QUIET is 1. METHOD is
   peekTable, fetchTable, or none, which looks at nothing. Who looks rests for PAUSE microseconds behind each look and
   asks `sync` ten times a second, since too many lines that wait would close its session. */
#include <arpa/inet.h>
#include <netinet/tcp.h>
#include <pthread.h>
#include <stdio.h>
#include <stdlib.h>
#include <string.h>
#include <time.h>
#include <unistd.h>
enum { ROWS = 1000 };
static int port, pause_us, quiet; static const char *method; static volatile int over;
static pthread_barrier_t filled, ready; static long bundles, looks;
static double now(void) { struct timespec t; clock_gettime(CLOCK_MONOTONIC, &t); return t.tv_sec + t.tv_nsec / 1e9; }
static void send_all(int s, const char *b, size_t n) { while (n) { ssize_t w = write(s, b, n); if (w <= 0) exit(3); b += w; n -= w; } }
static int joined(int p) {
  struct sockaddr_in a = {0}; int s = socket(AF_INET, SOCK_STREAM, 0), one = 1, i;
  a.sin_family = AF_INET; a.sin_port = htons(p); a.sin_addr.s_addr = htonl(INADDR_LOOPBACK);
  setsockopt(s, IPPROTO_TCP, TCP_NODELAY, &one, sizeof one);
  for (i = 0; i < 1000; i++) { if (!connect(s, (void *)&a, sizeof a)) return s; usleep(5000); }
  exit(4);
}
/* sends a line, and reads up to its reply */
static void ask(int s, FILE *in, const char *text) {
  static __thread char *line; static __thread size_t room;
  send_all(s, text, strlen(text));
  do {
    if (getline(&line, &room, in) < 0) exit(5);
    if (!strncmp(line, "{\"error\"", 8)) { fputs(line, stderr); exit(6); }
  } while (strncmp(line, "{\"ok\"", 5));
}
static FILE *opened(int s) {
  FILE *in = fdopen(s, "r");
  setvbuf(in, malloc(1 << 16), _IOFBF, 1 << 16);
  ask(s, in, "{\"method\":\"openDoc\",\"token\":\"ta\"}\n");
  return in;
}
static void *writes(void *at) {
  int s = joined(port), i, n; FILE *in = opened(s); static char text[65536];
  n = sprintf(text, "{\"actions\":[[\"BulkAddRecord\",\"Table1\",[");
  for (i = 0; i < ROWS; i++) n += sprintf(text + n, i ? ",null" : "null");
  n += sprintf(text + n, "],{\"A\":[");
  for (i = 0; i < ROWS; i++) n += sprintf(text + n, i ? ",%d" : "%d", i);
  sprintf(text + n, "]}]],\"method\":\"applyUserActions\"}\n");
  ask(s, in, text);
  pthread_barrier_wait(&filled); pthread_barrier_wait(&ready);
  for (i = 0; !over; i++) {
    if (quiet) { usleep(1000); continue; }
    snprintf(text, sizeof text, "{\"actions\":[[\"UpdateRecord\",\"Table1\",%d,{\"B\":%d}]],\"method\":\"applyUserActions\"}\n", i % ROWS + 1, i);
    ask(s, in, text); bundles++;
  }
  pthread_barrier_wait(&ready); shutdown(s, SHUT_WR);
  return 0;
}
static void *looks_at(void *at) {
  int s = joined(port + (int)(long)at), idle = !strcmp(method, "none"); FILE *in; char text[64]; long n = 0; double synced;
  pthread_barrier_wait(&filled);
  in = opened(s);
  snprintf(text, sizeof text, "{\"method\":\"%s\",\"table\":\"Table1\"}\n", method);
  pthread_barrier_wait(&ready); synced = now();
  while (!over) {
    if (now() - synced > 0.1) { ask(s, in, "{\"method\":\"sync\"}\n"); synced = now(); }
    if (!idle) { ask(s, in, text); n++; }
    if (pause_us) usleep(pause_us);
  }
  __atomic_fetch_add(&looks, n, __ATOMIC_RELAXED);
  pthread_barrier_wait(&ready); shutdown(s, SHUT_WR);
  return 0;
}
int main(int count, char **words) {
  int lookers = atoi(words[2]); pthread_t each; long i; double start;
  port = atoi(words[1]); method = words[3]; pause_us = atoi(words[5]); quiet = atoi(words[6]);
  pthread_barrier_init(&filled, 0, lookers + 1); pthread_barrier_init(&ready, 0, lookers + 2);
  pthread_create(&each, 0, writes, 0);
  for (i = 1; i <= lookers; i++) pthread_create(&each, 0, looks_at, (void *)i);
  pthread_barrier_wait(&ready); start = now();
  usleep(1000 * atoi(words[4])); over = 1;
  pthread_barrier_wait(&ready); start = now() - start;
  printf("%.1f %.1f\n", bundles / start, looks / start);
  return 0;
}
