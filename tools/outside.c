/* An outside that fails: loaded before the C library (LD_PRELOAD), it lets one call of a program fail.

   OUTSIDE is a word and a number; the word says which calls are counted, from 0 on:
     memory NUMBER      requests for memory; this one alone is refused
     memories NUMBER    the same; this one and all behind it are refused
     input NUMBER       reads of standard input, which give seven bytes at most
     output NUMBER      writes to standard output
     disk NUMBER        reads, writes, syncs and cuts of files, by their place in them
     comes NUMBER       reads of connections that came to the port OUTSIDE_PORT of this machine
     goes NUMBER        writes to them
     accepts NUMBER     acceptings at that port, for good
   OUTSIDE_COUNT, where it is set, names a file to which the number of counted calls is written at the end. */
#define _GNU_SOURCE
#include <errno.h>
#include <fcntl.h>
#include <netinet/in.h>
#include <stdio.h>
#include <stdlib.h>
#include <string.h>
#include <sys/socket.h>
#include <sys/syscall.h>
#include <sys/types.h>
#include <unistd.h>

extern void *__libc_malloc(size_t size);
extern void *__libc_calloc(size_t count, size_t size);
extern void *__libc_realloc(void *old, size_t size);

enum { PIECE = 7 };

static char word[16];
static long wanted = -1, port = -1, counted;

__attribute__((constructor)) static void begin(void)
{
    const char *told = getenv("OUTSIDE");
    if (told)
        sscanf(told, "%15s %ld", word, &wanted);
    told = getenv("OUTSIDE_PORT");
    if (told)
        port = atol(told);
}

static void tell_count(void)
{
    const char *path = getenv("OUTSIDE_COUNT");
    char text[32];
    int file = path ? syscall(SYS_open, path, O_WRONLY | O_CREAT | O_TRUNC, 0600) : -1;
    if (file >= 0) {
        int length = snprintf(text, sizeof text, "%ld\n", counted);
        syscall(SYS_write, file, text, length);
        syscall(SYS_close, file);
    }
}

void _exit(int status)
{
    tell_count();
    for (;;)
        syscall(SYS_exit_group, status);
}

/* Whether a call of this kind fails: the one that is wanted or, by `more`, it and each behind it. */
static int fails(const char *one, const char *more)
{
    int is_more = more && !strcmp(word, more);
    if (!is_more && strcmp(word, one))
        return 0;
    long number = __atomic_fetch_add(&counted, 1, __ATOMIC_SEQ_CST);
    return wanted >= 0 && (is_more ? number >= wanted : number == wanted);
}

static int is_refused(int error)
{
    errno = error;
    return -1;
}

void *malloc(size_t size)
{
    return fails("memory", "memories") ? (errno = ENOMEM, NULL) : __libc_malloc(size);
}

void *calloc(size_t count, size_t size)
{
    return fails("memory", "memories") ? (errno = ENOMEM, NULL) : __libc_calloc(count, size);
}

void *realloc(void *old, size_t size)
{
    return fails("memory", "memories") ? (errno = ENOMEM, NULL) : __libc_realloc(old, size);
}

static size_t piece_of(int file, size_t size)
{
    return file == 0 && !strcmp(word, "input") && size > PIECE ? PIECE : size;
}

/* Whether the file is a connection that came to the port. */
static int came_to_port(int file)
{
    struct sockaddr_in here;
    socklen_t length = sizeof here;
    return port >= 0 && !getsockname(file, (struct sockaddr *)&here, &length) && here.sin_family == AF_INET
        && ntohs(here.sin_port) == port;
}

static int fails_to_come(int file)
{
    return !strcmp(word, "comes") && came_to_port(file) && fails("comes", NULL);
}

static int fails_to_go(int file)
{
    return !strcmp(word, "goes") && came_to_port(file) && fails("goes", NULL);
}

ssize_t read(int file, void *to, size_t size)
{
    if ((file == 0 && fails("input", NULL)) || fails_to_come(file))
        return is_refused(EIO);
    return syscall(SYS_read, file, to, piece_of(file, size));
}

ssize_t write(int file, const void *from, size_t size)
{
    if ((file == 1 && fails("output", NULL)) || fails_to_go(file))
        return is_refused(ENOSPC);
    return syscall(SYS_write, file, from, size);
}

ssize_t recv(int file, void *to, size_t size, int flags)
{
    if (fails_to_come(file))
        return is_refused(EIO);
    return syscall(SYS_recvfrom, file, to, size, flags, NULL, NULL);
}

ssize_t send(int file, const void *from, size_t size, int flags)
{
    if (fails_to_go(file))
        return is_refused(EPIPE);
    return syscall(SYS_sendto, file, from, size, flags, NULL, 0);
}

int accept4(int file, struct sockaddr *from, socklen_t *length, int flags)
{
    if (!strcmp(word, "accepts") && came_to_port(file) && fails("accepts", NULL))
        return is_refused(EINVAL);
    return syscall(SYS_accept4, file, from, length, flags);
}

int accept(int file, struct sockaddr *from, socklen_t *length) { return accept4(file, from, length, 0); }

ssize_t pread64(int file, void *to, size_t size, off64_t place)
{
    return fails("disk", NULL) ? is_refused(EIO) : syscall(SYS_pread64, file, to, size, place);
}

ssize_t pwrite64(int file, const void *from, size_t size, off64_t place)
{
    return fails("disk", NULL) ? is_refused(EIO) : syscall(SYS_pwrite64, file, from, size, place);
}

int fsync(int file)
{
    return fails("disk", NULL) ? is_refused(EIO) : syscall(SYS_fsync, file);
}

int fdatasync(int file)
{
    return fails("disk", NULL) ? is_refused(EIO) : syscall(SYS_fdatasync, file);
}

int ftruncate64(int file, off64_t size)
{
    return fails("disk", NULL) ? is_refused(EIO) : syscall(SYS_ftruncate, file, size);
}

ssize_t pread(int file, void *to, size_t size, off_t place) { return pread64(file, to, size, place); }

ssize_t pwrite(int file, const void *from, size_t size, off_t place) { return pwrite64(file, from, size, place); }

int ftruncate(int file, off_t size) { return ftruncate64(file, size); }
