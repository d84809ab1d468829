// Preloaded (schedules/edges): answers the first FIRST calls of CALL, which is open, sendto, recvfrom, read or write, with the error of
// number ERROR. Into the file SEEN it writes the own address of the socket, at each sendto, and at the end how many of CALL came.
#define _GNU_SOURCE
#include <arpa/inet.h>
#include <errno.h>
#include <fcntl.h>
#include <stdarg.h>
#include <stdio.h>
#include <stdlib.h>
#include <string.h>
#include <sys/socket.h>
#include <sys/syscall.h>
#include <unistd.h>

static long calls, first;
static int error;
static const char *name = "";

__attribute__((constructor)) static void begin(void)
{
    name = getenv("CALL") ? getenv("CALL") : "";
    first = getenv("FIRST") ? atol(getenv("FIRST")) : 0;
    error = getenv("ERROR") ? atoi(getenv("ERROR")) : EINTR;
}

static void see(const char *what, const char *which)
{
    FILE *seen = getenv("SEEN") ? fopen(getenv("SEEN"), "a") : 0;
    if (!seen)
        return;
    fprintf(seen, "%s %s\n", what, which);
    fclose(seen);
}

static int fails(const char *call)
{
    if (strcmp(call, name) || __atomic_add_fetch(&calls, 1, __ATOMIC_RELAXED) > first)
        return 0;
    errno = error;
    return 1;
}

// (The program opens files to read them. What else is opened here, as SEEN, is written.)
int open(const char *path, int flags, ...)
{
    va_list more;
    va_start(more, flags);
    mode_t mode = va_arg(more, mode_t);
    va_end(more);
    return fails("open") ? -1 : (int)syscall(SYS_openat, AT_FDCWD, path, flags, mode);
}

ssize_t read(int file, void *bytes, size_t count)
{
    return fails("read") ? -1 : syscall(SYS_read, file, bytes, count);
}

ssize_t write(int file, const void *bytes, size_t count)
{
    return file == 1 && fails("write") ? -1 : syscall(SYS_write, file, bytes, count);
}

ssize_t sendto(int socket, const void *bytes, size_t count, int flags, const struct sockaddr *to, socklen_t size)
{
    struct sockaddr_in own;
    socklen_t length = sizeof own;
    memset(&own, 0, sizeof own);
    if (!getsockname(socket, (struct sockaddr *)&own, &length))
        see("address", inet_ntoa(own.sin_addr));
    return fails("sendto") ? -1 : syscall(SYS_sendto, socket, bytes, count, flags, to, size);
}

ssize_t recvfrom(int socket, void *bytes, size_t count, int flags, struct sockaddr *from, socklen_t *size)
{
    return fails("recvfrom") ? -1 : syscall(SYS_recvfrom, socket, bytes, count, flags, from, size);
}

static void end(void)
{
    char number[32];
    snprintf(number, sizeof number, "%ld", calls);
    name = "";
    see("calls", number);
}

// The program ends by this, and passes over what is to be done at the end.
void _exit(int status)
{
    end();
    for (;;)
        syscall(SYS_exit_group, status);
}
