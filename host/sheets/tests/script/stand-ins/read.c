/* A read that takes the place of the C library's in the sheet program: it brings one byte at a time,
   or brings one byte and is then interrupted. */
#define _GNU_SOURCE
#include <errno.h>
#include <sys/syscall.h>
#include <unistd.h>

ssize_t read(int fd, void *bytes, size_t room)
{
    size_t wanted = room < 1 ? room : 1;
#ifdef INTERRUPTED
    static int reads;
    if (0 < reads++) {
        errno = EINTR;
        return -1;
    }
#endif
    return syscall(SYS_read, fd, bytes, wanted);
}
