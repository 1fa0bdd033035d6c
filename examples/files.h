/* files.h: shared by the examples that write files: all bytes into a file or onto a line, closed streams, the name of a new file. */
#ifndef FILES_H
#define FILES_H
#include <errno.h>
#include <fcntl.h>
#include <stdbool.h>
#include <stddef.h>
#include <stdint.h>
#include <string.h>
#include <unistd.h>

/* Writes all of the bytes; false if that cannot be done, and `errno` says why. */
static inline bool write_all(int to, const uint8_t *bytes, size_t length)
{
    while (length > 0) {
        long put = write(to, bytes, length);
        if (put < 0 && errno != EINTR) {
            return false;
        }
        bytes += put > 0 ? put : 0;
        length -= put > 0 ? (size_t)put : 0;
    }
    return true;
}

/* To be called before a file is opened. If standard input, output or error is closed, the next file would get its number, and what is
   printed would go into that file. So the number is taken, the wrong way round: to use it fails as before. False if that cannot be done. */
static inline bool take_closed(void)
{
    for (int number = 0; number <= 2; number++) {
        if (fcntl(number, F_GETFD) < 0 && open("/dev/null", number == 0 ? O_WRONLY : O_RDONLY) != number) {
            return false;
        }
    }
    return true;
}

/* Brings the name of a new file to the disk, by way of its folder; false if that fails. A folder that may not be read, or a file system
   that cannot do that, is no failure: the bytes are there in any case. */
static inline bool sync_name(const char *path)
{
    char folder[4096] = "."; /* no path that can be opened is longer */
    const char *slash = strrchr(path, '/');
    size_t length = slash != NULL ? (size_t)(slash - path) + 1 : 0;
    if (length >= sizeof folder) {
        errno = ENAMETOOLONG;
        return false;
    }
    if (length > 0) {
        memcpy(folder, path, length);
        folder[length] = 0;
    }
    int opened = open(folder, O_RDONLY);
    if (opened < 0) {
        return true;
    }
    bool done = fsync(opened) == 0 || errno == EINVAL;
    close(opened);
    return done;
}
#endif
