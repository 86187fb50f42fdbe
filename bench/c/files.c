/* Bytes from and to open files; what an interrupt breaks off is taken up again. */
#include <errno.h>
#include <stdbool.h>
#include <stdint.h>
#include <unistd.h>

/* As many bytes as one read gives; 0 at the end, below 0 where it fails. */
static ssize_t read_some(int file, uint8_t *bytes, size_t room)
{
    ssize_t got;
    do
        got = read(file, bytes, room);
    while (got < 0 && errno == EINTR);
    return got;
}

/* Writes all of the bytes; false where it fails. */
static bool write_all(int file, const uint8_t *bytes, size_t size)
{
    while (size > 0) {
        ssize_t written = write(file, bytes, size);
        if (written < 0 && errno != EINTR)
            return false;
        if (written > 0) {
            bytes += written;
            size -= (size_t)written;
        }
    }
    return true;
}
