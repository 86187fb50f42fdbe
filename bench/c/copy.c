/* The limit of any such program: reads standard input to its end and writes BYTES bytes, with no work in between. */
#include <stdio.h>
#include <stdlib.h>

#include "files.c"

enum { BUFFER = 65536 };

static uint8_t bytes[BUFFER];

/* Says what has failed and why. */
static int fail(const char *what)
{
    perror(what);
    return 1;
}

int main(int count, char **words)
{
    if (count != 2) {
        fputs("usage: copy BYTES < LOG\n", stderr);
        return 2;
    }
    unsigned long long left = strtoull(words[1], NULL, 10);
    ssize_t got;
    do {
        got = read_some(STDIN_FILENO, bytes, BUFFER);
        if (got < 0)
            return fail("reading the log");
    } while (got > 0);
    while (left > 0) {
        size_t size = left < BUFFER ? (size_t)left : BUFFER;
        if (!write_all(STDOUT_FILENO, bytes, size))
            return fail("writing");
        left -= size;
    }
    return 0;
}
