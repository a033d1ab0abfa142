/* Loaded before the C library, to try a program where reading or writing goes wrong. READS and WRITES say what its first calls on standard input and standard output do, a letter each:
 *   .  moves seven bytes at the most
 *   i  is interrupted by a signal
 *   e  fails
 *   0  moves nothing, and answers 0
 * Later calls are as they are. */
#define _GNU_SOURCE
#include <errno.h>
#include <stdlib.h>
#include <sys/syscall.h>
#include <unistd.h>

/* What the next of these calls does; a space where nothing is said of it. */
static char next(const char *name, size_t *at) {
    const char *letters = getenv(name);
    if (letters == NULL || letters[*at] == 0) return ' ';
    return letters[(*at)++];
}

/* Whether the call is to be made at all; else its answer is in `answer`. */
static int is_made(char letter, size_t *count, ssize_t *answer) {
    *answer = -1;
    if (letter == 'i') errno = EINTR;
    else if (letter == 'e') errno = EIO;
    else if (letter == '0') errno = *answer = 0;
    else {
        if (letter == '.' && *count > 7) *count = 7;
        return 1;
    }
    return 0;
}

ssize_t read(int file, void *bytes, size_t count) {
    static size_t at;
    ssize_t answer;
    if (file == 0 && !is_made(next("READS", &at), &count, &answer)) return answer;
    return syscall(SYS_read, file, bytes, count);
}

ssize_t write(int file, const void *bytes, size_t count) {
    static size_t at;
    ssize_t answer;
    if (file == 1 && !is_made(next("WRITES", &at), &count, &answer)) return answer;
    return syscall(SYS_write, file, bytes, count);
}
