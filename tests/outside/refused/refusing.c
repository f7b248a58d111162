/* Preloaded, it refuses what the program asks for.

   REFUSE_AT=N: the call of number N of malloc and realloc, and with REFUSE_ON those behind it too. At the end the count of these
   calls is written to the descriptor COUNT_TO, if any.
   READ_UP_TO=N, WRITE_UP_TO=N: so many bytes of standard input are given, of standard output are taken; the next call fails. */
#include <dlfcn.h>
#include <errno.h>
#include <stddef.h>
#include <stdio.h>
#include <stdlib.h>
#include <unistd.h>

void *__libc_malloc(size_t size);
void *__libc_realloc(void *place, size_t size);

static long calls, refused_at;
static long left_to_read = -1, left_to_write = -1;
static int refuses_on, count_to;
static ssize_t (*real_read)(int, void *, size_t);
static ssize_t (*real_write)(int, const void *, size_t);

static long number(const char *name, long otherwise) {
    const char *text = getenv(name);
    return text ? atol(text) : otherwise;
}

__attribute__((constructor)) static void begin(void) {
    *(void **)&real_read = dlsym(RTLD_NEXT, "read");
    *(void **)&real_write = dlsym(RTLD_NEXT, "write");
    calls = 0;
    refused_at = number("REFUSE_AT", 0);
    refuses_on = getenv("REFUSE_ON") != NULL;
    count_to = (int)number("COUNT_TO", 0);
    left_to_read = number("READ_UP_TO", -1);
    left_to_write = number("WRITE_UP_TO", -1);
}

__attribute__((destructor)) static void end(void) {
    char line[32];
    if (count_to) {
        int length = snprintf(line, sizeof line, "%ld\n", calls);
        if (real_write(count_to, line, (size_t)length) != length)
            _exit(99);
    }
}

static int is_refused(void) {
    calls++;
    if (refused_at && (calls == refused_at || (refuses_on && calls > refused_at))) {
        errno = ENOMEM;
        return 1;
    }
    return 0;
}

void *malloc(size_t size) { return is_refused() ? NULL : __libc_malloc(size); }

void *realloc(void *place, size_t size) { return is_refused() ? NULL : __libc_realloc(place, size); }

/* How many bytes of so many may pass; -1 where the call fails. */
static ssize_t pass(long *left, size_t size) {
    if (*left == 0) {
        errno = EIO;
        return -1;
    }
    return *left < 0 || (size_t)*left > size ? (ssize_t)size : (ssize_t)*left;
}

ssize_t read(int file, void *place, size_t size) {
    ssize_t allowed, done;
    if (file != 0 || left_to_read < 0)
        return real_read(file, place, size);
    allowed = pass(&left_to_read, size);
    if (allowed < 0)
        return allowed;
    done = real_read(file, place, (size_t)allowed);
    if (done > 0)
        left_to_read -= done;
    return done;
}

static ssize_t write_some(int file, const void *place, size_t size) {
    ssize_t allowed, done;
    if (file != 1 || left_to_write < 0)
        return real_write(file, place, size);
    allowed = pass(&left_to_write, size);
    if (allowed < 0)
        return allowed;
    done = real_write(file, place, (size_t)allowed);
    if (done > 0)
        left_to_write -= done;
    return done;
}

ssize_t write(int file, const void *place, size_t size) { return write_some(file, place, size); }

ssize_t __write(int file, const void *place, size_t size) { return write_some(file, place, size); }
