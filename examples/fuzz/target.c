/* A fuzz target: does a program do anything undefined, or does its file do anything else than the program means, on some input?

       zkc build checksum.c -o checksum
       clang -g -fsanitize=fuzzer -I../../include -DPROGRAM='"checksum.c"' target.c ../../bindings/out/libzikorape.a -o fuzz && ./fuzz

   Without libFuzzer, `gcc -DWITH_MAIN ..` makes a program that tries the files of its command line as inputs. What it finds it says on standard error, and
   it aborts, so that the fuzzer keeps the input. PROGRAM is the path of the C source, which stands alone. */
#include <stdint.h>
#include <stdio.h>
#include <stdlib.h>
#include <string.h>
#include <zikorape.h>

#ifndef PROGRAM
#define PROGRAM "checksum.c"
#endif
#define ROOM (1 << 20)
#define TICKS 1000000

static uint8_t source[ROOM], built[ROOM], meant[ROOM], done[ROOM], line[256];
static size_t source_length, built_length;
static struct zk_file file;
static const uint8_t name[] = "program.c";

static void stop(const char *what) {
    fprintf(stderr, "%s: %s\n%s", PROGRAM, what, (const char *)line);
    abort();
}

/* The source, with its name before it, and its file. */
static void start(void) {
    FILE *in = fopen(PROGRAM, "rb");
    struct zk_sizes sizes;
    if (!in)
        stop("cannot be read");
    memcpy(source, name, sizeof name - 1);
    source_length = sizeof name - 1 + fread(source + sizeof name - 1, 1, sizeof source - sizeof name, in);
    fclose(in);
    file = (struct zk_file){ sizeof name - 1, source_length - (sizeof name - 1) };
    if (zk_build(source, source_length, &file, 1, name, sizeof name - 1, built, sizeof built, line, sizeof line - 1, &sizes) != 0)
        stop("is refused");
    built_length = sizes.output;
}

int LLVMFuzzerTestOneInput(const uint8_t *data, size_t size) {
    struct zk_sizes asked, got;
    if (!source_length)
        start();
    memset(line, 0, sizeof line);
    uint32_t status = zk_interpret(source, source_length, &file, 1, name, sizeof name - 1, data, size, TICKS, meant, sizeof meant, line, sizeof line - 1, &asked);
    if (status == 123 && asked.message)
        stop("does something undefined on this input");
    if (status == 124 && asked.message)
        return 0; /* it takes more ticks than are tried */
    uint32_t other = zk_run(built, built_length, (const uint8_t *)"a.out", 5, data, size, 64ull * TICKS + 64, done, sizeof done, line, sizeof line - 1, &got);
    if (status != other || asked.output != got.output || memcmp(meant, done, got.output < sizeof done ? got.output : sizeof done) != 0)
        stop("and its file differ on this input");
    return 0;
}

#ifdef WITH_MAIN
int main(int count, char **words) {
    static uint8_t input[ROOM];
    for (int k = 1; k < count; k++) {
        FILE *in = fopen(words[k], "rb");
        if (!in)
            return 2;
        size_t length = fread(input, 1, sizeof input, in);
        fclose(in);
        LLVMFuzzerTestOneInput(input, length);
    }
    return 0;
}
#endif
