/* library build|frames|pp|list MAIN [FILES], library interp MAIN [FILES], library run FILE: commands of zkc, by the library.
   The input is standard input, the output standard output (the executable file too). Link libzikorape.a. */
#include <stdio.h>
#include <stdlib.h>
#include <string.h>
#include "zikorape.h"

static uint8_t *texts;          /* names and bytes, one after another */
static size_t texts_length;
static struct zk_file files[256];
static size_t count;

static uint8_t *read_all(FILE *from, size_t *length) {
    size_t room = 1 << 16;
    uint8_t *bytes = malloc(room);
    *length = 0;
    for (size_t n; (n = fread(bytes + *length, 1, room - *length, from)) > 0; ) {
        *length += n;
        if (*length == room) bytes = realloc(bytes, room *= 2);
    }
    return bytes;
}

static uint8_t *read_file(const char *name, size_t *length) {
    FILE *from = fopen(name, "rb");
    if (!from) { fprintf(stderr, "%s:0: 802 cannot read\n", name); exit(1); }
    uint8_t *bytes = read_all(from, length);
    fclose(from);
    return bytes;
}

static void add_file(const char *name) {
    size_t named = strlen(name), length;
    uint8_t *bytes = read_file(name, &length);
    texts = realloc(texts, texts_length + named + length + 1);
    memcpy(texts + texts_length, name, named);
    memcpy(texts + texts_length + named, bytes, length);
    files[count++] = (struct zk_file){ named, length };
    texts_length += named + length;
    free(bytes);
}

int main(int argc, char **argv) {
    if (argc < 3 || argc > 257) return 2;
    const char *command = argv[1], *name = argv[2];
    const uint8_t *main_name = (const uint8_t *)name;
    size_t named = strlen(name), input_length = 0, file_length = 0, room = 1 << 16;
    int runs = !strcmp(command, "run");
    uint8_t *input = (uint8_t *)"", *file = 0, message[4096];
    if (runs) file = read_file(name, &file_length);
    else for (int i = 2; i < argc; i++) add_file(argv[i]);
    if (runs || !strcmp(command, "interp")) input = read_all(stdin, &input_length);
    for (;;) {
        struct zk_sizes sizes;
        uint8_t *out = malloc(room);
        uint32_t status;
        if (runs) status = zk_run(file, file_length, main_name, named, input, input_length, 10000000, out, room, message, sizeof message,
            &sizes);
        else if (!strcmp(command, "interp")) status = zk_interpret(texts, texts_length, files, count, main_name, named, input, input_length,
            10000000, out, room, message, sizeof message, &sizes);
        else status = (!strcmp(command, "build") ? zk_build : !strcmp(command, "frames") ? zk_frames : !strcmp(command, "pp") ? zk_preprocess : zk_list)
            (texts, texts_length, files, count, main_name, named, out, room, message, sizeof message, &sizes);
        if (sizes.output > room) { room = sizes.output; free(out); continue; }      /* too small: again, with as much as it asks for */
        fwrite(out, 1, sizes.output, stdout);
        fwrite(message, 1, sizes.message < sizeof message ? sizes.message : sizeof message, stderr);
        return (int)status;
    }
}
