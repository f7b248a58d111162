/* stack BYTES SOURCE ..: builds, lists and interprets each source in a thread with so much stack. The answer is 0 where each call came
   back; a thread that has too little ends the program by a signal. */
#include <pthread.h>
#include <stdio.h>
#include <stdlib.h>
#include <string.h>
#include "zikorape.h"

static uint8_t text[1 << 21], out[1 << 22], message[4096];

static void *work(void *name) {
    FILE *from = fopen(name, "rb");
    if (!from) return name;
    memcpy(text, "main.c", 6);
    size_t length = fread(text + 6, 1, sizeof text - 6, from);
    fclose(from);
    struct zk_file file = { 6, length };
    struct zk_sizes sizes;
    zk_build(text, 6 + length, &file, 1, text, 6, out, sizeof out, message, sizeof message, &sizes);
    zk_list(text, 6 + length, &file, 1, text, 6, out, sizeof out, message, sizeof message, &sizes);
    zk_interpret(text, 6 + length, &file, 1, text, 6, text, 0, 100000, out, sizeof out, message, sizeof message, &sizes);
    return 0;
}

int main(int count, char **words) {
    pthread_attr_t how;
    pthread_attr_init(&how);
    if (pthread_attr_setstacksize(&how, strtoul(words[1], 0, 10))) return 2;
    for (int k = 2; k < count; k++) {
        pthread_t thread;
        void *failed;
        if (pthread_create(&thread, &how, work, words[k]) || pthread_join(thread, &failed) || failed) return 3;
    }
    return 0;
}
