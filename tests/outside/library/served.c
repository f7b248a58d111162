/* served FILE: runs an executable file with standard input and output by callback, and ends with its status. 99: something was not as it should be. */
#include <stdio.h>
#include "zikorape_machine.h"

static uint8_t file[1 << 20];
static int waited;

/* Standard input; before each 3rd byte there is none yet, once. */
static int get(void *context) {
    int *count = (int *)context;
    if (++*count % 3 == 0 && !waited) {
        --*count;
        waited = 1;
        return ZK_LATER;
    }
    waited = 0;
    int byte = getchar();
    return byte == EOF ? ZK_END : byte;
}

static int put(void *context, uint8_t byte) {
    (void)context;
    return putchar(byte) == EOF;
}

int main(int argc, char **argv) {
    FILE *from = argc == 2 ? fopen(argv[1], "rb") : 0;
    if (!from) return 99;
    size_t length = fread(file, 1, sizeof file, from);
    uint32_t why, answer;
    zk_kept *m = zk_machine_new(file, length, &why);
    if (!m) return 99;
    int count = 0;
    while ((answer = zk_machine_serve(m, 1000003, get, put, &count)) == 0 || answer == 5) {}
    int status = answer == 1 ? (int)zk_machine_detail(m) : 99;
    zk_machine_free(m);
    return status;
}
