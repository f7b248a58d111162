/* kept FILE SLICE: runs an executable file in slices of so many instructions over standard input, writes what it puts, and ends with its status. Half
   way it takes a snapshot, goes on, goes back, and goes on again: what it puts then has to be the same. 99: something was not as it should be. */
#include <stdio.h>
#include "zikorape_machine.h"

static uint8_t file[1 << 20], input[1 << 20], first[1 << 20], again[1 << 20];

static uint32_t to_end(zk_kept *m, uint64_t slice) {
    uint32_t answer;
    while ((answer = zk_machine_run(m, slice)) == 0) {}
    return answer;
}

int main(int argc, char **argv) {
    if (argc != 3) return 99;
    FILE *from = fopen(argv[1], "rb");
    if (!from) return 99;
    size_t length = fread(file, 1, sizeof file, from), n = fread(input, 1, sizeof input, stdin);
    uint64_t slice = strtoull(argv[2], 0, 10);
    uint32_t why;
    zk_kept *m = zk_machine_new(file, length, &why);
    if (!m || zk_machine_input(m, input, n / 2) != n / 2) return 99;
    for (int k = 0; k < 40 && zk_machine_run(m, slice) == 0; k++) {}
    size_t put = zk_machine_output(m, first, sizeof first);
    zk_snapshot *s = zk_machine_snapshot(m);
    if (!s) return 99;
    uint32_t registers[2][32], pc[2];
    size_t had[2];
    for (int turn = 0; turn < 2; turn++) {
        if (turn && zk_machine_restore(m, s)) return 99;
        if (zk_machine_input(m, input + n / 2, n - n / 2) != n - n / 2) return 99;
        zk_machine_close_input(m);
        if (to_end(m, slice) != 1) return 99;
        had[turn] = zk_machine_output(m, turn ? again : first + put, sizeof first - put);
        pc[turn] = zk_machine_registers(m, registers[turn]);
    }
    int status = (int)zk_machine_detail(m);
    if (had[0] != had[1] || memcmp(first + put, again, had[0]) || pc[0] != pc[1] || memcmp(registers[0], registers[1], sizeof registers[0])) return 99;
    fwrite(first, 1, put + had[0], stdout);
    free(s);
    zk_machine_free(m);
    return status;
}
