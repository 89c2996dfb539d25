/* Document 01's worked listing, run through the library. Prints its answers, its core line and its rights and grants. */
#include <stdio.h>

#include "cells.h"

enum { M = 3, N = 2, L = 16, STEPS = 5 };

int main(void) {
    const uint32_t first[N] = {4096, 8192}, last[N] = {4103, 8195}, offset[N] = {0, 8};
    uint8_t marks[N] = {1, 1}, rights[N * M] = {3, 0, 0, 0, 0, 4}, memory[L] = {0};
    uint16_t grants[N * M] = {0};
    const uint32_t steps[STEPS][4] = {{1, 4096, 65, 0}, {7, 4096, 2, 7}, {7, 4096, 1, 3}, {3, 8192, 2, 0}, {6, 4096, 0, 0}};
    cells_registers core = {0, 0, 0};

    memory[8] = 11;
    puts("cells\t1");
    for (int k = 0; k < STEPS; k++) {
        cells_reply reply = cells_execute(M, first, N, last, N, offset, N, marks, N, rights, N * M, grants, N * M, memory, L,
                                          core, steps[k][0], steps[k][1], steps[k][2], steps[k][3]);
        core = reply.registers;
        printf("answer\t%d\t%u\t%u\n", k + 1, reply.number, reply.value);
    }
    printf("core\t%u\t%u\t%u\n", core.current, core.caller, core.place);
    for (int e = 0; e < N * M; e++)
        if (rights[e]) printf("right\t%d\t%d\t%d\n", e / M, e % M, rights[e]);
    for (int e = 0; e < N * M; e++)
        if (grants[e]) printf("grant\t%d\t%d\t%d\t%d\n", e / M, e % M, grants[e] % 256, grants[e] / 256);
    return 0;
}
