/* The program that bench/host.sh holds the host to: so many records of so many bytes appended in a loop by the library, nodes in memory, and nothing kept.
   Prints the seconds. With "stream" it writes the same records as a stream instead, for the host to read. */
#define _GNU_SOURCE
#include <stdint.h>
#include <stdio.h>
#include <stdlib.h>
#include <string.h>
#include <sys/mman.h>
#include <time.h>
#include "keeper.h"

static const keeper_mode mode; /* plain */

static double now(void) {
    struct timespec t;
    clock_gettime(CLOCK_MONOTONIC, &t);
    return (double)t.tv_sec + (double)t.tv_nsec / 1e9;
}

/* each record has its number at its start */
static void number_record(uint8_t *record, uint64_t number) { memcpy(record, &number, sizeof number); }

static int write_stream(uint64_t records, uint8_t *record, size_t length) {
    uint8_t head[4] = {(uint8_t)(length >> 24), (uint8_t)(length >> 16), (uint8_t)(length >> 8), (uint8_t)length};
    for (uint64_t i = 0; i < records; i++) {
        number_record(record, i);
        if (fwrite(head, 1, 4, stdout) != 4 || fwrite(record, 1, length, stdout) != length) return 1;
    }
    return fflush(stdout) != 0;
}

int main(int count, char **words) {
    if (count != 4) return 2;
    uint64_t records = strtoull(words[2], NULL, 10), size = 0, hashes, room = 64 * records;
    size_t length = strtoull(words[3], NULL, 10);
    uint8_t *record = calloc(1, length + 8), root[32];
    /* shared, as the host's are: under an emulator that decides how every access to memory is made */
    uint8_t *nodes = mmap(NULL, room, PROT_READ | PROT_WRITE, MAP_SHARED | MAP_ANONYMOUS, -1, 0);
    if (!record || nodes == MAP_FAILED) return 2;
    if (strcmp(words[1], "stream") == 0) return write_stream(records, record, length);
    double from = now();
    for (uint64_t i = 0; i < records; i++) {
        number_record(record, i);
        if (keeper_append(&mode, size, record, length, nodes, room, &size, &hashes) != KEEPER_DONE) return 1;
    }
    double took = now() - from;
    if (keeper_root(&mode, size, nodes, room, root, 32) != KEEPER_DONE) return 1;
    printf("%.3f %llu ", took, (unsigned long long)size);
    for (int i = 0; i < 32; i++) printf("%02x", root[i]);
    putchar('\n');
    return 0;
}
