// What a commit costs the system alone: COUNT times, SIZE bytes are written at a file's end and synced, and then one byte
// before them is written and synced. Prints the microseconds for each.
//
// Usage: two_syncs FILE COUNT SIZE
#include <fcntl.h>
#include <stdio.h>
#include <stdlib.h>
#include <time.h>
#include <unistd.h>

static void must(int holds, const char *what) {
    if (!holds) {
        perror(what);
        exit(1);
    }
}

int main(int argc, char **argv) {
    if (argc != 4) {
        fprintf(stderr, "usage: two_syncs FILE COUNT SIZE\n");
        return 2;
    }
    long count = atol(argv[2]);
    long size = atol(argv[3]);
    char *piece = calloc(size, 1);
    must(piece != NULL, "calloc");
    int file = open(argv[1], O_RDWR | O_CREAT | O_TRUNC, 0600);
    must(file >= 0, "open");
    must(pwrite(file, piece, 1, 0) == 1 && fdatasync(file) == 0, "begin");
    struct timespec begin, end;
    clock_gettime(CLOCK_MONOTONIC, &begin);
    off_t at = 1;
    for (long i = 0; i < count; i++) {
        must(pwrite(file, piece, size, at) == size && fdatasync(file) == 0, "write");
        must(pwrite(file, "\1", 1, at - 1) == 1 && fdatasync(file) == 0, "mark");
        at += size;
    }
    clock_gettime(CLOCK_MONOTONIC, &end);
    double spent = (end.tv_sec - begin.tv_sec) * 1e6 + (end.tv_nsec - begin.tv_nsec) / 1e3;
    printf("%.0f\n", spent / count);
    return 0;
}
