/* One collection in C: store S of the project's samples, two workers that take turns. It prints what
 * the program of the project prints for it. */
#include <stdio.h>

#include "kullneyra.h"

#define N 6
#define M 6
#define W 2

static void word(uint8_t *at, uint64_t value, int bytes) {
    for (int i = 0; i < bytes; i++) {
        at[i] = (uint8_t)(value >> (8 * i));
    }
}

static size_t record(uint8_t *at, uint16_t length, uint16_t kind) {
    word(at, length, 2);
    word(at + 2, kind, 2);
    return length;
}

static int refused(uint32_t number) {
    printf("refusal %u\n", (unsigned)number);
    return 1;
}

int main(void) {
    static const uint32_t pairs[M][2] = {{0, 1}, {0, 2}, {1, 3}, {2, 3}, {3, 0}, {5, 4}};
    uint8_t bytes[16 + 12 * N + 12 * M];
    size_t at = record(bytes, 16, 1);
    word(bytes + 4, N, 4);
    word(bytes + 8, M, 4);
    word(bytes + 12, 0, 4);
    for (int v = 0; v < N; v++) {
        word(bytes + at + 4, 100 * ((uint64_t)v + 1), 8);
        at += record(bytes + at, 12, 2);
    }
    for (int e = 0; e < M; e++) {
        word(bytes + at + 4, pairs[e][0], 4);
        word(bytes + at + 8, pairs[e][1], 4);
        at += record(bytes + at, 12, 3);
    }

    uint32_t offsets[KULLNEYRA_OFFSETS(N)], targets[KULLNEYRA_TARGETS(M)];
    uint64_t sizes[KULLNEYRA_SIZES(N)];
    uint32_t starts[KULLNEYRA_STARTS];
    struct kullneyra_store store;
    uint32_t answer = kullneyra_read_into(bytes, at, offsets, KULLNEYRA_OFFSETS(N), targets, KULLNEYRA_TARGETS(M),
                                          sizes, KULLNEYRA_SIZES(N), starts, KULLNEYRA_STARTS, &store);
    if (answer != KULLNEYRA_OK) {
        return refused(answer);
    }

    static const uint8_t order[] = {0, 1, 0, 0, 0, 1, 1, 0, 1, 0, 0, 0, 1, 0, 1, 1, 0, 1, 0, 1};
    uint8_t schedule[2 * sizeof order] = {0};
    for (size_t i = 0; i < sizeof order; i++) {
        schedule[2 * i] = order[i];
    }
    uint8_t marks[KULLNEYRA_MARKS(N)];
    uint32_t work[KULLNEYRA_WORK(N, W)];
    uint64_t tallies[KULLNEYRA_TALLIES(W)];
    struct kullneyra_marked marked;
    answer = kullneyra_mark_into(offsets, KULLNEYRA_OFFSETS(N), targets, KULLNEYRA_TARGETS(M), starts, store.starts, W, 1, 1,
                                 schedule, sizeof schedule, marks, KULLNEYRA_MARKS(N), work, KULLNEYRA_WORK(N, W),
                                 tallies, KULLNEYRA_TALLIES(W), &marked);
    if (answer != KULLNEYRA_OK) {
        return refused(answer);
    }
    puts(marked.finished ? "finished" : "unfinished");
#define LINE(name) printf(#name " %llu\n", (unsigned long long)marked.name);
    KULLNEYRA_COUNTS(LINE)
    for (uint32_t b = 0; b < W; b++) {
        const struct kullneyra_tally tally = kullneyra_tally_of(tallies, b);
        printf("box %u followed %llu won %llu lost %llu handed %llu\n", (unsigned)b,
               (unsigned long long)tally.followed, (unsigned long long)tally.won, (unsigned long long)tally.lost,
               (unsigned long long)tally.handed);
    }
    if (!marked.finished) {
        return 0;
    }

    uint32_t list[KULLNEYRA_LIST(N)];
    struct kullneyra_swept swept;
    answer = kullneyra_sweep_into(marks, KULLNEYRA_MARKS(N), sizes, KULLNEYRA_SIZES(N), list, KULLNEYRA_LIST(N),
                                  &swept);
    if (answer != KULLNEYRA_OK) {
        return refused(answer);
    }
    for (uint64_t i = 0; i < swept.count; i++) {
        printf("dead %u %llu\n", (unsigned)list[i], (unsigned long long)sizes[list[i]]);
    }
    printf("freed %llu\n", (unsigned long long)swept.freed);
    return 0;
}
