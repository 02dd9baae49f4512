/* The header in C99: every buffer of 0 elements may be a null pointer, and the limits are at the edge. */
#include "kullneyra.h"

#include <stdio.h>

static int failed = 0;

static void expect(const char *name, uint32_t wanted, uint32_t found) {
    if (wanted != found) {
        printf("%s: %u expected, %u found\n", name, (unsigned)wanted, (unsigned)found);
        failed = 1;
    }
}

int main(void) {
    static const uint32_t alone[2] = {0, 0};
    uint32_t head[KULLNEYRA_HEADER_WORDS] = {7, 7, 7}, store[KULLNEYRA_READ_WORDS] = {7, 7, 7, 7};
    uint32_t work[KULLNEYRA_WORK(1, 1)];
    uint64_t part[KULLNEYRA_PART_WORDS] = {7, 7}, counts[KULLNEYRA_MARK_WORDS], stopped[KULLNEYRA_STOP_WORDS];
    uint64_t swept[KULLNEYRA_SWEEP_WORDS];
    uint64_t tallies[KULLNEYRA_TALLIES(1)] = {7, 7, 7, 7};
    uint32_t saved[KULLNEYRA_SAVED(1, 1)];
    uint8_t marks[KULLNEYRA_MARKS(1)];

    expect("empty catalogue, header", KULLNEYRA_SHORT, kullneyra_header(NULL, 0, head, KULLNEYRA_HEADER_WORDS));
    expect("no result words, header", KULLNEYRA_BUFFER, kullneyra_header(NULL, 0, NULL, 0));
    expect("empty catalogue, read", KULLNEYRA_SHORT,
           kullneyra_read(NULL, 0, NULL, 0, NULL, 0, NULL, 0, NULL, 0, store, KULLNEYRA_READ_WORDS));
    expect("no result words, read", KULLNEYRA_BUFFER,
           kullneyra_read(NULL, 0, NULL, 0, NULL, 0, NULL, 0, NULL, 0, NULL, 0));
    expect("result words kept", 14, head[0] + store[3]);
    expect("no graph, references", KULLNEYRA_OK,
           kullneyra_references(NULL, 0, NULL, 0, 0, part, KULLNEYRA_PART_WORDS));
    expect("the empty part", 0, (uint32_t)(part[0] + part[1]));
    expect("no result words, references", KULLNEYRA_BUFFER, kullneyra_references(NULL, 0, NULL, 0, 0, NULL, 0));
    expect("no graph, mark", KULLNEYRA_COUNT,
           kullneyra_mark(NULL, 0, NULL, 0, NULL, 0, 1, 1, 1, NULL, 0, NULL, 0, NULL, 0, NULL, 0, counts,
                          KULLNEYRA_MARK_WORDS));
    expect("no result words, mark", KULLNEYRA_BUFFER,
           kullneyra_mark(NULL, 0, NULL, 0, NULL, 0, 1, 1, 1, NULL, 0, NULL, 0, NULL, 0, NULL, 0, NULL, 0));
    expect("no targets and no turns, mark", KULLNEYRA_OK,
           kullneyra_mark(alone, KULLNEYRA_OFFSETS(1), NULL, 0, alone, 1, 1, KULLNEYRA_MOST_SETTING,
                          KULLNEYRA_MOST_SETTING, NULL, 0, marks, KULLNEYRA_MARKS(1), work, KULLNEYRA_WORK(1, 1),
                          tallies, KULLNEYRA_TALLIES(1), counts, KULLNEYRA_MARK_WORDS));
    expect("live", 1, (uint32_t)counts[1]);
    expect("a tally without turns", 0, (uint32_t)(tallies[0] + tallies[1] + tallies[2] + tallies[3]));
    expect("no targets, mark_all", KULLNEYRA_OK,
           kullneyra_mark_all(alone, KULLNEYRA_OFFSETS(1), NULL, 0, alone, 1, 1, KULLNEYRA_MOST_SETTING,
                              KULLNEYRA_MOST_SETTING, marks, KULLNEYRA_MARKS(1), work, KULLNEYRA_WORK(1, 1), tallies,
                              KULLNEYRA_TALLIES(1), counts, KULLNEYRA_MARK_WORDS));
    expect("no graph, mark_all", KULLNEYRA_COUNT,
           kullneyra_mark_all(NULL, 0, NULL, 0, NULL, 0, 1, 1, 1, NULL, 0, NULL, 0, NULL, 0, counts, KULLNEYRA_MARK_WORDS));
    expect("no starts, mark", KULLNEYRA_NO_STARTS,
           kullneyra_mark(alone, KULLNEYRA_OFFSETS(1), NULL, 0, NULL, 0, 1, 1, 1, NULL, 0, marks, KULLNEYRA_MARKS(1),
                          work, KULLNEYRA_WORK(1, 1), tallies, KULLNEYRA_TALLIES(1), counts, KULLNEYRA_MARK_WORDS));
    expect("no tallies, mark", KULLNEYRA_BUFFER,
           kullneyra_mark(alone, KULLNEYRA_OFFSETS(1), NULL, 0, alone, 1, 1, 1, 1, NULL, 0, marks, KULLNEYRA_MARKS(1),
                          work, KULLNEYRA_WORK(1, 1), NULL, 0, counts, KULLNEYRA_MARK_WORDS));
    expect("too many workers", KULLNEYRA_SETTING,
           kullneyra_mark(NULL, 0, NULL, 0, NULL, 0, KULLNEYRA_MOST_WORKERS + 1, 1, 1, NULL, 0, NULL, 0, NULL, 0,
                          NULL, 0, counts, KULLNEYRA_MARK_WORDS));
    expect("no result words, saved_words", KULLNEYRA_BUFFER, kullneyra_saved_words(1, 1, NULL, 0));
    expect("no graph, begin", KULLNEYRA_COUNT,
           kullneyra_begin(NULL, 0, NULL, 0, NULL, 0, 1, 1, 1, NULL, 0, NULL, 0, NULL, 0, NULL, 0, NULL, 0, stopped,
                           KULLNEYRA_STOP_WORDS));
    expect("no result words, begin", KULLNEYRA_BUFFER,
           kullneyra_begin(NULL, 0, NULL, 0, NULL, 0, 1, 1, 1, NULL, 0, NULL, 0, NULL, 0, NULL, 0, NULL, 0, NULL, 0));
    expect("no saved words, begin", KULLNEYRA_BUFFER,
           kullneyra_begin(alone, KULLNEYRA_OFFSETS(1), NULL, 0, alone, 1, 1, 1, 1, NULL, 0, marks, KULLNEYRA_MARKS(1),
                           work, KULLNEYRA_WORK(1, 1), tallies, KULLNEYRA_TALLIES(1), NULL, 0, stopped,
                           KULLNEYRA_STOP_WORDS));
    expect("no targets and no turns, begin", KULLNEYRA_OK,
           kullneyra_begin(alone, KULLNEYRA_OFFSETS(1), NULL, 0, alone, 1, 1, 1, 1, NULL, 0, marks, KULLNEYRA_MARKS(1),
                           work, KULLNEYRA_WORK(1, 1), tallies, KULLNEYRA_TALLIES(1), saved, KULLNEYRA_SAVED(1, 1),
                           stopped, KULLNEYRA_STOP_WORDS));
    expect("no graph, resume", KULLNEYRA_COUNT,
           kullneyra_resume(NULL, 0, NULL, 0, NULL, 0, 1, 1, 1, NULL, 0, NULL, 0, NULL, 0, NULL, 0, NULL, 0, stopped,
                            KULLNEYRA_STOP_WORDS));
    expect("no result words, resume", KULLNEYRA_BUFFER,
           kullneyra_resume(NULL, 0, NULL, 0, NULL, 0, 1, 1, 1, NULL, 0, NULL, 0, NULL, 0, NULL, 0, NULL, 0, NULL, 0));
    expect("no targets and no turns, resume", KULLNEYRA_OK,
           kullneyra_resume(alone, KULLNEYRA_OFFSETS(1), NULL, 0, alone, 1, 1, 1, 1, NULL, 0, marks,
                            KULLNEYRA_MARKS(1), work, KULLNEYRA_WORK(1, 1), tallies, KULLNEYRA_TALLIES(1), saved,
                            KULLNEYRA_SAVED(1, 1), stopped, KULLNEYRA_STOP_WORDS));
    expect("no objects, sweep", KULLNEYRA_COUNT,
           kullneyra_sweep(NULL, 0, NULL, 0, NULL, 0, swept, KULLNEYRA_SWEEP_WORDS));
    expect("no result words, sweep", KULLNEYRA_BUFFER, kullneyra_sweep(NULL, 0, NULL, 0, NULL, 0, NULL, 0));
    {
        uint64_t size = KULLNEYRA_LARGEST_SIZE;
        uint8_t dead = 0;
        uint32_t list[KULLNEYRA_LIST(1)];
        expect("the largest size", KULLNEYRA_OK,
               kullneyra_sweep(&dead, 1, &size, 1, list, 1, swept, KULLNEYRA_SWEEP_WORDS));
        size += 1;
        expect("one above it", KULLNEYRA_SIZE,
               kullneyra_sweep(&dead, 1, &size, 1, list, 1, swept, KULLNEYRA_SWEEP_WORDS));
    }
    {
        uint64_t length[1];
        static uint32_t work[KULLNEYRA_SCAN_WORK];
        expect("no names and no texts, scan_length", KULLNEYRA_OK,
               kullneyra_scan_length(1, 64, NULL, 0, NULL, 0, NULL, 0, NULL, 0, NULL, 0, work, KULLNEYRA_SCAN_WORK, length, 1));
        expect("no result word, scan_length", KULLNEYRA_BUFFER,
               kullneyra_scan_length(1, 64, NULL, 0, NULL, 0, NULL, 0, NULL, 0, NULL, 0, work, KULLNEYRA_SCAN_WORK, NULL, 0));
        expect("no work, scan_length", KULLNEYRA_BUFFER,
               kullneyra_scan_length(1, 64, NULL, 0, NULL, 0, NULL, 0, NULL, 0, NULL, 0, NULL, 0, length, 1));
        expect("no names and no texts, scan", KULLNEYRA_OK,
               kullneyra_scan(1, 64, NULL, 0, NULL, 0, NULL, 0, NULL, 0, NULL, 0, work, KULLNEYRA_SCAN_WORK, NULL, 0, NULL, 0));
        expect("names of no bytes, scan", KULLNEYRA_NAMES,
               kullneyra_scan(1, 0, NULL, 0, NULL, 0, NULL, 0, NULL, 0, NULL, 0, work, KULLNEYRA_SCAN_WORK, NULL, 0, NULL, 0));
    }
    return failed;
}
