/* A collection turn by turn: what the library saves after each turn of the order, as lines of numbers, for tools/course.py.
 *
 *     steps FOLDER TURNS LOOKED PRINTED
 *
 * FOLDER has store.cat and order.run. No turn is taken after the end, where nothing changes, none behind the first TURNS, and
 * none once the library was given LOOKED saved words, or PRINTED changed words were printed.
 *
 * Every line is a word and numbers. Behind the start's saved words, each turn has its box, whom it names, whether the
 * collection is finished, and the saved words that it changed: place and new word of each. The lines come as the turns are
 * made. A refused call ends the program with the line `refusal NUMBER CALL`. */
#include <stdio.h>
#include <stdlib.h>
#include <string.h>

#include "kullneyra.h"

static _Noreturn void fail(const char *what) {
    fprintf(stderr, "steps: %s\n", what);
    exit(2);
}

static void *lend(size_t count, size_t size) {
    void *memory = calloc(count + 1, size);
    if (memory == NULL) {
        fail("no memory");
    }
    return memory;
}

static void flush(void) {
    if (fflush(stdout) != 0 || ferror(stdout)) {
        fail("the output is lost");
    }
}

static void check(uint32_t number, const char *call) {
    if (number != KULLNEYRA_OK) {
        printf("refusal %u %s\n", (unsigned)number, call);
        flush();
        exit(0);
    }
}

static uint8_t *load(const char *folder, const char *name, size_t *length) {
    char path[4096];
    if (snprintf(path, sizeof path, "%s/%s", folder, name) >= (int)sizeof path) {
        fail("a path too long");
    }
    FILE *file = fopen(path, "rb");
    if (file == NULL || fseek(file, 0, SEEK_END) != 0) {
        fail(path);
    }
    const long size = ftell(file);
    uint8_t *bytes = lend(size < 0 ? 0 : (size_t)size, 1);
    rewind(file);
    *length = fread(bytes, 1, size < 0 ? 0 : (size_t)size, file);
    if (size < 0 || *length != (size_t)size) {
        fail(path);
    }
    fclose(file);
    return bytes;
}

static void words(const char *name, const uint32_t *word, size_t count) {
    fputs(name, stdout);
    for (size_t i = 0; i < count; i++) {
        printf(" %u", (unsigned)word[i]);
    }
    putchar('\n');
}

/* Prints the words that are not as before, and makes them so; how many there are. */
static size_t changes(uint32_t *before, const uint32_t *after, size_t count) {
    size_t changed = 0;
    for (size_t i = 0; i < count; i++) {
        if (before[i] != after[i]) {
            printf(" %zu %u", i, (unsigned)after[i]);
            before[i] = after[i];
            changed++;
        }
    }
    putchar('\n');
    return changed;
}

int main(int count, char **word) {
    if (count != 5) {
        fail("steps FOLDER TURNS LOOKED PRINTED");
    }
    const size_t most = strtoul(word[2], NULL, 10), most_looked = strtoul(word[3], NULL, 10);
    const size_t most_printed = strtoul(word[4], NULL, 10);
    size_t store_len, order_len;
    const uint8_t *bytes = load(word[1], "store.cat", &store_len), *order = load(word[1], "order.run", &order_len);

    struct kullneyra_head head;
    check(kullneyra_header_into(bytes, store_len, &head), "header");
    uint32_t *offsets = lend(KULLNEYRA_OFFSETS(head.n), 4), *targets = lend(KULLNEYRA_TARGETS(head.m), 4);
    uint32_t *starts = lend(KULLNEYRA_STARTS, 4);
    uint64_t *sizes = lend(KULLNEYRA_SIZES(head.n), 8);
    struct kullneyra_store store;
    check(kullneyra_read_into(bytes, store_len, offsets, KULLNEYRA_OFFSETS(head.n), targets, KULLNEYRA_TARGETS(head.m),
                              sizes, KULLNEYRA_SIZES(head.n), starts, KULLNEYRA_STARTS, &store),
          "read");
    if (order_len < 5) {
        check(KULLNEYRA_FILE, "order");
    }
    const uint32_t workers = order[0], batch = order[1] | (uint32_t)order[2] << 8, cutoff = order[3] | (uint32_t)order[4] << 8;
    const uint8_t *schedule = order + 5;
    const size_t schedule_len = order_len - 5;

    uint64_t saved_words;
    check(kullneyra_saved_words_into(store.n, workers, &saved_words), "saved_words");
    uint8_t *marks = lend(KULLNEYRA_MARKS(store.n), 1);
    uint32_t *work = lend(KULLNEYRA_WORK(store.n, workers), 4), *saved = lend(saved_words, 4);
    uint64_t *tallies = lend(KULLNEYRA_TALLIES(workers), 8);
    struct kullneyra_stopped stopped;
#define TURNS(call, from, length)                                                                                       \
    check(kullneyra_##call##_into(offsets, KULLNEYRA_OFFSETS(store.n), targets, KULLNEYRA_TARGETS(store.m), starts,      \
                                  store.starts, workers, batch, cutoff, schedule + (from), length, marks,                \
                                  KULLNEYRA_MARKS(store.n), work, KULLNEYRA_WORK(store.n, workers), tallies,             \
                                  KULLNEYRA_TALLIES(workers), saved, saved_words, &stopped),                              \
          #call)
    /* The whole order once, so that it is refused before a turn is drawn. */
    TURNS(begin, 0, schedule_len);
    TURNS(begin, 0, 0);

    printf("store %u %u %u %u %u\n", (unsigned)store.n, (unsigned)store.m, (unsigned)workers, (unsigned)batch, (unsigned)cutoff);
    words("offsets", offsets, KULLNEYRA_OFFSETS(store.n));
    words("targets", targets, KULLNEYRA_TARGETS(store.m));
    words("starts", starts, store.starts);
    uint64_t hop_words;
    check(kullneyra_hop_words_into(store.n, &hop_words), "hop_words");
    uint32_t *hops = lend(store.n, 4), *links = lend(hop_words, 4);
    check(kullneyra_hops_into(offsets, KULLNEYRA_OFFSETS(store.n), targets, KULLNEYRA_TARGETS(store.m), starts,
                              store.starts, hops, store.n, links, hop_words),
          "hops");
    words("hops", hops, store.n);
    words("saved", saved, saved_words);
    const size_t turns = schedule_len / 2;
    printf("turns %zu\n", turns);
    flush();
    uint32_t *before = lend(saved_words, 4);
    memcpy(before, saved, saved_words * sizeof *before);
    size_t turn = 0, looked = 0, printed = 0;
    while (turn < turns && turn < most && looked < most_looked && printed < most_printed && !stopped.finished) {
        TURNS(resume, 2 * turn, 2);
        printf("turn %u %u %u", (unsigned)schedule[2 * turn], (unsigned)schedule[2 * turn + 1], (unsigned)stopped.finished);
        printed += changes(before, saved, saved_words);
        looked += saved_words;
        turn++;
    }
    printf("left %zu\n", turns - turn);
    uint32_t *list = lend(KULLNEYRA_LIST(store.n), 4);
    struct kullneyra_swept swept;
    check(kullneyra_sweep_into(marks, KULLNEYRA_MARKS(store.n), sizes, KULLNEYRA_SIZES(store.n), list,
                               KULLNEYRA_LIST(store.n), &swept),
          "sweep");
    if (stopped.finished) {
        printf("freed %llu\n", (unsigned long long)swept.freed);
        words("dead", list, swept.count);
    }
    flush();
    return 0;
}
