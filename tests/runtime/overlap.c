/* Buffers that overlap: each form that users are told to use answers KULLNEYRA_BUFFER where a range that it writes has a
 * byte in common with another one, and touches nothing. Ranges that only touch each other are no fault. */
#include <kullneyra.h>
#include <stdio.h>

enum { MOST = 10 };

typedef struct {
    size_t bytes;
    size_t size; /* of an element */
    int written;
} Range;

typedef struct {
    const char *name;
    uint32_t (*make)(unsigned char *at[]);
    Range ranges[MOST]; /* in the order of the parameters, the answer last */
    int answers;        /* whether the last one is an answer */
} Call;

/* The ranges of a call with one object, one reference, one start and one worker. */
#define READ(type, len) {sizeof(type) * (len), sizeof(type), 0}
#define WRITTEN(type, len) {sizeof(type) * (len), sizeof(type), 1}
#define ANSWER(type, field) {sizeof(type), sizeof(field), 1}
#define GRAPH READ(uint32_t, 2), READ(uint32_t, 1)
#define NEW_GRAPH(len) WRITTEN(uint32_t, 2), WRITTEN(uint32_t, len)
#define OLD(k) (const uint32_t *)at[k], 2, (const uint32_t *)at[k + 1], 1
#define NEW(k, len) (uint32_t *)at[k], 2, (uint32_t *)at[k + 1], len
#define WORDS(k, len) (uint32_t *)at[k], len
#define BYTES(k, len) (uint8_t *)at[k], len
#define LONGS(k, len) (uint64_t *)at[k], len
#define INTO(k, name) (struct kullneyra_##name *)at[k]

enum { WORK = 6, SAVED = 35, HOP_WORK = 2, UPDATE_WORK = 1, BYTES = 64 };

static uint32_t header(unsigned char *at[]) { return kullneyra_header_into(BYTES(0, BYTES), INTO(1, head)); }
static uint32_t read(unsigned char *at[]) {
    return kullneyra_read_into(BYTES(0, BYTES), NEW(1, 1), LONGS(3, 1), WORDS(4, KULLNEYRA_STARTS), INTO(5, store));
}
static uint32_t references(unsigned char *at[]) { return kullneyra_references_into(OLD(0), 0, INTO(2, part)); }
static uint32_t mark(unsigned char *at[]) {
    return kullneyra_mark_into(OLD(0), WORDS(2, 1), 1, 1, 1, BYTES(3, 2), BYTES(4, 1), WORDS(5, WORK), LONGS(6, 4), INTO(7, marked));
}
static uint32_t mark_all(unsigned char *at[]) {
    return kullneyra_mark_all_into(OLD(0), WORDS(2, 1), 1, 1, 1, BYTES(3, 1), WORDS(4, WORK), LONGS(5, 4), INTO(6, marked));
}
static uint32_t begin(unsigned char *at[]) {
    return kullneyra_begin_into(OLD(0), WORDS(2, 1), 1, 1, 1, BYTES(3, 2), BYTES(4, 1), WORDS(5, WORK), LONGS(6, 4),
                                WORDS(7, SAVED), INTO(8, stopped));
}
static uint32_t resume(unsigned char *at[]) {
    return kullneyra_resume_into(OLD(0), WORDS(2, 1), 1, 1, 1, BYTES(3, 2), BYTES(4, 1), WORDS(5, WORK), LONGS(6, 4),
                                 WORDS(7, SAVED), INTO(8, stopped));
}
static uint32_t sweep(unsigned char *at[]) {
    return kullneyra_sweep_into(BYTES(0, 1), LONGS(1, 1), WORDS(2, 1), INTO(3, swept));
}
static uint32_t deal(unsigned char *at[]) { return kullneyra_deal_into(WORDS(0, 1), 1, BYTES(1, 2)); }
static uint32_t draw(unsigned char *at[]) { return kullneyra_draw_into(INTO(0, seed), INTO(1, drawn)); }
static uint32_t deal_seed(unsigned char *at[]) { return kullneyra_deal_seed_into(INTO(0, seed), 1, 1, BYTES(1, 2)); }
static uint32_t hops(unsigned char *at[]) {
    return kullneyra_hops_into(OLD(0), WORDS(2, 1), WORDS(3, 1), WORDS(4, HOP_WORK));
}
static uint32_t add(unsigned char *at[]) {
    return kullneyra_add_into(OLD(0), WORDS(2, 1), WORDS(3, 1), NEW(4, 2), BYTES(6, 1), WORDS(7, 1));
}
static uint32_t remove_(unsigned char *at[]) {
    return kullneyra_remove_into(OLD(0), WORDS(2, 1), WORDS(3, 1), (uint32_t *)at[4], 2, NULL, 0, BYTES(5, 1), WORDS(6, 1));
}
static uint32_t market_header(unsigned char *at[]) { return kullneyra_market_header_into(BYTES(0, BYTES), INTO(1, head)); }
static uint32_t import(unsigned char *at[]) {
    return kullneyra_import_into(BYTES(0, BYTES), NEW(1, 1), LONGS(3, 1), INTO(4, head));
}
static uint32_t export_length(unsigned char *at[]) { return kullneyra_export_length_into(OLD(0), (uint64_t *)at[2]); }
static uint32_t export_(unsigned char *at[]) { return kullneyra_export_into(OLD(0), BYTES(2, BYTES)); }

#define SCANNED BYTES(0, 4), WORDS(1, 2), BYTES(2, 8), LONGS(3, 2), WORDS(4, 2)
static uint32_t scan_length(unsigned char *at[]) {
    return kullneyra_scan_length_into(1, 2, SCANNED, WORDS(5, KULLNEYRA_SCAN_WORK), (uint64_t *)at[6]);
}
static uint32_t scan(unsigned char *at[]) {
    return kullneyra_scan_into(1, 2, SCANNED, WORDS(5, KULLNEYRA_SCAN_WORK), WORDS(6, 3), WORDS(7, 3));
}

#define BUFFERS WRITTEN(uint8_t, 1), WRITTEN(uint32_t, WORK), WRITTEN(uint64_t, 4)
#define MARKING GRAPH, READ(uint32_t, 1), READ(uint8_t, 2), BUFFERS

#define NAMES \
    READ(uint8_t, 4), READ(uint32_t, 2), READ(uint8_t, 8), READ(uint64_t, 2), READ(uint32_t, 2), WRITTEN(uint32_t, KULLNEYRA_SCAN_WORK)

static const Call calls[] = {
    {"header", header, {READ(uint8_t, BYTES), ANSWER(struct kullneyra_head, uint32_t)}, 1},
    {"read", read,
     {READ(uint8_t, BYTES), NEW_GRAPH(1), WRITTEN(uint64_t, 1), WRITTEN(uint32_t, KULLNEYRA_STARTS),
      ANSWER(struct kullneyra_store, uint32_t)}, 1},
    {"references", references, {GRAPH, ANSWER(struct kullneyra_part, uint64_t)}, 1},
    {"mark", mark, {MARKING, ANSWER(struct kullneyra_marked, uint64_t)}, 1},
    {"mark_all", mark_all, {GRAPH, READ(uint32_t, 1), BUFFERS, ANSWER(struct kullneyra_marked, uint64_t)}, 1},
    {"begin", begin, {MARKING, WRITTEN(uint32_t, SAVED), ANSWER(struct kullneyra_stopped, uint64_t)}, 1},
    {"resume", resume, {MARKING, WRITTEN(uint32_t, SAVED), ANSWER(struct kullneyra_stopped, uint64_t)}, 1},
    {"sweep", sweep, {READ(uint8_t, 1), READ(uint64_t, 1), WRITTEN(uint32_t, 1), ANSWER(struct kullneyra_swept, uint64_t)}, 1},
    {"deal", deal, {READ(uint32_t, 1), WRITTEN(uint8_t, 2)}, 0},
    {"draw", draw, {ANSWER(struct kullneyra_seed, uint32_t), ANSWER(struct kullneyra_drawn, uint32_t)}, 1},
    {"deal_seed", deal_seed, {ANSWER(struct kullneyra_seed, uint32_t), WRITTEN(uint8_t, 2)}, 0},
    {"hops", hops, {GRAPH, READ(uint32_t, 1), WRITTEN(uint32_t, 1), WRITTEN(uint32_t, HOP_WORK)}, 0},
    {"add", add,
     {GRAPH, READ(uint32_t, 1), READ(uint32_t, 1), NEW_GRAPH(2), WRITTEN(uint8_t, 1), WRITTEN(uint32_t, UPDATE_WORK)}, 0},
    {"remove", remove_,
     {GRAPH, READ(uint32_t, 1), READ(uint32_t, 1), WRITTEN(uint32_t, 2), WRITTEN(uint8_t, 1), WRITTEN(uint32_t, UPDATE_WORK)}, 0},
    {"market_header", market_header, {READ(uint8_t, BYTES), ANSWER(struct kullneyra_head, uint32_t)}, 1},
    {"import", import,
     {READ(uint8_t, BYTES), NEW_GRAPH(1), WRITTEN(uint64_t, 1), ANSWER(struct kullneyra_head, uint32_t)}, 1},
    {"export_length", export_length, {GRAPH, ANSWER(uint64_t, uint64_t)}, 1},
    {"export", export_, {GRAPH, WRITTEN(uint8_t, BYTES)}, 0},
    {"scan_length", scan_length, {NAMES, ANSWER(uint64_t, uint64_t)}, 1},
    {"scan", scan, {NAMES, WRITTEN(uint32_t, 3), WRITTEN(uint32_t, 3)}, 0},
};

/* Behind the fields is room for one range that is larger than a field: work words, which have to be 0. */
enum { FIELD = 2048, FIELDS = MOST + 2, ROOM = FIELD * (FIELDS + 1) + 4 * (int)KULLNEYRA_SCAN_WORK };
static uint64_t memory[ROOM / 8 + 1], before[ROOM / 8 + 1];
static int faults, tried;

static void fault(const Call *call, const char *what, size_t i, size_t k) {
    printf("%s: %s (ranges %zu and %zu)\n", call->name, what, i, k);
    faults++;
}

/* Makes the call with range i as many bytes behind the beginning of range k as is said, all others in fields of their own. */
static void try_one(const Call *call, size_t number, size_t i, size_t k, ptrdiff_t shift, int shared) {
    unsigned char *at[MOST], *base = (unsigned char *)memory;
    size_t used = FIELD * FIELDS;
    memset(memory, 0xA5, sizeof memory);
    for (size_t j = 0; j < number; j++) {
        at[j] = base + FIELD * (j + 1);
        if (call->ranges[j].bytes > FIELD) {
            at[j] = base + used;
            memset(at[j], 0, call->ranges[j].bytes);
            used = sizeof memory;
        }
    }
    at[i] = at[k] + shift;
    memcpy(before, memory, used);
    const uint32_t told = call->make(at);
    tried++;
    if (!shared) {
        if (told == KULLNEYRA_BUFFER)
            fault(call, "ranges that only touch are refused", i, k);
        return;
    }
    if (told != KULLNEYRA_BUFFER)
        fault(call, "not refused", i, k);
    const size_t last = number - 1;
    if (call->answers && i != last && k != last) {
        for (size_t b = 0; b < call->ranges[last].bytes; b++)
            if (at[last][b] != 0) {
                fault(call, "the answer is not zeros", i, k);
                break;
            }
        memset(at[last], 0xA5, call->ranges[last].bytes);
    }
    if (memcmp(memory, before, used) != 0)
        fault(call, "something was touched", i, k);
}

int main(void) {
    for (size_t c = 0; c < sizeof calls / sizeof *calls; c++) {
        const Call *call = &calls[c];
        size_t number = 0;
        while (number < MOST && call->ranges[number].bytes != 0)
            number++;
        for (size_t i = 0; i < number; i++)
            for (size_t k = 0; k < number; k++) {
                const Range a = call->ranges[i], b = call->ranges[k];
                /* the others are moved to a range that is larger than a field */
                if (i == k || !(a.written || b.written) || a.bytes > FIELD)
                    continue;
                /* aligned for both */
                const size_t step = a.size > b.size ? a.size : b.size;
                try_one(call, number, i, k, 0, 1);
                try_one(call, number, i, k, (ptrdiff_t)((b.bytes - 1) / step * step), 1);
                try_one(call, number, i, k, -(ptrdiff_t)((a.bytes - 1) / step * step), 1);
                try_one(call, number, i, k, (ptrdiff_t)((b.bytes + step - 1) / step * step), 0);
                try_one(call, number, i, k, -(ptrdiff_t)((a.bytes + step - 1) / step * step), 0);
            }
    }
    /* An empty range has no byte in common with any. */
    const uint32_t offsets[] = {0, 1}, targets[] = {0};
    uint32_t new_offsets[2], new_targets[1], work[UPDATE_WORK];
    uint8_t marks[] = {1};
    if (kullneyra_add_into(offsets, 2, targets, 1, new_targets, 0, work, 0, new_offsets, 2, new_targets, 1, marks, 1, work,
                           UPDATE_WORK) != KULLNEYRA_OK) {
        printf("add: empty lists are refused\n");
        faults++;
    }
    printf("%d calls with ranges that overlap or touch\n", tried);
    return faults != 0 || tried < 1000;
}
