/* Kullneyra: the box marker's proved library, for runtimes in C and C++.
 *
 * Every call may be given any values and any buffers: it answers 0, or the number of the first fault
 * that it finds (the KULLNEYRA_ numbers below), and beside a fault no lent buffer is changed. A call
 * keeps nothing, allocates nothing and returns in every case. docs/SPECIFICATION.md says what each
 * call does.
 *
 * No call takes more than 32 KB of stack: resume takes 27 KB, remove 25 KB, deal and deal_seed 3 KB, mark
 * and begin 2 KB, and every other call less than 1 KB, whatever the size of the store.
 *
 * A buffer is a pointer and the number of its elements, which can be read, and written where the call
 * writes. The pointer is aligned for its element, and may be null where that number is 0, as an empty
 * C++ vector has it. No call can find out by itself whether that is so.
 *
 * Each call has two forms. kullneyra_NAME_into is the one to use. It gives what it answers in a struct,
 * all of it 0 beside a fault. Where a buffer that it writes overlaps another one, it answers
 * KULLNEYRA_BUFFER before anything else is looked at. kullneyra_NAME is the proved function below it,
 * for those who bind it from another language. What it does where buffers overlap is not defined. Its
 * result words are a buffer like the others: they are written only where the call answers 0, and
 * another length than theirs is KULLNEYRA_BUFFER, before anything else is looked at.
 *
 * `make install` puts header and libraries in place: pkg-config --cflags --libs kullneyra, or in CMake
 * find_package(kullneyra) and kullneyra::kullneyra. Within the repository, link with
 * target/staticlib/libkullneyra.a (make library).
 */
#ifndef KULLNEYRA_H
#define KULLNEYRA_H

#include <stddef.h>
#include <stdint.h>
#include <string.h>

#ifdef __cplusplus
extern "C" {
#endif

/* From here on written by tools/boundary.py from the constants of the crates. */

/* The version of this header; kullneyra_version answers that of the library. CHANGELOG.md says what may change. */
#define KULLNEYRA_VERSION "1.0.0"
#define KULLNEYRA_VERSION_MAJOR 1
#define KULLNEYRA_VERSION_MINOR 0
#define KULLNEYRA_VERSION_PATCH 0

/* The number that a call answers. */
#define KULLNEYRA_OK 0 /* no fault */
#define KULLNEYRA_SHORT 1 /* the bytes end too soon for a record; also empty */
#define KULLNEYRA_KIND 2 /* unknown kind of record, or a length that its kind does not have */
#define KULLNEYRA_PLACE 3 /* a record that is not due at its place, or one too many */
#define KULLNEYRA_COUNT 4 /* number of objects or of references out of range */
/* index, from, to, a lease, a start, a name or an owner is no object's number; also 0 in kullneyra_import, no
 * reference's number in kullneyra_remove */
#define KULLNEYRA_OBJECT 5
#define KULLNEYRA_SIZE 6 /* a size above KULLNEYRA_LARGEST_SIZE */
#define KULLNEYRA_BUFFER 7 /* a lent buffer is not as long as it must be, or overlaps another */
#define KULLNEYRA_SETTING 8 /* workers, batch or cutoff out of range */
#define KULLNEYRA_SCHEDULE 9 /* half an entry at the schedule's end, or one for a worker that is not there */
#define KULLNEYRA_GRAPH 10 /* offsets and targets that are no graph */
#define KULLNEYRA_LARGE 11 /* only printed by the program: a file, or a number in it, is too large for the program */
#define KULLNEYRA_FILE 12 /* only printed by the program: a file cannot be read */
#define KULLNEYRA_NO_STARTS 13 /* no start, or more leases than KULLNEYRA_MOST_LEASES */
#define KULLNEYRA_UNSOUND 14 /* saved words that hold no sound collection of this graph, these starts and settings */
#define KULLNEYRA_CARDS 15 /* a card that is not in the deck, or more workers than KULLNEYRA_CARD_WORKERS */
#define KULLNEYRA_NO_SEED 16 /* the first word of a seed is 0 */
#define KULLNEYRA_NOT_CLOSED 17 /* a marked object has a reference to an unmarked one */
#define KULLNEYRA_TEXT 18 /* a text that is no Matrix Market file of a graph */
#define KULLNEYRA_NAMES 19 /* names that do not ascend, are not lower-case hexadecimal, or have no bytes */

/* What a number says in words, for messages; a number that no call answers has words, too. */
static inline const char *kullneyra_refusal_text(uint32_t number) {
    switch (number) {
    case KULLNEYRA_OK:
        return "no fault";
    case KULLNEYRA_SHORT:
        return "the bytes end too soon for a record";
    case KULLNEYRA_KIND:
        return "unknown kind of record, or a length that its kind does not have";
    case KULLNEYRA_PLACE:
        return "a record that is not due at its place, or one too many";
    case KULLNEYRA_COUNT:
        return "number of objects or of references out of range";
    case KULLNEYRA_OBJECT:
        return "the number of an object or of a reference that is not there";
    case KULLNEYRA_SIZE:
        return "the size of an object is too large";
    case KULLNEYRA_BUFFER:
        return "a lent buffer is not as long as it must be, or overlaps another";
    case KULLNEYRA_SETTING:
        return "workers, batch or cutoff out of range";
    case KULLNEYRA_SCHEDULE:
        return "half an entry at the schedule's end, or one for a worker that is not there";
    case KULLNEYRA_GRAPH:
        return "offsets and targets that are no graph";
    case KULLNEYRA_LARGE:
        return "a file, or a number in it, is too large for the program";
    case KULLNEYRA_FILE:
        return "a file cannot be read";
    case KULLNEYRA_NO_STARTS:
        return "no start, or too many leases";
    case KULLNEYRA_UNSOUND:
        return "saved words that hold no sound collection";
    case KULLNEYRA_CARDS:
        return "a card that is not in the deck, or more workers than a card has";
    case KULLNEYRA_NO_SEED:
        return "the first word of a seed is 0";
    case KULLNEYRA_NOT_CLOSED:
        return "a marked object has a reference to an unmarked one";
    case KULLNEYRA_TEXT:
        return "a text that is no Matrix Market file of a graph";
    case KULLNEYRA_NAMES:
        return "names that do not ascend, or are not lower-case hexadecimal";
    default:
        return "a number newer than this header";
    }
}

/* Limits, and what the calls write. Objects, starts, workers, batch and cutoff are 1 at least; references and sizes
 * may be 0. */
#define KULLNEYRA_MOST_OBJECTS 65536 /* the most objects that a store has */
#define KULLNEYRA_MOST_REFERENCES 1048576 /* the most references that a store has */
#define KULLNEYRA_LARGEST_SIZE UINT64_C(1099511627776) /* the largest size of an object */
#define KULLNEYRA_MOST_LEASES 256 /* the most leases that a store has */
#define KULLNEYRA_STARTS ((size_t)257) /* the words of the start buffer: the index and the most leases */
#define KULLNEYRA_MOST_WORKERS 16 /* the most workers of a marking */
#define KULLNEYRA_MOST_SETTING 65535 /* the largest batch and the largest cutoff of a marking */
#define KULLNEYRA_DECK 720 /* how many cards the deck has; they are numbered from 0 */
#define KULLNEYRA_CARD_WORKERS 6 /* the most workers that cards deal turns to */
#define KULLNEYRA_NO_HOPS 4294967295u /* the hop count of an object to which no chain of references leads */
#define KULLNEYRA_SCAN_WORK ((size_t)135169) /* the work words of a scan */
#define KULLNEYRA_NEWLY_LIVE 255 /* the mark of an object that a change finds live, where it is no start */

/* Up to here. */

/* The version of the library that is linked, as KULLNEYRA_VERSION is that of this header: a text that stays. */
const char *kullneyra_version(void);

/* Exact lengths of the lent buffers, in elements, for n objects, m references and w workers; the starts are
 * KULLNEYRA_STARTS. */
#define KULLNEYRA_OFFSETS(n) ((size_t)(n) + 1)
#define KULLNEYRA_TARGETS(m) ((size_t)(m))
#define KULLNEYRA_SIZES(n) ((size_t)(n))
#define KULLNEYRA_MARKS(n) ((size_t)(n))
#define KULLNEYRA_WORK(n, w) ((size_t)(w) * (2 * (size_t)(n) + 4))
#define KULLNEYRA_TALLIES(w) (4 * (size_t)(w))
#define KULLNEYRA_LIST(n) ((size_t)(n))
#define KULLNEYRA_SAVED(n, w) (16 + 12 * (size_t)(w) + (size_t)(n) + KULLNEYRA_WORK(n, w))

/* Who claimed an object, by its mark: the worker's number, or one of these. A start is told by the caller, since its
 * mark is 1, as that of what worker 0 claimed. */
enum kullneyra_owner {
    KULLNEYRA_BY_NOBODY = -1, /* the object is not marked */
    KULLNEYRA_BY_START = -2,  /* a collection starts there */
    KULLNEYRA_BY_CHANGE = -3  /* an added or a removed reference found it live: no worker claimed it */
};

static inline int kullneyra_owner(uint8_t mark, int is_start) {
    if (mark == 0)
        return KULLNEYRA_BY_NOBODY;
    if (mark == 1 && is_start)
        return KULLNEYRA_BY_START;
    return mark == KULLNEYRA_NEWLY_LIVE ? KULLNEYRA_BY_CHANGE : mark - 1;
}

/* From here on written by tools/boundary.py from the exported functions. */

/* What a call answers beside its number: a struct for each answer, whose fields are the result words in their order. */

/* header: what the catalogue's header says; market_header and import: what the text's counts say, and index 0. */
struct kullneyra_head {
    uint32_t n;     /* objects */
    uint32_t m;     /* references, and subjects */
    uint32_t index; /* the object at which every collection starts */
};

/* read: what header says, and how many starts the start buffer holds. */
struct kullneyra_store {
    uint32_t n;      /* objects */
    uint32_t m;      /* references, and subjects */
    uint32_t index;  /* the first start */
    uint32_t starts; /* the index and the leases */
};

/* references: a part of the targets. */
struct kullneyra_part {
    uint64_t start;
    uint64_t length;
};

/* mark, mark_all: what the turns did. */
struct kullneyra_marked {
    uint64_t finished; /* 1 if every worker has ended, else 0 */
    uint64_t live;     /* marked objects */
    uint64_t followed; /* references followed */
    uint64_t handed;   /* polls that shared */
    uint64_t refused;  /* askers that were refused */
    uint64_t moved;    /* turns that changed something */
    uint64_t carrying; /* workers that carry references now */
};

/* The counts of a marking by name, in the same order: X(live) X(followed) and so on. */
#define KULLNEYRA_COUNTS(X) X(live) X(followed) X(handed) X(refused) X(moved) X(carrying)

/* begin, resume: what the turns did, over all calls of a collection, and whether what is saved can be taken up. */
struct kullneyra_stopped {
    uint64_t finished; /* 1 if every worker has ended, else 0 */
    uint64_t live;     /* marked objects */
    uint64_t followed; /* references followed */
    uint64_t handed;   /* polls that shared */
    uint64_t refused;  /* askers that were refused */
    uint64_t moved;    /* turns that changed something */
    uint64_t carrying; /* workers that carry references now */
    uint64_t sound;    /* 1 if the saved words hold a sound collection, else 0: they will be refused */
};

/* mark: what one worker did, over its own turns. Over all workers, followed and handed add up to those of the
 * marking, and the won claims and the different starts make its live. */
struct kullneyra_tally {
    uint64_t followed; /* references followed */
    uint64_t won;      /* claims won: objects that it was the first to reach */
    uint64_t lost;     /* claims lost to another worker */
    uint64_t handed;   /* hand-overs that it gave */
};

/* sweep: the dead objects. */
struct kullneyra_swept {
    uint64_t count; /* how many they are */
    uint64_t freed; /* the sum of their sizes */
};

/* schedule_length: how long the schedule of a hand is. */
struct kullneyra_length {
    uint64_t bytes;
};

/* draw, deal_seed: the two words of a seed, which the caller keeps and the draws move. The first is not 0. */
struct kullneyra_seed {
    uint32_t first;
    uint32_t second;
};

/* draw: the card. */
struct kullneyra_drawn {
    uint32_t card;
};

/* Exact lengths of the result words. */
#define KULLNEYRA_HEADER_WORDS (sizeof(struct kullneyra_head) / sizeof(uint32_t)) /* header, market_header, import */
#define KULLNEYRA_READ_WORDS (sizeof(struct kullneyra_store) / sizeof(uint32_t)) /* read */
#define KULLNEYRA_PART_WORDS (sizeof(struct kullneyra_part) / sizeof(uint64_t)) /* references */
#define KULLNEYRA_MARK_WORDS (sizeof(struct kullneyra_marked) / sizeof(uint64_t)) /* mark, mark_all */
#define KULLNEYRA_STOP_WORDS (sizeof(struct kullneyra_stopped) / sizeof(uint64_t)) /* begin, resume */
#define KULLNEYRA_SWEEP_WORDS (sizeof(struct kullneyra_swept) / sizeof(uint64_t)) /* sweep */
#define KULLNEYRA_LENGTH_WORDS (sizeof(struct kullneyra_length) / sizeof(uint64_t)) /* schedule_length */
#define KULLNEYRA_SEED_WORDS (sizeof(struct kullneyra_seed) / sizeof(uint32_t)) /* draw, deal_seed */
#define KULLNEYRA_DRAW_WORDS (sizeof(struct kullneyra_drawn) / sizeof(uint32_t)) /* draw */
#define KULLNEYRA_SAVED_WORDS 1 /* saved_words */
#define KULLNEYRA_HOP_WORDS 1 /* hop_words */
#define KULLNEYRA_UPDATE_WORDS 1 /* update_words */
#define KULLNEYRA_EXPORT_WORDS 1 /* export_length */
#define KULLNEYRA_SCAN_WORDS 1 /* scan_length */

/* Reads only the catalogue's header record. */
uint32_t kullneyra_header(const uint8_t *bytes, size_t bytes_len, uint32_t *result, size_t result_len);

/* Checks the whole catalogue and fills offsets, targets, sizes and starts: the index, the leases in their order, and
 * zeros behind them. A subject record fills in a reference from the subject to the object that names it, so that a
 * signature lives while its image does. */
uint32_t kullneyra_read(const uint8_t *bytes, size_t bytes_len, uint32_t *offsets, size_t offsets_len,
                        uint32_t *targets, size_t targets_len, uint64_t *sizes, size_t sizes_len, uint32_t *starts,
                        size_t starts_len, uint32_t *result, size_t result_len);

/* The references of one object, as a part of the targets: where it starts, and its length. The part is empty (0, 0)
 * if there is no such object or its two offsets bound no part. */
uint32_t kullneyra_references(const uint32_t *offsets, size_t offsets_len, const uint32_t *targets, size_t targets_len,
                              uint32_t object, uint64_t *result, size_t result_len);

/* Marks what the starts reach, by the turns of the schedule: two bytes for each, the worker and whom it asks. The
 * starts are the index and then the leases; a repeated one adds nothing. Only when the collection is finished are
 * the objects with mark 0 unreachable. A mark tells who claimed the object: b + 1 for worker b; a start has mark 1.
 * The tallies are four words for each worker, worker 0's first: the fields of struct kullneyra_tally. */
uint32_t kullneyra_mark(const uint32_t *offsets, size_t offsets_len, const uint32_t *targets, size_t targets_len,
                        const uint32_t *starts, size_t starts_len, uint32_t workers, uint32_t batch, uint32_t cutoff,
                        const uint8_t *schedule, size_t schedule_len, uint8_t *marks, size_t marks_len, uint32_t *work,
                        size_t work_len, uint64_t *tallies, size_t tallies_len, uint64_t *result, size_t result_len);

/* A whole collection without a schedule, which is always finished: the workers have their turns in rounds, each
 * asking the next one, until all have ended. Answer, marks, work and tallies are those of kullneyra_mark with so
 * many rounds. With one worker nobody asks, and its turns are made in rows: the quickest way to mark. */
uint32_t kullneyra_mark_all(const uint32_t *offsets, size_t offsets_len, const uint32_t *targets, size_t targets_len,
                            const uint32_t *starts, size_t starts_len, uint32_t workers, uint32_t batch,
                            uint32_t cutoff, uint8_t *marks, size_t marks_len, uint32_t *work, size_t work_len,
                            uint64_t *tallies, size_t tallies_len, uint64_t *result, size_t result_len);

/* How many words a saved collection of n objects with so many workers takes, as KULLNEYRA_SAVED(n, w) has it. */
uint32_t kullneyra_saved_words(uint32_t objects, uint32_t workers, uint64_t *result, size_t result_len);

/* As kullneyra_mark, and saves the collection: everything that is needed to go on later stands in the saved words,
 * marks too. Nobody has to keep the other buffers, but the graph, the starts and the settings are passed again. The
 * words are for this library; docs/SPECIFICATION.md, 8.1, has their layout. What is saved is sound. */
uint32_t kullneyra_begin(const uint32_t *offsets, size_t offsets_len, const uint32_t *targets, size_t targets_len,
                         const uint32_t *starts, size_t starts_len, uint32_t workers, uint32_t batch, uint32_t cutoff,
                         const uint8_t *schedule, size_t schedule_len, uint8_t *marks, size_t marks_len, uint32_t *work,
                         size_t work_len, uint64_t *tallies, size_t tallies_len, uint32_t *saved, size_t saved_len,
                         uint64_t *result, size_t result_len);

/* Takes a saved collection up with more turns, and saves it again. A collection that was begun with the same graph,
 * starts and settings ends as one call with all the turns would have ended it, counts and tallies included. Marks,
 * work and tallies need not hold anything before. Saved words that hold no sound collection are KULLNEYRA_UNSOUND.
 * Whoever wrote them: a collection that is finished has marked all that lives. The answer's sound tells whether
 * kullneyra_resume would take up what is saved now: it is 0 only where somebody else wrote the words, and turns took
 * moved or handed above its bound. */
uint32_t kullneyra_resume(const uint32_t *offsets, size_t offsets_len, const uint32_t *targets, size_t targets_len,
                          const uint32_t *starts, size_t starts_len, uint32_t workers, uint32_t batch, uint32_t cutoff,
                          const uint8_t *schedule, size_t schedule_len, uint8_t *marks, size_t marks_len,
                          uint32_t *work, size_t work_len, uint64_t *tallies, size_t tallies_len, uint32_t *saved,
                          size_t saved_len, uint64_t *result, size_t result_len);

/* Lists the objects whose mark is 0, upwards, then zeros; answers how many they are and what their sizes add up to. */
uint32_t kullneyra_sweep(const uint8_t *marks, size_t marks_len, const uint64_t *sizes, size_t sizes_len,
                         uint32_t *list, size_t list_len, uint64_t *result, size_t result_len);

/* How many bytes the schedule of so many cards has: two for each worker, for each card. KULLNEYRA_BUFFER where no
 * buffer is so long. */
uint32_t kullneyra_schedule_length(size_t cards, uint32_t workers, uint64_t *result, size_t result_len);

/* The schedule of a hand of cards, for the marker's call with so many workers: each card is a round in which every
 * worker has a turn, in the card's order, and asks the one after it, the last the first. The schedule is exactly as
 * long as kullneyra_schedule_length says. Beside the number there is no answer. */
uint32_t kullneyra_deal(const uint32_t *cards, size_t cards_len, uint32_t workers, uint8_t *schedule,
                        size_t schedule_len);

/* Draws a card: moves the two words of the seed on and answers the card of the moved words. Beside a fault the seed
 * is as it was. A seed of another length is KULLNEYRA_BUFFER, before the result words are looked at. */
uint32_t kullneyra_draw(uint32_t *seed, size_t seed_len, uint32_t *result, size_t result_len);

/* The schedule of so many draws, which is that of their cards; leaves the seed as those draws do. The schedule is as
 * long as that of so many cards. Beside a fault seed and schedule are as they were. A seed of another length is
 * KULLNEYRA_BUFFER, before anything else. Beside the number there is no answer. */
uint32_t kullneyra_deal_seed(uint32_t *seed, size_t seed_len, size_t rounds, uint32_t workers, uint8_t *schedule,
                             size_t schedule_len);

/* How many work words kullneyra_hops takes for so many objects. */
uint32_t kullneyra_hop_words(uint32_t objects, uint64_t *result, size_t result_len);

/* For each object the least number of references from a start, KULLNEYRA_NO_HOPS where no chain leads to it. hops
 * has as many words as there are objects, and work as many as kullneyra_hop_words says; what they held before does
 * not matter, and afterwards the two work words of an object without a count are as they were. Offsets, targets and
 * starts are checked as in kullneyra_mark. Beside a fault both are as they were. Beside the number there is no
 * answer. */
uint32_t kullneyra_hops(const uint32_t *offsets, size_t offsets_len, const uint32_t *targets, size_t targets_len,
                        const uint32_t *starts, size_t starts_len, uint32_t *hops, size_t hops_len, uint32_t *work,
                        size_t work_len);

/* How many work words kullneyra_add and kullneyra_remove take for so many objects. */
uint32_t kullneyra_update_words(uint32_t objects, uint64_t *result, size_t result_len);

/* Adds the references from[i] -> to[i] to a store. new_offsets has as many words as offsets, and new_targets as many
 * as targets and from together: an object's new references stand behind its old ones, in list order. An object that
 * is newly live gets the mark KULLNEYRA_NEWLY_LIVE, and a mark that is set keeps its value. The marks must be closed
 * under the old references (KULLNEYRA_NOT_CLOSED), as those of a finished collection are. A work word that has
 * changed names an object newly live. Beside a fault all four are as they were. Beside the number there is no
 * answer. */
uint32_t kullneyra_add(const uint32_t *offsets, size_t offsets_len, const uint32_t *targets, size_t targets_len,
                       const uint32_t *from, size_t from_len, const uint32_t *to, size_t to_len, uint32_t *new_offsets,
                       size_t new_offsets_len, uint32_t *new_targets, size_t new_targets_len, uint8_t *marks,
                       size_t marks_len, uint32_t *work, size_t work_len);

/* Takes the references with these numbers out of a store; a number that stands in the list twice counts once.
 * new_targets has as many words as references remain. The marks are made afresh: 1 for a start, KULLNEYRA_NEWLY_LIVE
 * for what else is reached, 0 for the rest; what they held before does not matter. A work word that has changed
 * names a marked object. Beside a fault all four are as they were. Beside the number there is no answer. */
uint32_t kullneyra_remove(const uint32_t *offsets, size_t offsets_len, const uint32_t *targets, size_t targets_len,
                          const uint32_t *numbers, size_t numbers_len, const uint32_t *starts, size_t starts_len,
                          uint32_t *new_offsets, size_t new_offsets_len, uint32_t *new_targets, size_t new_targets_len,
                          uint8_t *marks, size_t marks_len, uint32_t *work, size_t work_len);

/* What the counts of a Matrix Market text say, so that buffers can be lent to kullneyra_import. Looks only at what
 * stands before the pairs. */
uint32_t kullneyra_market_header(const uint8_t *text, size_t text_len, uint32_t *result, size_t result_len);

/* A graph from a Matrix Market text: fills offsets, targets and sizes as kullneyra_read does from the catalogue of
 * the same pairs in the same order, with the sizes 0. The index is 0. */
uint32_t kullneyra_import(const uint8_t *text, size_t text_len, uint32_t *offsets, size_t offsets_len,
                          uint32_t *targets, size_t targets_len, uint64_t *sizes, size_t sizes_len, uint32_t *result,
                          size_t result_len);

/* How many bytes the Matrix Market text of a graph has. */
uint32_t kullneyra_export_length(const uint32_t *offsets, size_t offsets_len, const uint32_t *targets,
                                 size_t targets_len, uint64_t *result, size_t result_len);

/* Writes the Matrix Market text of a graph into a buffer of exactly as many bytes as kullneyra_export_length says.
 * There is no zero byte behind it. Beside the number there is no answer. */
uint32_t kullneyra_export(const uint32_t *offsets, size_t offsets_len, const uint32_t *targets, size_t targets_len,
                          uint8_t *out, size_t out_len);

/* How many mentions there are in texts: places where the bytes of a name stand, whatever stands around them. The
 * names are `width` lower-case hexadecimal digits each, one behind the other, ascending and distinct; named[k] is
 * the object that name k names. The texts stand one behind the other too: text i ends where ends[i] says, and
 * owners[i] is the object that it belongs to. The work is KULLNEYRA_SCAN_WORK words, all 0, and they are 0 again
 * afterwards. */
uint32_t kullneyra_scan_length(uint32_t objects, uint32_t width, const uint8_t *names, size_t names_len,
                               const uint32_t *named, size_t named_len, const uint8_t *texts, size_t texts_len,
                               const uint64_t *ends, size_t ends_len, const uint32_t *owners, size_t owners_len,
                               uint32_t *work, size_t work_len, uint64_t *result, size_t result_len);

/* Writes each mention as a pair from[i] -> to[i], by text and then by place: the owner of the text, and the object
 * whose name stands there. Both lists have exactly as many words as kullneyra_scan_length says. kullneyra_add takes
 * them as references. Beside the number there is no answer. */
uint32_t kullneyra_scan(uint32_t objects, uint32_t width, const uint8_t *names, size_t names_len, const uint32_t *named,
                        size_t named_len, const uint8_t *texts, size_t texts_len, const uint64_t *ends, size_t ends_len,
                        const uint32_t *owners, size_t owners_len, uint32_t *work, size_t work_len, uint32_t *from,
                        size_t from_len, uint32_t *to, size_t to_len);

/* The same calls with a struct for the answer, which is written in every case: what the call answers where the
 * number is 0, and zeros beside a fault. Where a range that a call writes overlaps another one, the number is
 * KULLNEYRA_BUFFER, and nothing is touched but an answer that overlaps nothing: it is zeros. */

/* Bytes of memory that a call is given, from the first to behind the last; none has neither. */
struct kullneyra_range {
    uintptr_t from;
    uintptr_t to;
};

static inline struct kullneyra_range kullneyra_range(const void *at, size_t len, size_t size) {
    struct kullneyra_range range = {0, 0};
    if (len != 0) {
        range.from = (uintptr_t)at;
        range.to = len <= (UINTPTR_MAX - range.from) / size ? range.from + len * size : UINTPTR_MAX;
    }
    return range;
}

/* Whether a call must not be made: one of the ranges that it writes, which stand in front of those that it only reads,
 * or its answer, has a byte in common with another. An answer that overlaps none is zeros then. */
static inline int kullneyra_shared(const struct kullneyra_range *ranges, size_t written, size_t all, void *answer,
                                   size_t size) {
    const struct kullneyra_range own = kullneyra_range(answer, answer != NULL, size);
    for (size_t k = 0; k < all; k++)
        if (own.from < ranges[k].to && ranges[k].from < own.to)
            return 1;
    for (size_t i = 0; i < written; i++)
        for (size_t k = i + 1; k < all; k++)
            if (ranges[i].from < ranges[k].to && ranges[k].from < ranges[i].to) {
                if (answer != NULL)
                    memset(answer, 0, size);
                return 1;
            }
    return 0;
}

static inline uint32_t kullneyra_header_into(const uint8_t *bytes, size_t bytes_len, struct kullneyra_head *answer) {
    const struct kullneyra_range ranges[] = {
        kullneyra_range(bytes, bytes_len, sizeof *bytes),
    };
    if (kullneyra_shared(ranges, 0, 1, answer, sizeof *answer))
        return KULLNEYRA_BUFFER;
    uint32_t words[KULLNEYRA_HEADER_WORDS] = {0};
    const uint32_t number = kullneyra_header(bytes, bytes_len, words, KULLNEYRA_HEADER_WORDS);
    memcpy(answer, words, sizeof *answer);
    return number;
}

static inline uint32_t kullneyra_read_into(const uint8_t *bytes, size_t bytes_len, uint32_t *offsets,
                                           size_t offsets_len, uint32_t *targets, size_t targets_len, uint64_t *sizes,
                                           size_t sizes_len, uint32_t *starts, size_t starts_len,
                                           struct kullneyra_store *answer) {
    const struct kullneyra_range ranges[] = {
        kullneyra_range(offsets, offsets_len, sizeof *offsets),
        kullneyra_range(targets, targets_len, sizeof *targets),
        kullneyra_range(sizes, sizes_len, sizeof *sizes),
        kullneyra_range(starts, starts_len, sizeof *starts),
        kullneyra_range(bytes, bytes_len, sizeof *bytes),
    };
    if (kullneyra_shared(ranges, 4, 5, answer, sizeof *answer))
        return KULLNEYRA_BUFFER;
    uint32_t words[KULLNEYRA_READ_WORDS] = {0};
    const uint32_t number = kullneyra_read(bytes, bytes_len, offsets, offsets_len, targets, targets_len, sizes,
                                           sizes_len, starts, starts_len, words, KULLNEYRA_READ_WORDS);
    memcpy(answer, words, sizeof *answer);
    return number;
}

static inline uint32_t kullneyra_references_into(const uint32_t *offsets, size_t offsets_len, const uint32_t *targets,
                                                 size_t targets_len, uint32_t object, struct kullneyra_part *answer) {
    const struct kullneyra_range ranges[] = {
        kullneyra_range(offsets, offsets_len, sizeof *offsets),
        kullneyra_range(targets, targets_len, sizeof *targets),
    };
    if (kullneyra_shared(ranges, 0, 2, answer, sizeof *answer))
        return KULLNEYRA_BUFFER;
    uint64_t words[KULLNEYRA_PART_WORDS] = {0};
    const uint32_t number = kullneyra_references(offsets, offsets_len, targets, targets_len, object, words,
                                                 KULLNEYRA_PART_WORDS);
    memcpy(answer, words, sizeof *answer);
    return number;
}

static inline uint32_t kullneyra_mark_into(const uint32_t *offsets, size_t offsets_len, const uint32_t *targets,
                                           size_t targets_len, const uint32_t *starts, size_t starts_len,
                                           uint32_t workers, uint32_t batch, uint32_t cutoff, const uint8_t *schedule,
                                           size_t schedule_len, uint8_t *marks, size_t marks_len, uint32_t *work,
                                           size_t work_len, uint64_t *tallies, size_t tallies_len,
                                           struct kullneyra_marked *answer) {
    const struct kullneyra_range ranges[] = {
        kullneyra_range(marks, marks_len, sizeof *marks),
        kullneyra_range(work, work_len, sizeof *work),
        kullneyra_range(tallies, tallies_len, sizeof *tallies),
        kullneyra_range(offsets, offsets_len, sizeof *offsets),
        kullneyra_range(targets, targets_len, sizeof *targets),
        kullneyra_range(starts, starts_len, sizeof *starts),
        kullneyra_range(schedule, schedule_len, sizeof *schedule),
    };
    if (kullneyra_shared(ranges, 3, 7, answer, sizeof *answer))
        return KULLNEYRA_BUFFER;
    uint64_t words[KULLNEYRA_MARK_WORDS] = {0};
    const uint32_t number = kullneyra_mark(offsets, offsets_len, targets, targets_len, starts, starts_len, workers,
                                           batch, cutoff, schedule, schedule_len, marks, marks_len, work, work_len,
                                           tallies, tallies_len, words, KULLNEYRA_MARK_WORDS);
    memcpy(answer, words, sizeof *answer);
    return number;
}

static inline uint32_t kullneyra_mark_all_into(const uint32_t *offsets, size_t offsets_len, const uint32_t *targets,
                                               size_t targets_len, const uint32_t *starts, size_t starts_len,
                                               uint32_t workers, uint32_t batch, uint32_t cutoff, uint8_t *marks,
                                               size_t marks_len, uint32_t *work, size_t work_len, uint64_t *tallies,
                                               size_t tallies_len, struct kullneyra_marked *answer) {
    const struct kullneyra_range ranges[] = {
        kullneyra_range(marks, marks_len, sizeof *marks),
        kullneyra_range(work, work_len, sizeof *work),
        kullneyra_range(tallies, tallies_len, sizeof *tallies),
        kullneyra_range(offsets, offsets_len, sizeof *offsets),
        kullneyra_range(targets, targets_len, sizeof *targets),
        kullneyra_range(starts, starts_len, sizeof *starts),
    };
    if (kullneyra_shared(ranges, 3, 6, answer, sizeof *answer))
        return KULLNEYRA_BUFFER;
    uint64_t words[KULLNEYRA_MARK_WORDS] = {0};
    const uint32_t number = kullneyra_mark_all(offsets, offsets_len, targets, targets_len, starts, starts_len, workers,
                                               batch, cutoff, marks, marks_len, work, work_len, tallies, tallies_len,
                                               words, KULLNEYRA_MARK_WORDS);
    memcpy(answer, words, sizeof *answer);
    return number;
}

static inline uint32_t kullneyra_saved_words_into(uint32_t objects, uint32_t workers, uint64_t *answer) {
    *answer = 0;
    return kullneyra_saved_words(objects, workers, answer, KULLNEYRA_SAVED_WORDS);
}

static inline uint32_t kullneyra_begin_into(const uint32_t *offsets, size_t offsets_len, const uint32_t *targets,
                                            size_t targets_len, const uint32_t *starts, size_t starts_len,
                                            uint32_t workers, uint32_t batch, uint32_t cutoff, const uint8_t *schedule,
                                            size_t schedule_len, uint8_t *marks, size_t marks_len, uint32_t *work,
                                            size_t work_len, uint64_t *tallies, size_t tallies_len, uint32_t *saved,
                                            size_t saved_len, struct kullneyra_stopped *answer) {
    const struct kullneyra_range ranges[] = {
        kullneyra_range(marks, marks_len, sizeof *marks),
        kullneyra_range(work, work_len, sizeof *work),
        kullneyra_range(tallies, tallies_len, sizeof *tallies),
        kullneyra_range(saved, saved_len, sizeof *saved),
        kullneyra_range(offsets, offsets_len, sizeof *offsets),
        kullneyra_range(targets, targets_len, sizeof *targets),
        kullneyra_range(starts, starts_len, sizeof *starts),
        kullneyra_range(schedule, schedule_len, sizeof *schedule),
    };
    if (kullneyra_shared(ranges, 4, 8, answer, sizeof *answer))
        return KULLNEYRA_BUFFER;
    uint64_t words[KULLNEYRA_STOP_WORDS] = {0};
    const uint32_t number = kullneyra_begin(offsets, offsets_len, targets, targets_len, starts, starts_len, workers,
                                            batch, cutoff, schedule, schedule_len, marks, marks_len, work, work_len,
                                            tallies, tallies_len, saved, saved_len, words, KULLNEYRA_STOP_WORDS);
    memcpy(answer, words, sizeof *answer);
    return number;
}

static inline uint32_t kullneyra_resume_into(const uint32_t *offsets, size_t offsets_len, const uint32_t *targets,
                                             size_t targets_len, const uint32_t *starts, size_t starts_len,
                                             uint32_t workers, uint32_t batch, uint32_t cutoff, const uint8_t *schedule,
                                             size_t schedule_len, uint8_t *marks, size_t marks_len, uint32_t *work,
                                             size_t work_len, uint64_t *tallies, size_t tallies_len, uint32_t *saved,
                                             size_t saved_len, struct kullneyra_stopped *answer) {
    const struct kullneyra_range ranges[] = {
        kullneyra_range(marks, marks_len, sizeof *marks),
        kullneyra_range(work, work_len, sizeof *work),
        kullneyra_range(tallies, tallies_len, sizeof *tallies),
        kullneyra_range(saved, saved_len, sizeof *saved),
        kullneyra_range(offsets, offsets_len, sizeof *offsets),
        kullneyra_range(targets, targets_len, sizeof *targets),
        kullneyra_range(starts, starts_len, sizeof *starts),
        kullneyra_range(schedule, schedule_len, sizeof *schedule),
    };
    if (kullneyra_shared(ranges, 4, 8, answer, sizeof *answer))
        return KULLNEYRA_BUFFER;
    uint64_t words[KULLNEYRA_STOP_WORDS] = {0};
    const uint32_t number = kullneyra_resume(offsets, offsets_len, targets, targets_len, starts, starts_len, workers,
                                             batch, cutoff, schedule, schedule_len, marks, marks_len, work, work_len,
                                             tallies, tallies_len, saved, saved_len, words, KULLNEYRA_STOP_WORDS);
    memcpy(answer, words, sizeof *answer);
    return number;
}

static inline uint32_t kullneyra_sweep_into(const uint8_t *marks, size_t marks_len, const uint64_t *sizes,
                                            size_t sizes_len, uint32_t *list, size_t list_len,
                                            struct kullneyra_swept *answer) {
    const struct kullneyra_range ranges[] = {
        kullneyra_range(list, list_len, sizeof *list),
        kullneyra_range(marks, marks_len, sizeof *marks),
        kullneyra_range(sizes, sizes_len, sizeof *sizes),
    };
    if (kullneyra_shared(ranges, 1, 3, answer, sizeof *answer))
        return KULLNEYRA_BUFFER;
    uint64_t words[KULLNEYRA_SWEEP_WORDS] = {0};
    const uint32_t number = kullneyra_sweep(marks, marks_len, sizes, sizes_len, list, list_len, words,
                                            KULLNEYRA_SWEEP_WORDS);
    memcpy(answer, words, sizeof *answer);
    return number;
}

static inline uint32_t kullneyra_schedule_length_into(size_t cards, uint32_t workers, struct kullneyra_length *answer) {
    uint64_t words[KULLNEYRA_LENGTH_WORDS] = {0};
    const uint32_t number = kullneyra_schedule_length(cards, workers, words, KULLNEYRA_LENGTH_WORDS);
    memcpy(answer, words, sizeof *answer);
    return number;
}

static inline uint32_t kullneyra_deal_into(const uint32_t *cards, size_t cards_len, uint32_t workers, uint8_t *schedule,
                                           size_t schedule_len) {
    const struct kullneyra_range ranges[] = {
        kullneyra_range(schedule, schedule_len, sizeof *schedule),
        kullneyra_range(cards, cards_len, sizeof *cards),
    };
    if (kullneyra_shared(ranges, 1, 2, NULL, 0))
        return KULLNEYRA_BUFFER;
    return kullneyra_deal(cards, cards_len, workers, schedule, schedule_len);
}

static inline uint32_t kullneyra_draw_into(struct kullneyra_seed *seed, struct kullneyra_drawn *answer) {
    const struct kullneyra_range ranges[] = {
        kullneyra_range(seed, 1, sizeof *seed),
    };
    if (kullneyra_shared(ranges, 1, 1, answer, sizeof *answer))
        return KULLNEYRA_BUFFER;
    uint32_t words[KULLNEYRA_DRAW_WORDS] = {0};
    uint32_t state[KULLNEYRA_SEED_WORDS];
    memcpy(state, seed, sizeof *seed);
    const uint32_t number = kullneyra_draw(state, KULLNEYRA_SEED_WORDS, words, KULLNEYRA_DRAW_WORDS);
    memcpy(seed, state, sizeof *seed);
    memcpy(answer, words, sizeof *answer);
    return number;
}

static inline uint32_t kullneyra_deal_seed_into(struct kullneyra_seed *seed, size_t rounds, uint32_t workers,
                                                uint8_t *schedule, size_t schedule_len) {
    const struct kullneyra_range ranges[] = {
        kullneyra_range(seed, 1, sizeof *seed),
        kullneyra_range(schedule, schedule_len, sizeof *schedule),
    };
    if (kullneyra_shared(ranges, 2, 2, NULL, 0))
        return KULLNEYRA_BUFFER;
    uint32_t state[KULLNEYRA_SEED_WORDS];
    memcpy(state, seed, sizeof *seed);
    const uint32_t number = kullneyra_deal_seed(state, KULLNEYRA_SEED_WORDS, rounds, workers, schedule, schedule_len);
    memcpy(seed, state, sizeof *seed);
    return number;
}

static inline uint32_t kullneyra_hop_words_into(uint32_t objects, uint64_t *answer) {
    *answer = 0;
    return kullneyra_hop_words(objects, answer, KULLNEYRA_HOP_WORDS);
}

static inline uint32_t kullneyra_hops_into(const uint32_t *offsets, size_t offsets_len, const uint32_t *targets,
                                           size_t targets_len, const uint32_t *starts, size_t starts_len,
                                           uint32_t *hops, size_t hops_len, uint32_t *work, size_t work_len) {
    const struct kullneyra_range ranges[] = {
        kullneyra_range(hops, hops_len, sizeof *hops),
        kullneyra_range(work, work_len, sizeof *work),
        kullneyra_range(offsets, offsets_len, sizeof *offsets),
        kullneyra_range(targets, targets_len, sizeof *targets),
        kullneyra_range(starts, starts_len, sizeof *starts),
    };
    if (kullneyra_shared(ranges, 2, 5, NULL, 0))
        return KULLNEYRA_BUFFER;
    return kullneyra_hops(offsets, offsets_len, targets, targets_len, starts, starts_len, hops, hops_len, work,
                          work_len);
}

static inline uint32_t kullneyra_update_words_into(uint32_t objects, uint64_t *answer) {
    *answer = 0;
    return kullneyra_update_words(objects, answer, KULLNEYRA_UPDATE_WORDS);
}

static inline uint32_t kullneyra_add_into(const uint32_t *offsets, size_t offsets_len, const uint32_t *targets,
                                          size_t targets_len, const uint32_t *from, size_t from_len, const uint32_t *to,
                                          size_t to_len, uint32_t *new_offsets, size_t new_offsets_len,
                                          uint32_t *new_targets, size_t new_targets_len, uint8_t *marks,
                                          size_t marks_len, uint32_t *work, size_t work_len) {
    const struct kullneyra_range ranges[] = {
        kullneyra_range(new_offsets, new_offsets_len, sizeof *new_offsets),
        kullneyra_range(new_targets, new_targets_len, sizeof *new_targets),
        kullneyra_range(marks, marks_len, sizeof *marks),
        kullneyra_range(work, work_len, sizeof *work),
        kullneyra_range(offsets, offsets_len, sizeof *offsets),
        kullneyra_range(targets, targets_len, sizeof *targets),
        kullneyra_range(from, from_len, sizeof *from),
        kullneyra_range(to, to_len, sizeof *to),
    };
    if (kullneyra_shared(ranges, 4, 8, NULL, 0))
        return KULLNEYRA_BUFFER;
    return kullneyra_add(offsets, offsets_len, targets, targets_len, from, from_len, to, to_len, new_offsets,
                         new_offsets_len, new_targets, new_targets_len, marks, marks_len, work, work_len);
}

static inline uint32_t kullneyra_remove_into(const uint32_t *offsets, size_t offsets_len, const uint32_t *targets,
                                             size_t targets_len, const uint32_t *numbers, size_t numbers_len,
                                             const uint32_t *starts, size_t starts_len, uint32_t *new_offsets,
                                             size_t new_offsets_len, uint32_t *new_targets, size_t new_targets_len,
                                             uint8_t *marks, size_t marks_len, uint32_t *work, size_t work_len) {
    const struct kullneyra_range ranges[] = {
        kullneyra_range(new_offsets, new_offsets_len, sizeof *new_offsets),
        kullneyra_range(new_targets, new_targets_len, sizeof *new_targets),
        kullneyra_range(marks, marks_len, sizeof *marks),
        kullneyra_range(work, work_len, sizeof *work),
        kullneyra_range(offsets, offsets_len, sizeof *offsets),
        kullneyra_range(targets, targets_len, sizeof *targets),
        kullneyra_range(numbers, numbers_len, sizeof *numbers),
        kullneyra_range(starts, starts_len, sizeof *starts),
    };
    if (kullneyra_shared(ranges, 4, 8, NULL, 0))
        return KULLNEYRA_BUFFER;
    return kullneyra_remove(offsets, offsets_len, targets, targets_len, numbers, numbers_len, starts, starts_len,
                            new_offsets, new_offsets_len, new_targets, new_targets_len, marks, marks_len, work,
                            work_len);
}

static inline uint32_t kullneyra_market_header_into(const uint8_t *text, size_t text_len,
                                                    struct kullneyra_head *answer) {
    const struct kullneyra_range ranges[] = {
        kullneyra_range(text, text_len, sizeof *text),
    };
    if (kullneyra_shared(ranges, 0, 1, answer, sizeof *answer))
        return KULLNEYRA_BUFFER;
    uint32_t words[KULLNEYRA_HEADER_WORDS] = {0};
    const uint32_t number = kullneyra_market_header(text, text_len, words, KULLNEYRA_HEADER_WORDS);
    memcpy(answer, words, sizeof *answer);
    return number;
}

static inline uint32_t kullneyra_import_into(const uint8_t *text, size_t text_len, uint32_t *offsets,
                                             size_t offsets_len, uint32_t *targets, size_t targets_len, uint64_t *sizes,
                                             size_t sizes_len, struct kullneyra_head *answer) {
    const struct kullneyra_range ranges[] = {
        kullneyra_range(offsets, offsets_len, sizeof *offsets),
        kullneyra_range(targets, targets_len, sizeof *targets),
        kullneyra_range(sizes, sizes_len, sizeof *sizes),
        kullneyra_range(text, text_len, sizeof *text),
    };
    if (kullneyra_shared(ranges, 3, 4, answer, sizeof *answer))
        return KULLNEYRA_BUFFER;
    uint32_t words[KULLNEYRA_HEADER_WORDS] = {0};
    const uint32_t number = kullneyra_import(text, text_len, offsets, offsets_len, targets, targets_len, sizes,
                                             sizes_len, words, KULLNEYRA_HEADER_WORDS);
    memcpy(answer, words, sizeof *answer);
    return number;
}

static inline uint32_t kullneyra_export_length_into(const uint32_t *offsets, size_t offsets_len,
                                                    const uint32_t *targets, size_t targets_len, uint64_t *answer) {
    const struct kullneyra_range ranges[] = {
        kullneyra_range(offsets, offsets_len, sizeof *offsets),
        kullneyra_range(targets, targets_len, sizeof *targets),
    };
    if (kullneyra_shared(ranges, 0, 2, answer, sizeof *answer))
        return KULLNEYRA_BUFFER;
    *answer = 0;
    return kullneyra_export_length(offsets, offsets_len, targets, targets_len, answer, KULLNEYRA_EXPORT_WORDS);
}

static inline uint32_t kullneyra_export_into(const uint32_t *offsets, size_t offsets_len, const uint32_t *targets,
                                             size_t targets_len, uint8_t *out, size_t out_len) {
    const struct kullneyra_range ranges[] = {
        kullneyra_range(out, out_len, sizeof *out),
        kullneyra_range(offsets, offsets_len, sizeof *offsets),
        kullneyra_range(targets, targets_len, sizeof *targets),
    };
    if (kullneyra_shared(ranges, 1, 3, NULL, 0))
        return KULLNEYRA_BUFFER;
    return kullneyra_export(offsets, offsets_len, targets, targets_len, out, out_len);
}

static inline uint32_t kullneyra_scan_length_into(uint32_t objects, uint32_t width, const uint8_t *names,
                                                  size_t names_len, const uint32_t *named, size_t named_len,
                                                  const uint8_t *texts, size_t texts_len, const uint64_t *ends,
                                                  size_t ends_len, const uint32_t *owners, size_t owners_len,
                                                  uint32_t *work, size_t work_len, uint64_t *answer) {
    const struct kullneyra_range ranges[] = {
        kullneyra_range(work, work_len, sizeof *work),
        kullneyra_range(names, names_len, sizeof *names),
        kullneyra_range(named, named_len, sizeof *named),
        kullneyra_range(texts, texts_len, sizeof *texts),
        kullneyra_range(ends, ends_len, sizeof *ends),
        kullneyra_range(owners, owners_len, sizeof *owners),
    };
    if (kullneyra_shared(ranges, 1, 6, answer, sizeof *answer))
        return KULLNEYRA_BUFFER;
    *answer = 0;
    return kullneyra_scan_length(objects, width, names, names_len, named, named_len, texts, texts_len, ends, ends_len,
                                 owners, owners_len, work, work_len, answer, KULLNEYRA_SCAN_WORDS);
}

static inline uint32_t kullneyra_scan_into(uint32_t objects, uint32_t width, const uint8_t *names, size_t names_len,
                                           const uint32_t *named, size_t named_len, const uint8_t *texts,
                                           size_t texts_len, const uint64_t *ends, size_t ends_len,
                                           const uint32_t *owners, size_t owners_len, uint32_t *work, size_t work_len,
                                           uint32_t *from, size_t from_len, uint32_t *to, size_t to_len) {
    const struct kullneyra_range ranges[] = {
        kullneyra_range(work, work_len, sizeof *work),
        kullneyra_range(from, from_len, sizeof *from),
        kullneyra_range(to, to_len, sizeof *to),
        kullneyra_range(names, names_len, sizeof *names),
        kullneyra_range(named, named_len, sizeof *named),
        kullneyra_range(texts, texts_len, sizeof *texts),
        kullneyra_range(ends, ends_len, sizeof *ends),
        kullneyra_range(owners, owners_len, sizeof *owners),
    };
    if (kullneyra_shared(ranges, 3, 8, NULL, 0))
        return KULLNEYRA_BUFFER;
    return kullneyra_scan(objects, width, names, names_len, named, named_len, texts, texts_len, ends, ends_len, owners,
                          owners_len, work, work_len, from, from_len, to, to_len);
}

/* Up to here. */

/* One worker's tally, of the words that mark left. */
static inline struct kullneyra_tally kullneyra_tally_of(const uint64_t *tallies, uint32_t worker) {
    struct kullneyra_tally tally;
    memcpy(&tally, tallies + KULLNEYRA_TALLIES(worker), sizeof tally);
    return tally;
}

#ifdef __cplusplus
}
#endif

#endif
