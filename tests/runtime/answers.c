/* The calls that answer in a struct, each beside a refusal and without one. Valid C99 and C++11. */
#include "kullneyra.h"

#include <stdio.h>

static int failed = 0;

static void expect(const char *name, uint64_t wanted, uint64_t found) {
    if (wanted != found) {
        printf("%s: %llu expected, %llu found\n", name, (unsigned long long)wanted, (unsigned long long)found);
        failed = 1;
    }
}

/* Nothing of an answer is left from before the call. */
static void stain(void *answer, size_t bytes) { memset(answer, 0x5a, bytes); }

static void expect_zeros(const char *name, const void *answer, size_t bytes) {
    const unsigned char *at = (const unsigned char *)answer;
    for (size_t i = 0; i < bytes; i++) {
        expect(name, 0, at[i]);
    }
}

#define REFUSED(name, number, call, answer)            \
    do {                                               \
        stain(&answer, sizeof answer);                 \
        expect(name, number, call);                    \
        expect_zeros(name, &answer, sizeof answer);    \
    } while (0)

#define ACCEPTED(name, call, answer)                   \
    do {                                               \
        stain(&answer, sizeof answer);                 \
        expect(name, KULLNEYRA_OK, call);              \
    } while (0)

/* Two objects, 0 and 1, the reference 0->0 and a lease on object 1. */
static const uint8_t catalogue[] = {
    16, 0, 1, 0, 2, 0, 0, 0, 1, 0, 0, 0, 0, 0, 0, 0, /* n 2, m 1, index 0 */
    12, 0, 2, 0, 100, 0, 0, 0, 0, 0, 0, 0,           /* object 0, 100 bytes */
    12, 0, 2, 0, 200, 0, 0, 0, 0, 0, 0, 0,           /* object 1, 200 bytes */
    12, 0, 3, 0, 0, 0, 0, 0, 0, 0, 0, 0,             /* reference 0->0 */
    8,  0, 4, 0, 1, 0, 0, 0,                         /* lease on object 1 */
};

/* The list of the counts has each of them once, and finished is the only other word. */
#define ONE(name) 1 +
static const size_t count_names = KULLNEYRA_COUNTS(ONE) 0;

/* Each number has its own words, and one that no call answers has some, too. */
static void refusals_in_words(void) {
    for (uint32_t number = KULLNEYRA_OK; number <= KULLNEYRA_NAMES; number++) {
        for (uint32_t other = number + 1; other <= KULLNEYRA_NAMES + 1; other++) {
            expect("refusal_text, the same words", 1,
                   strcmp(kullneyra_refusal_text(number), kullneyra_refusal_text(other)) != 0);
        }
    }
    expect("refusal_text of a buffer", 0,
           (uint64_t)strcmp(kullneyra_refusal_text(KULLNEYRA_BUFFER), "a lent buffer is not as long as it must be, or overlaps another"));
}

int main(void) {
    static const uint8_t turns[6] = {0, 0, 0, 0, 0, 0};
    uint32_t offsets[KULLNEYRA_OFFSETS(2)], targets[KULLNEYRA_TARGETS(1)], list[KULLNEYRA_LIST(2) + 1];
    uint64_t sizes[KULLNEYRA_SIZES(2)];
    uint32_t starts[KULLNEYRA_STARTS];
    uint8_t marks[KULLNEYRA_MARKS(2)];
    uint32_t work[KULLNEYRA_WORK(2, 1)];
    uint64_t tallies[KULLNEYRA_TALLIES(1)];
    uint32_t saved[KULLNEYRA_SAVED(2, 1)], foreign[KULLNEYRA_SAVED(2, 1)];
    uint64_t saved_words;
    struct kullneyra_head head;
    struct kullneyra_store store;
    struct kullneyra_part part;
    struct kullneyra_marked marked;
    struct kullneyra_stopped stopped;
    struct kullneyra_tally tally;
    struct kullneyra_swept swept;
    struct kullneyra_length length;
    static const uint32_t hand[3] = {0, KULLNEYRA_DECK - 1, KULLNEYRA_DECK};
    uint8_t dealt[9];
    struct kullneyra_seed seed = {1, 0}, none = {0, 7};
    struct kullneyra_drawn drawn;

    expect("version", 0, (uint64_t)(strcmp(kullneyra_version(), KULLNEYRA_VERSION) != 0));
    expect("names of counts", KULLNEYRA_MARK_WORDS - 1, count_names);
    expect("words of a tally", KULLNEYRA_TALLIES(1), sizeof tally / sizeof(uint64_t));

    REFUSED("header, empty", KULLNEYRA_SHORT, kullneyra_header_into(NULL, 0, &head), head);
    ACCEPTED("header", kullneyra_header_into(catalogue, sizeof catalogue, &head), head);
    expect("header, n", 2, head.n);
    expect("header, m", 1, head.m);
    expect("header, index", 0, head.index);

    REFUSED("read, short offsets", KULLNEYRA_BUFFER,
            kullneyra_read_into(catalogue, sizeof catalogue, offsets, 2, targets, 1, sizes, 2, starts,
                                KULLNEYRA_STARTS, &store),
            store);
    REFUSED("read, short starts", KULLNEYRA_BUFFER,
            kullneyra_read_into(catalogue, sizeof catalogue, offsets, 3, targets, 1, sizes, 2, starts,
                                KULLNEYRA_STARTS - 1, &store),
            store);
    ACCEPTED("read",
             kullneyra_read_into(catalogue, sizeof catalogue, offsets, 3, targets, 1, sizes, 2, starts,
                                 KULLNEYRA_STARTS, &store),
             store);
    expect("read, n", 2, store.n);
    expect("read, m", 1, store.m);
    expect("read, index", 0, store.index);
    expect("read, number of starts", 2, store.starts);
    expect("read, the index among the starts", 0, starts[0]);
    expect("read, the lease among the starts", 1, starts[1]);
    expect("read, zeros behind the starts", 0, starts[2] + starts[KULLNEYRA_STARTS - 1]);
    expect("read, offsets", 1, offsets[2]);
    expect("read, sizes", 200, sizes[1]);

    /* The view has no refusal; what it cannot answer is the empty part. */
    REFUSED("references, no such object", KULLNEYRA_OK, kullneyra_references_into(offsets, 3, targets, 1, 2, &part),
            part);
    ACCEPTED("references", kullneyra_references_into(offsets, 3, targets, 1, 0, &part), part);
    expect("references, start", 0, part.start);
    expect("references, length", 1, part.length);

    REFUSED("mark, no start", KULLNEYRA_NO_STARTS,
            kullneyra_mark_into(offsets, 3, targets, 1, NULL, 0, 1, 1, 1, turns, 6, marks, 2, work,
                                KULLNEYRA_WORK(2, 1), tallies, KULLNEYRA_TALLIES(1), &marked),
            marked);
    REFUSED("mark, half a turn", KULLNEYRA_SCHEDULE,
            kullneyra_mark_into(offsets, 3, targets, 1, &head.index, 1, 1, 1, 1, turns, 5, marks, 2, work,
                                KULLNEYRA_WORK(2, 1), tallies, KULLNEYRA_TALLIES(1), &marked),
            marked);
    REFUSED("mark, short tallies", KULLNEYRA_BUFFER,
            kullneyra_mark_into(offsets, 3, targets, 1, &head.index, 1, 1, 1, 1, turns, 6, marks, 2, work,
                                KULLNEYRA_WORK(2, 1), tallies, KULLNEYRA_TALLIES(1) - 1, &marked),
            marked);
    ACCEPTED("mark, two turns",
             kullneyra_mark_into(offsets, 3, targets, 1, &head.index, 1, 1, 1, 1, turns, 4, marks, 2, work,
                                 KULLNEYRA_WORK(2, 1), tallies, KULLNEYRA_TALLIES(1), &marked),
             marked);
    expect("mark, unfinished", 0, marked.finished);
    expect("mark, moved before the end", 2, marked.moved);
    expect("mark, carrying before the end", 0, marked.carrying);
    ACCEPTED("mark",
             kullneyra_mark_into(offsets, 3, targets, 1, &head.index, 1, 1, 1, 1, turns, 6, marks, 2, work,
                                 KULLNEYRA_WORK(2, 1), tallies, KULLNEYRA_TALLIES(1), &marked),
             marked);
    expect("mark, finished", 1, marked.finished);
    expect("mark, live", 1, marked.live);
    expect("mark, the index's mark", 1, marks[0]);
    expect("mark, nobody's mark", 0, marks[1]);
    expect("mark, followed", 1, marked.followed);
    expect("mark, handed", 0, marked.handed);
    expect("mark, refused", 0, marked.refused);
    expect("mark, moved", 3, marked.moved);
    expect("mark, carrying", 0, marked.carrying);
    REFUSED("mark_all, no start", KULLNEYRA_NO_STARTS,
            kullneyra_mark_all_into(offsets, 3, targets, 1, NULL, 0, 1, 1, 1, marks, 2, work, KULLNEYRA_WORK(2, 1), tallies,
                                    KULLNEYRA_TALLIES(1), &marked),
            marked);
    REFUSED("mark_all, short tallies", KULLNEYRA_BUFFER,
            kullneyra_mark_all_into(offsets, 3, targets, 1, &head.index, 1, 1, 1, 1, marks, 2, work, KULLNEYRA_WORK(2, 1),
                                    tallies, KULLNEYRA_TALLIES(1) - 1, &marked),
            marked);
    memset(marks, 7, sizeof marks);
    ACCEPTED("mark_all",
             kullneyra_mark_all_into(offsets, 3, targets, 1, &head.index, 1, 1, 1, 1, marks, 2, work, KULLNEYRA_WORK(2, 1),
                                     tallies, KULLNEYRA_TALLIES(1), &marked),
             marked);
    expect("mark_all, finished", 1, marked.finished);
    expect("mark_all, live", 1, marked.live);
    expect("mark_all, the index's mark", 1, marks[0]);
    expect("mark_all, nobody's mark", 0, marks[1]);
    expect("mark_all, followed", 1, marked.followed);
    expect("mark_all, moved", 3, marked.moved);
    tally = kullneyra_tally_of(tallies, 0);
    expect("tally, followed", 1, tally.followed);
    expect("tally, won", 0, tally.won);
    expect("tally, lost", 0, tally.lost);
    expect("tally, handed", 0, tally.handed);

    REFUSED("saved_words, no worker", KULLNEYRA_SETTING, kullneyra_saved_words_into(2, 0, &saved_words), saved_words);
    REFUSED("saved_words, no object", KULLNEYRA_COUNT, kullneyra_saved_words_into(0, 1, &saved_words), saved_words);
    ACCEPTED("saved_words", kullneyra_saved_words_into(2, 1, &saved_words), saved_words);
    expect("saved_words, how many", KULLNEYRA_SAVED(2, 1), saved_words);
    ACCEPTED("saved_words at the limits",
             kullneyra_saved_words_into(KULLNEYRA_MOST_OBJECTS, KULLNEYRA_MOST_WORKERS, &saved_words), saved_words);
    expect("saved_words at the limits, how many", KULLNEYRA_SAVED(KULLNEYRA_MOST_OBJECTS, KULLNEYRA_MOST_WORKERS),
           saved_words);

    /* Two turns, kept in the saved words alone, and a third one. */
    REFUSED("begin, short saved words", KULLNEYRA_BUFFER,
            kullneyra_begin_into(offsets, 3, targets, 1, &head.index, 1, 1, 1, 1, turns, 4, marks, 2, work,
                                 KULLNEYRA_WORK(2, 1), tallies, KULLNEYRA_TALLIES(1), saved, KULLNEYRA_SAVED(2, 1) - 1,
                                 &stopped),
            stopped);
    ACCEPTED("begin",
             kullneyra_begin_into(offsets, 3, targets, 1, &head.index, 1, 1, 1, 1, turns, 4, marks, 2, work,
                                  KULLNEYRA_WORK(2, 1), tallies, KULLNEYRA_TALLIES(1), saved, KULLNEYRA_SAVED(2, 1),
                                  &stopped),
             stopped);
    expect("begin, unfinished", 0, stopped.finished);
    expect("begin, sound", 1, stopped.sound);
    expect("begin, moved", 2, stopped.moved);
    /* Somebody else's words, with moved at its bound 7m + W: a turn more, and they cannot be taken up again. */
    memcpy(foreign, saved, sizeof saved);
    foreign[9] = 8;
    ACCEPTED("resume, moved at its bound",
             kullneyra_resume_into(offsets, 3, targets, 1, &head.index, 1, 1, 1, 1, turns, 2, marks, 2, work,
                                   KULLNEYRA_WORK(2, 1), tallies, KULLNEYRA_TALLIES(1), foreign, KULLNEYRA_SAVED(2, 1),
                                   &stopped),
             stopped);
    expect("resume, moved above its bound", 9, stopped.moved);
    expect("resume, a dead end", 0, stopped.sound);
    REFUSED("resume, behind a dead end", KULLNEYRA_UNSOUND,
            kullneyra_resume_into(offsets, 3, targets, 1, &head.index, 1, 1, 1, 1, turns, 2, marks, 2, work,
                                  KULLNEYRA_WORK(2, 1), tallies, KULLNEYRA_TALLIES(1), foreign, KULLNEYRA_SAVED(2, 1),
                                  &stopped),
            stopped);
    memset(marks, 7, sizeof marks);
    memset(work, 7, sizeof work);
    memset(tallies, 7, sizeof tallies);
    REFUSED("resume, half a turn", KULLNEYRA_SCHEDULE,
            kullneyra_resume_into(offsets, 3, targets, 1, &head.index, 1, 1, 1, 1, turns, 1, marks, 2, work,
                                  KULLNEYRA_WORK(2, 1), tallies, KULLNEYRA_TALLIES(1), saved, KULLNEYRA_SAVED(2, 1),
                                  &stopped),
            stopped);
    REFUSED("resume, another start", KULLNEYRA_UNSOUND,
            kullneyra_resume_into(offsets, 3, targets, 1, starts + 1, 1, 1, 1, 1, turns, 2, marks, 2, work,
                                  KULLNEYRA_WORK(2, 1), tallies, KULLNEYRA_TALLIES(1), saved, KULLNEYRA_SAVED(2, 1),
                                  &stopped),
            stopped);
    expect("resume, nothing is written beside a refusal", 7, marks[0]);
    ACCEPTED("resume",
             kullneyra_resume_into(offsets, 3, targets, 1, &head.index, 1, 1, 1, 1, turns, 2, marks, 2, work,
                                   KULLNEYRA_WORK(2, 1), tallies, KULLNEYRA_TALLIES(1), saved, KULLNEYRA_SAVED(2, 1),
                                   &stopped),
             stopped);
    expect("resume, finished", 1, stopped.finished);
    expect("resume, live", 1, stopped.live);
    expect("resume, followed", 1, stopped.followed);
    expect("resume, moved", 3, stopped.moved);
    expect("resume, sound", 1, stopped.sound);
    expect("resume, the index's mark", 1, marks[0]);
    expect("resume, nobody's mark", 0, marks[1]);
    expect("resume, the tally", 1, kullneyra_tally_of(tallies, 0).followed);
    memset(saved, 0, sizeof saved);
    REFUSED("resume, all zeros", KULLNEYRA_UNSOUND,
            kullneyra_resume_into(offsets, 3, targets, 1, &head.index, 1, 1, 1, 1, turns, 2, marks, 2, work,
                                  KULLNEYRA_WORK(2, 1), tallies, KULLNEYRA_TALLIES(1), saved, KULLNEYRA_SAVED(2, 1),
                                  &stopped),
            stopped);

    REFUSED("sweep, long list", KULLNEYRA_BUFFER, kullneyra_sweep_into(marks, 2, sizes, 2, list, 3, &swept), swept);
    ACCEPTED("sweep", kullneyra_sweep_into(marks, 2, sizes, 2, list, 2, &swept), swept);
    expect("sweep, count", 1, swept.count);
    expect("sweep, freed", 200, swept.freed);
    expect("sweep, list", 1, list[0]);

    REFUSED("schedule_length, no workers", KULLNEYRA_SETTING, kullneyra_schedule_length_into(2, 0, &length), length);
    REFUSED("schedule_length, seven workers", KULLNEYRA_CARDS,
            kullneyra_schedule_length_into(2, KULLNEYRA_CARD_WORKERS + 1, &length), length);
    REFUSED("schedule_length, too long", KULLNEYRA_BUFFER, kullneyra_schedule_length_into(SIZE_MAX, 1, &length), length);
    ACCEPTED("schedule_length", kullneyra_schedule_length_into(2, 2, &length), length);
    expect("schedule_length, bytes", 8, length.bytes);
    memset(dealt, 0x5a, sizeof dealt);
    expect("deal, no workers", KULLNEYRA_SETTING, kullneyra_deal_into(hand, 2, 0, dealt, 8));
    expect("deal, card 720", KULLNEYRA_CARDS, kullneyra_deal_into(hand, 3, 1, dealt, 6));
    expect("deal, long schedule", KULLNEYRA_BUFFER, kullneyra_deal_into(hand, 2, 2, dealt, 9));
    expect("deal, unchanged", 0x5a, dealt[0]);
    expect("deal", KULLNEYRA_OK, kullneyra_deal_into(hand, 2, 2, dealt, 8));
    expect("deal, first card", 0x01 << 16 | 0x01 << 8, (uint64_t)dealt[1] << 16 | (uint64_t)dealt[2] << 8 | dealt[3]);
    expect("deal, last card", 0x01 << 24 | 0x01, (uint64_t)dealt[4] << 24 | (uint64_t)dealt[5] << 16 | dealt[7]);
    expect("deal, behind it", 0x5a, dealt[8]);

    REFUSED("draw, first word 0", KULLNEYRA_NO_SEED, kullneyra_draw_into(&none, &drawn), drawn);
    expect("draw, unchanged", 7, none.second);
    ACCEPTED("draw", kullneyra_draw_into(&seed, &drawn), drawn);
    expect("draw, card", 646, drawn.card);
    expect("draw, first word", 270369, seed.first);
    expect("draw, second word", 362437, seed.second);
    memset(dealt, 0x5a, sizeof dealt);
    expect("deal_seed, no workers", KULLNEYRA_SETTING, kullneyra_deal_seed_into(&none, 2, 0, dealt, 8));
    expect("deal_seed, first word 0", KULLNEYRA_NO_SEED, kullneyra_deal_seed_into(&none, 2, 7, dealt, 8));
    expect("deal_seed, seven workers", KULLNEYRA_CARDS, kullneyra_deal_seed_into(&seed, 2, 7, dealt, 8));
    expect("deal_seed, long schedule", KULLNEYRA_BUFFER, kullneyra_deal_seed_into(&seed, 2, 2, dealt, 9));
    expect("deal_seed, unchanged", 270369, seed.first);
    expect("deal_seed, bytes unchanged", 0x5a, dealt[0]);
    /* Cards 603 and 612: 501342 and 503124. */
    expect("deal_seed", KULLNEYRA_OK, kullneyra_deal_seed_into(&seed, 2, 2, dealt, 8));
    expect("deal_seed, first round", 0, dealt[0]);
    expect("deal_seed, whom its worker asks", 1, dealt[1]);
    expect("deal_seed, second round", 0, dealt[4]);
    expect("deal_seed, first word", 2647435461u, seed.first);
    expect("deal_seed, behind it", 0x5a, dealt[8]);

    uint64_t hop_words;
    uint32_t hops[2] = {7, 7}, links[4] = {7, 7, 7, 7};
    expect("hop_words, no objects", KULLNEYRA_COUNT, kullneyra_hop_words_into(0, &hop_words));
    expect("hop_words beside a fault", 0, (uint32_t)hop_words);
    expect("hop_words", KULLNEYRA_OK, kullneyra_hop_words_into(2, &hop_words));
    expect("hop_words of two objects", 4, (uint32_t)hop_words);
    expect("hops, short work", KULLNEYRA_BUFFER,
           kullneyra_hops_into(offsets, 3, targets, 1, &head.index, 1, hops, 2, links, 3));
    expect("hops, no start", KULLNEYRA_NO_STARTS, kullneyra_hops_into(offsets, 3, targets, 1, NULL, 0, hops, 2, links, 4));
    expect("hops, unchanged", 7, hops[0]);
    expect("hops", KULLNEYRA_OK, kullneyra_hops_into(offsets, 3, targets, 1, &head.index, 1, hops, 2, links, 4));
    expect("hops of the index", 0, hops[0]);
    expect("no hops", KULLNEYRA_NO_HOPS, hops[1]);
    const uint32_t from_0[3] = {0, 1, 1}, to_1 = 1;
    expect("hops along a reference", KULLNEYRA_OK, kullneyra_hops_into(from_0, 3, &to_1, 1, &head.index, 1, hops, 2, links, 4));
    expect("hops of what it leads to", 1, hops[1]);

    uint64_t update_words;
    uint32_t new_offsets[3] = {7, 7, 7}, new_targets[2] = {7, 7}, todo[2] = {7, 7};
    uint8_t live[2] = {1, 0};
    const uint32_t zero = 0, two = 2;
    expect("update_words, no objects", KULLNEYRA_COUNT, kullneyra_update_words_into(0, &update_words));
    expect("update_words beside a fault", 0, (uint32_t)update_words);
    expect("update_words", KULLNEYRA_OK, kullneyra_update_words_into(2, &update_words));
    expect("update_words of two objects", 2, (uint32_t)update_words);
    expect("add, marks not closed", KULLNEYRA_NOT_CLOSED,
           kullneyra_add_into(from_0, 3, &to_1, 1, &zero, 1, &to_1, 1, new_offsets, 3, new_targets, 2, live, 2, todo, 2));
    expect("add, no such object", KULLNEYRA_OBJECT,
           kullneyra_add_into(from_0, 3, &to_1, 1, &zero, 1, &two, 1, new_offsets, 3, new_targets, 2, live, 2, todo, 2));
    expect("add, unchanged", 7, new_offsets[0]);
    expect("add, marks unchanged", 0, live[1]);
    const uint32_t bare[3] = {0, 0, 0};
    expect("add", KULLNEYRA_OK,
           kullneyra_add_into(bare, 3, NULL, 0, &zero, 1, &to_1, 1, new_offsets, 3, new_targets, 1, live, 2, todo, 2));
    expect("add, where the references of 0 end", 1, new_offsets[1]);
    expect("add, where it leads", 1, new_targets[0]);
    expect("add, the mark that was set", 1, live[0]);
    expect("add, newly live", 255, live[1]);
    const uint32_t twice[2] = {0, 0};
    expect("remove, no such reference", KULLNEYRA_OBJECT,
           kullneyra_remove_into(from_0, 3, &to_1, 1, &to_1, 1, &zero, 1, new_offsets, 3, new_targets, 2, live, 2, todo, 2));
    expect("remove, one target long", KULLNEYRA_BUFFER,
           kullneyra_remove_into(from_0, 3, &to_1, 1, twice, 2, &zero, 1, new_offsets, 3, new_targets, 1, live, 2, todo, 2));
    expect("remove", KULLNEYRA_OK,
           kullneyra_remove_into(from_0, 3, &to_1, 1, twice, 2, &zero, 1, new_offsets, 3, NULL, 0, live, 2, todo, 2));
    expect("remove, nothing left", 0, new_offsets[2]);
    expect("remove, the start", 1, live[0]);
    expect("remove, no longer live", 0, live[1]);

    static const char text[] = "%%MatrixMarket matrix coordinate pattern general\n2 2 1\n1 2\n";
    const uint8_t *const bytes_of_text = (const uint8_t *)text;
    const size_t text_len = sizeof text - 1;
    struct kullneyra_head market;
    REFUSED("market_header, short text", KULLNEYRA_TEXT, kullneyra_market_header_into(bytes_of_text, 48, &market), market);
    ACCEPTED("market_header", kullneyra_market_header_into(bytes_of_text, text_len, &market), market);
    expect("market_header, objects", 2, market.n);
    expect("market_header, references", 1, market.m);
    uint32_t read_offsets[3] = {7, 7, 7}, read_targets[1] = {7};
    uint64_t read_sizes[2] = {7, 7}, export_length;
    REFUSED("import, no last line feed", KULLNEYRA_TEXT,
            kullneyra_import_into(bytes_of_text, text_len - 1, read_offsets, 3, read_targets, 1, read_sizes, 2, &market), market);
    REFUSED("import, short sizes", KULLNEYRA_BUFFER,
            kullneyra_import_into(bytes_of_text, text_len, read_offsets, 3, read_targets, 1, read_sizes, 1, &market), market);
    expect("import, unchanged", 7, read_offsets[0]);
    ACCEPTED("import", kullneyra_import_into(bytes_of_text, text_len, read_offsets, 3, read_targets, 1, read_sizes, 2, &market),
             market);
    expect("import, offset", 1, read_offsets[1]);
    expect("import, target", 1, read_targets[0]);
    expect("import, size", 0, read_sizes[1]);
    expect("export_length, no graph", KULLNEYRA_GRAPH, kullneyra_export_length_into(read_offsets, 2, NULL, 0, &export_length));
    expect("export_length beside a fault", 0, export_length);
    expect("export_length", KULLNEYRA_OK, kullneyra_export_length_into(read_offsets, 3, read_targets, 1, &export_length));
    expect("export_length, bytes", text_len, export_length);
    uint8_t written[sizeof text];
    memset(written, 0x5a, sizeof written);
    expect("export, long buffer", KULLNEYRA_BUFFER, kullneyra_export_into(read_offsets, 3, read_targets, 1, written, sizeof text));
    expect("export, unchanged", 0x5a, written[0]);
    expect("export", KULLNEYRA_OK, kullneyra_export_into(read_offsets, 3, read_targets, 1, written, text_len));
    expect("export, text", 0, memcmp(written, text, text_len) != 0);
    expect("export, behind it", 0x5a, written[text_len]);
    expect("owner, nobody", (uint64_t)KULLNEYRA_BY_NOBODY, (uint64_t)kullneyra_owner(0, 1));
    expect("owner, a start", (uint64_t)KULLNEYRA_BY_START, (uint64_t)kullneyra_owner(1, 1));
    expect("owner, worker 0", 0, (uint64_t)kullneyra_owner(1, 0));
    expect("owner, worker 15", 15, (uint64_t)kullneyra_owner(16, 0));
    expect("owner, a change", (uint64_t)KULLNEYRA_BY_CHANGE, (uint64_t)kullneyra_owner(KULLNEYRA_NEWLY_LIVE, 0));

    /* the names 0a, aa and ab of the objects 2, 0 and 1 in the texts 0aaa of object 1 and b of object 0 */
    const uint8_t *names = (const uint8_t *)"0aaaab", *texts = (const uint8_t *)"0aaab";
    const uint32_t named[3] = {2, 0, 1}, owners[2] = {1, 0};
    const uint64_t ends[2] = {4, 5};
    uint64_t scan_length;
    uint32_t from[3] = {7, 7, 7}, to[3] = {7, 7, 7};
    static uint32_t blank[KULLNEYRA_SCAN_WORK];
#define WORK blank, KULLNEYRA_SCAN_WORK
    expect("scan_length, width 0", KULLNEYRA_NAMES,
           kullneyra_scan_length_into(3, 0, NULL, 0, NULL, 0, NULL, 0, NULL, 0, NULL, 0, WORK, &scan_length));
    expect("scan_length beside a fault", 0, scan_length);
    expect("scan_length", KULLNEYRA_OK, kullneyra_scan_length_into(3, 2, names, 6, named, 3, texts, 5, ends, 2, owners, 2, WORK, &scan_length));
    expect("scan_length, mentions", 3, scan_length);
    expect("scan, short list", KULLNEYRA_BUFFER, kullneyra_scan_into(3, 2, names, 6, named, 3, texts, 5, ends, 2, owners, 2, WORK, from, 3, to, 2));
    expect("scan, ends", KULLNEYRA_GRAPH, kullneyra_scan_into(3, 2, names, 6, named, 3, texts, 4, ends, 2, owners, 2, WORK, from, 3, to, 3));
    expect("scan, no object", KULLNEYRA_OBJECT, kullneyra_scan_into(2, 2, names, 6, named, 3, texts, 5, ends, 2, owners, 2, WORK, from, 3, to, 3));
    expect("scan, unchanged", 7, from[0]);
    expect("scan, short work", KULLNEYRA_BUFFER,
           kullneyra_scan_into(3, 2, names, 6, named, 3, texts, 5, ends, 2, owners, 2, blank, KULLNEYRA_SCAN_WORK - 1, from, 3, to, 3));
    blank[KULLNEYRA_SCAN_WORK - 1] = 5;
    expect("scan, work that is not 0", KULLNEYRA_BUFFER, kullneyra_scan_into(3, 2, names, 6, named, 3, texts, 5, ends, 2, owners, 2, WORK, from, 3, to, 3));
    expect("scan, work unchanged", 5, blank[KULLNEYRA_SCAN_WORK - 1]);
    blank[KULLNEYRA_SCAN_WORK - 1] = 0;
    expect("scan", KULLNEYRA_OK, kullneyra_scan_into(3, 2, names, 6, named, 3, texts, 5, ends, 2, owners, 2, WORK, from, 3, to, 3));
    expect("scan, owner", 1, from[2]);
    expect("scan, mentioned", 2, to[0]);
    expect("scan, mentioned at the last place", 0, to[2]);
    uint32_t left = 0;
    for (size_t i = 0; i < KULLNEYRA_SCAN_WORK; i++) {
        left |= blank[i];
    }
    expect("scan, work again 0", 0, left);
    refusals_in_words();
    return failed;
}
