/* Every call of the library on a thread with 48 KB of stack and a guard page below it, with the smallest store and with the
 * largest, and how much of the stack it takes: 32 KB at most. Each runs in a process of its own, so that a call that
 * overruns its stack is named. `stack LIMIT` takes another bound in bytes, `stack` alone the documented one. */
#define _GNU_SOURCE
#include "kullneyra.h"

#include <pthread.h>
#include <stdio.h>
#include <stdlib.h>
#include <sys/mman.h>
#include <sys/wait.h>
#include <unistd.h>

enum { STACK = 48 * 1024, LIMIT = 32 * 1024, PAINT = 0xa5, CARDS = 6000, TAKEN = 5000, NAME = 64 };

/* One store, and buffers for every call on it. */
struct input {
    const char *name;
    uint32_t n, m, workers;
    uint32_t *offsets, *targets, *starts, *work, *saved, *hops;
    uint32_t *new_offsets, *new_targets, *numbers, *cards;
    uint32_t *named, *owners, *scan_work, *from, *to;
    uint64_t *sizes, *tallies;
    uint64_t *ends;
    uint8_t *marks, *catalogue, *schedule, *text, *out, *turns, *names;
    size_t mentions, catalogue_len, schedule_len, text_len, starts_len, taken, cards_len, turns_len;
};

static struct input small = {.name = "small", .n = 1, .m = 1, .workers = 1};
static struct input large = {
    .name = "large", .n = KULLNEYRA_MOST_OBJECTS, .m = KULLNEYRA_MOST_REFERENCES, .workers = KULLNEYRA_MOST_WORKERS};

static void *words(size_t count, size_t size) {
    void *at = calloc(count ? count : 1, size);
    if (at == NULL) {
        puts("stack: out of memory");
        exit(1);
    }
    return at;
}

static void put(uint8_t **at, uint64_t value, int bytes) {
    while (bytes-- > 0) {
        *(*at)++ = (uint8_t)value;
        value >>= 8;
    }
}

/* As many of the workers as cards deal turns to. */
static uint32_t dealt(const struct input *s) { return s->workers < KULLNEYRA_CARD_WORKERS ? s->workers : KULLNEYRA_CARD_WORKERS; }

#define NAMED(s) \
    (s)->n, NAME, (s)->names, (size_t)(s)->n * NAME, (s)->named, (s)->n, (s)->names, (size_t)(s)->n * NAME, (s)->ends, 1, (s)->owners, 1, \
    (s)->scan_work, KULLNEYRA_SCAN_WORK

/* A name for each object, its number in hexadecimal; and one text, which is all of the names, one behind the other. */
static void fill_names(struct input *s) {
    s->names = words((size_t)s->n * NAME + 1, 1);
    s->named = words(s->n, sizeof(uint32_t));
    s->ends = words(1, sizeof(uint64_t));
    s->owners = words(1, sizeof(uint32_t));
    s->scan_work = words(KULLNEYRA_SCAN_WORK, sizeof(uint32_t));
    for (uint32_t v = 0; v < s->n; v++) {
        sprintf((char *)s->names + (size_t)v * NAME, "%0*x", NAME, (unsigned)v);
        s->named[v] = v;
    }
    s->ends[0] = (uint64_t)s->n * NAME;
    uint64_t mentions;
    if (kullneyra_scan_length_into(NAMED(s), &mentions) != KULLNEYRA_OK) {
        puts("stack: the names are none");
        exit(1);
    }
    s->mentions = (size_t)mentions;
    s->from = words(s->mentions, sizeof(uint32_t));
    s->to = words(s->mentions, sizeof(uint32_t));
}

/* The index refers to every object, and the rest goes from one object to another far away. */
static void fill(struct input *s) {
    const uint32_t n = s->n, m = s->m;
    s->offsets = words(KULLNEYRA_OFFSETS(n), sizeof(uint32_t));
    s->targets = words(KULLNEYRA_TARGETS(m), sizeof(uint32_t));
    s->sizes = words(KULLNEYRA_SIZES(n), sizeof(uint64_t));
    s->starts = words(KULLNEYRA_STARTS, sizeof(uint32_t));
    s->marks = words(KULLNEYRA_MARKS(n), 1);
    s->work = words(KULLNEYRA_WORK(n, s->workers), sizeof(uint32_t));
    s->tallies = words(KULLNEYRA_TALLIES(s->workers), sizeof(uint64_t));
    s->saved = words(KULLNEYRA_SAVED(n, s->workers), sizeof(uint32_t));
    s->hops = words(n, sizeof(uint32_t));
    s->new_offsets = words(KULLNEYRA_OFFSETS(n), sizeof(uint32_t));
    s->new_targets = words((size_t)m + TAKEN, sizeof(uint32_t));
    s->numbers = words(TAKEN, sizeof(uint32_t));
    s->cards = words(CARDS, sizeof(uint32_t));
    s->starts_len = 1;
    s->taken = n == 1 ? 1 : TAKEN;
    s->cards_len = n == 1 ? 1 : CARDS;
    for (size_t i = 0; i < s->taken; i++) {
        s->numbers[i] = (uint32_t)(i * 199 % m);
    }
    for (size_t i = 0; i < s->cards_len; i++) {
        s->cards[i] = (uint32_t)(i % KULLNEYRA_DECK);
    }
    uint32_t at = 0;
    for (uint32_t v = 0; v < n; v++) {
        const uint32_t own = v == 0 ? (n < m ? n : m) : (m - n) / (n - 1) + (v <= (m - n) % (n - 1));
        s->offsets[v] = at;
        for (uint32_t k = 0; k < own; k++, at++) {
            s->targets[at] = v == 0 ? k : (uint32_t)(((uint64_t)v * 48271 + k * 65521u) % n);
        }
    }
    s->offsets[n] = at;

    s->catalogue_len = 16 + 12 * ((size_t)n + m);
    s->catalogue = words(s->catalogue_len, 1);
    uint8_t *byte = s->catalogue;
    put(&byte, 16, 2), put(&byte, 1, 2), put(&byte, n, 4), put(&byte, m, 4), put(&byte, 0, 4);
    for (uint32_t v = 0; v < n; v++) {
        put(&byte, 12, 2), put(&byte, 2, 2), put(&byte, 100, 8);
    }
    for (uint32_t v = 0; v < n; v++) {
        for (uint32_t e = s->offsets[v]; e < s->offsets[v + 1]; e++) {
            put(&byte, 12, 2), put(&byte, 3, 2), put(&byte, v, 4), put(&byte, s->targets[e], 4);
        }
    }

    s->schedule_len = 2 * s->cards_len * dealt(s);
    s->schedule = words(s->schedule_len, 1);
    s->turns_len = 2 * (n == 1 ? 4 : 400000);
    s->turns = words(s->turns_len, 1);
    for (size_t i = 0; i < s->turns_len / 2; i++) {
        s->turns[2 * i] = (uint8_t)(i % s->workers);
        s->turns[2 * i + 1] = (uint8_t)((i + 1) % s->workers);
    }
    uint64_t bytes;
    if (kullneyra_export_length_into(s->offsets, (size_t)n + 1, s->targets, m, &bytes) != KULLNEYRA_OK) {
        puts("stack: the store is no graph");
        exit(1);
    }
    s->text_len = (size_t)bytes;
    s->text = words(s->text_len, 1);
    s->out = words(s->text_len, 1);
    kullneyra_export_into(s->offsets, (size_t)n + 1, s->targets, m, s->text, s->text_len);
    fill_names(s);
}

#define GRAPH(s) (s)->offsets, (size_t)(s)->n + 1, (s)->targets, (s)->m
#define SET(s) GRAPH(s), (s)->starts, (s)->starts_len, (s)->workers, 3, 2
#define BUFFERS(s)                                                                                                    \
    (s)->marks, (s)->n, (s)->work, KULLNEYRA_WORK((s)->n, (s)->workers), (s)->tallies, KULLNEYRA_TALLIES((s)->workers)
#define RUN(s) SET(s), (s)->turns, (s)->turns_len, BUFFERS(s)
#define SAVED(s) (s)->saved, KULLNEYRA_SAVED((s)->n, (s)->workers)

static uint32_t header(struct input *s) {
    struct kullneyra_head a;
    return kullneyra_header_into(s->catalogue, s->catalogue_len, &a);
}
static uint32_t read_store(struct input *s) {
    struct kullneyra_store a;
    return kullneyra_read_into(s->catalogue, s->catalogue_len, GRAPH(s), s->sizes, s->n, s->starts, KULLNEYRA_STARTS,
                               &a);
}
static uint32_t references(struct input *s) {
    struct kullneyra_part a;
    return kullneyra_references_into(GRAPH(s), s->n - 1, &a);
}
static uint32_t mark(struct input *s) {
    struct kullneyra_marked a;
    return kullneyra_mark_into(RUN(s), &a);
}
static uint32_t mark_all(struct input *s) {
    struct kullneyra_marked a;
    return kullneyra_mark_all_into(SET(s), BUFFERS(s), &a);
}
static uint32_t saved_words(struct input *s) {
    uint64_t a;
    return kullneyra_saved_words_into(s->n, s->workers, &a);
}
static uint32_t begin(struct input *s) {
    struct kullneyra_stopped a;
    return kullneyra_begin_into(RUN(s), SAVED(s), &a);
}
static uint32_t resume(struct input *s) {
    struct kullneyra_stopped a;
    return kullneyra_resume_into(RUN(s), SAVED(s), &a);
}
static uint32_t sweep(struct input *s) {
    struct kullneyra_swept a;
    return kullneyra_sweep_into(s->marks, s->n, s->sizes, s->n, s->hops, s->n, &a);
}
static uint32_t schedule_length(struct input *s) {
    struct kullneyra_length a;
    return kullneyra_schedule_length_into(s->cards_len, dealt(s), &a);
}
static uint32_t deal(struct input *s) {
    return kullneyra_deal_into(s->cards, s->cards_len, dealt(s), s->schedule, s->schedule_len);
}
static uint32_t draw(struct input *s) {
    struct kullneyra_seed seed = {s->n, 0};
    struct kullneyra_drawn a;
    return kullneyra_draw_into(&seed, &a);
}
static uint32_t deal_seed(struct input *s) {
    struct kullneyra_seed seed = {s->n, 0};
    return kullneyra_deal_seed_into(&seed, s->cards_len, dealt(s), s->schedule, s->schedule_len);
}
static uint32_t hop_words(struct input *s) {
    uint64_t a;
    return kullneyra_hop_words_into(s->n, &a);
}
static uint32_t hops(struct input *s) {
    uint64_t a = 0;
    const uint32_t number = kullneyra_hop_words_into(s->n, &a);
    return number ? number : kullneyra_hops_into(GRAPH(s), s->starts, s->starts_len, s->hops, s->n, s->work, (size_t)a);
}
static uint32_t update_words(struct input *s) {
    uint64_t a;
    return kullneyra_update_words_into(s->n, &a);
}
/* A store without its last references, which are added. */
static uint32_t add(struct input *s) {
    const uint32_t left = s->m - (uint32_t)s->taken;
    for (uint32_t v = 0; v <= s->n; v++) {
        s->offsets[v] = s->offsets[v] < left ? s->offsets[v] : left;
    }
    memset(s->marks, 1, s->n);
    memset(s->numbers, 0, s->taken * sizeof *s->numbers);
    return kullneyra_add_into(s->offsets, (size_t)s->n + 1, s->targets, left, s->numbers, s->taken, s->numbers, s->taken,
                         s->new_offsets, (size_t)s->n + 1, s->new_targets, s->m, s->marks, s->n, s->work, s->n);
}
/* The numbers are all different. */
static uint32_t take_out(struct input *s) {
    return kullneyra_remove_into(GRAPH(s), s->numbers, s->taken, s->starts, s->starts_len, s->new_offsets, (size_t)s->n + 1,
                            s->new_targets, s->m - s->taken, s->marks, s->n, s->work, s->n);
}
static uint32_t market_header(struct input *s) {
    struct kullneyra_head a;
    return kullneyra_market_header_into(s->text, s->text_len, &a);
}
static uint32_t import(struct input *s) {
    struct kullneyra_head a;
    return kullneyra_import_into(s->text, s->text_len, GRAPH(s), s->sizes, s->n, &a);
}
static uint32_t export_length(struct input *s) {
    uint64_t a;
    return kullneyra_export_length_into(GRAPH(s), &a);
}
static uint32_t scan_length(struct input *s) {
    uint64_t a;
    return kullneyra_scan_length_into(NAMED(s), &a);
}
static uint32_t scan(struct input *s) { return kullneyra_scan_into(NAMED(s), s->from, s->mentions, s->to, s->mentions); }
static uint32_t export(struct input *s) { return kullneyra_export_into(GRAPH(s), s->out, s->text_len); }

/* The names are those of the header, by which tests/runtime/run finds one that is not here. */
static const struct {
    const char *name;
    uint32_t (*run)(struct input *);
} calls[] = {
    {"header", header}, {"read", read_store}, {"references", references}, {"mark", mark}, {"mark_all", mark_all},
    {"saved_words", saved_words}, {"begin", begin}, {"resume", resume}, {"sweep", sweep}, {"schedule_length", schedule_length}, {"deal", deal},
    {"draw", draw}, {"deal_seed", deal_seed}, {"hop_words", hop_words}, {"hops", hops}, {"update_words", update_words},
    {"add", add}, {"remove", take_out}, {"market_header", market_header}, {"import", import},
    {"export_length", export_length}, {"export", export}, {"scan_length", scan_length}, {"scan", scan},
};

struct job {
    uint32_t (*run)(struct input *);
    struct input *input;
    const uint8_t *stack;
    uint32_t number;
    size_t bytes;
};

/* The call, and how far below this frame it has written. */
static void *on_thread(void *given) {
    struct job *job = given;
    volatile uint8_t here = 0;
    job->number = job->run(job->input);
    const uint8_t *clean = job->stack;
    while (*clean == PAINT) {
        clean++;
    }
    job->bytes = (size_t)((uintptr_t)&here - (uintptr_t)clean);
    return NULL;
}

/* Runs one call on such a thread; 0 where it is well. */
static int check(const char *name, uint32_t (*run)(struct input *), struct input *input, size_t limit) {
    const size_t page = (size_t)sysconf(_SC_PAGESIZE);
    uint8_t *guard = (uint8_t *)mmap(NULL, page + STACK, PROT_READ | PROT_WRITE, MAP_PRIVATE | MAP_ANONYMOUS, -1, 0);
    if (guard == MAP_FAILED || mprotect(guard, page, PROT_NONE) != 0) {
        puts("stack: no memory for a stack");
        return 1;
    }
    memset(guard + page, PAINT, STACK);
    struct job job = {run, input, guard + page, 0, 0};
    pthread_attr_t attributes;
    pthread_t thread;
    pthread_attr_init(&attributes);
    if (pthread_attr_setstack(&attributes, guard + page, STACK) != 0 ||
        pthread_create(&thread, &attributes, on_thread, &job) != 0) {
        puts("stack: no thread");
        return 1;
    }
    pthread_join(thread, NULL);
    printf("stack %s, %s: %zu bytes\n", name, input->name, job.bytes);
    if (job.number != KULLNEYRA_OK) {
        printf("stack %s, %s: refused with %u\n", name, input->name, (unsigned)job.number);
        return 1;
    }
    if (limit < job.bytes) {
        printf("stack %s, %s: more than %zu bytes\n", name, input->name, limit);
        return 1;
    }
    return 0;
}

int main(int count, char **arguments) {
    const size_t limit = count > 1 ? (size_t)strtoul(arguments[1], NULL, 10) : LIMIT;
    struct input *inputs[] = {&small, &large};
    int failed = 0;
    for (size_t k = 0; k < sizeof inputs / sizeof inputs[0]; k++) {
        struct input *s = inputs[k];
        fill(s);
        /* what resume takes up is begun here, on a large stack */
        if (begin(s) != KULLNEYRA_OK) {
            puts("stack: nothing is begun");
            return 1;
        }
        for (size_t i = 0; i < sizeof calls / sizeof calls[0]; i++) {
            fflush(stdout);
            const pid_t child = fork();
            if (child == 0) {
                const int result = check(calls[i].name, calls[i].run, s, limit);
                fflush(stdout);
                _exit(result);
            }
            int status = 0;
            if (child < 0 || waitpid(child, &status, 0) < 0) {
                puts("stack: no process");
                return 1;
            }
            if (WIFSIGNALED(status)) {
                printf("stack %s, %s: ended by signal %d on %d bytes of stack\n", calls[i].name, s->name, WTERMSIG(status),
                       STACK);
            }
            failed |= status != 0;
        }
    }
    return failed;
}
