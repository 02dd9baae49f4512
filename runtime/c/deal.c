/* The turns of cards, dealt by the library, as lines of a case, for tools/case.py.
 *
 *     deal BOXES                  a round for each card that stands in standard input
 *     deal BOXES A B ROUNDS       a round for each of so many cards drawn from the seed of the words A and B
 *
 * Every line is `turn BOX ASKED`. A refused call ends the program with the line `refusal NUMBER`. */
#include <ctype.h>
#include <stdbool.h>
#include <stdio.h>
#include <stdlib.h>

#include "kullneyra.h"

static _Noreturn void fail(const char *what) {
    fprintf(stderr, "deal: %s\n", what);
    exit(2);
}

/* Takes one more digit of a number in. */
static uint32_t digit(uint32_t number, int letter) {
    if (!isdigit(letter) || number > (UINT32_MAX - (uint32_t)(letter - '0')) / 10) {
        fail("not a number of 32 bits");
    }
    return 10 * number + (uint32_t)(letter - '0');
}

static uint32_t argument(const char *word) {
    uint32_t number = digit(0, (unsigned char)word[0]);
    for (word++; *word != '\0'; word++) {
        number = digit(number, (unsigned char)*word);
    }
    return number;
}

/* The next number of standard input; false behind the last. */
static bool next(uint32_t *number) {
    int letter = getchar();
    while (isspace(letter)) {
        letter = getchar();
    }
    if (letter == EOF) {
        return false;
    }
    for (*number = 0; letter != EOF && !isspace(letter); letter = getchar()) {
        *number = digit(*number, letter);
    }
    return true;
}

static void *lend(void *memory, size_t count, size_t size) {
    memory = count < SIZE_MAX / size ? realloc(memory, (count + 1) * size) : NULL;
    if (memory == NULL) {
        fail("no memory");
    }
    return memory;
}

/* Room for the turns of so many cards. Where there is no length, dealing is refused for the same reason. */
static uint8_t *schedule_for(size_t cards, uint32_t boxes, uint64_t *length) {
    struct kullneyra_length answer;
    (void)kullneyra_schedule_length_into(cards, boxes, &answer);
    *length = answer.bytes;
    return lend(NULL, *length, 1);
}

static void show(uint32_t number, const uint8_t *schedule, size_t length) {
    if (number != KULLNEYRA_OK) {
        printf("refusal %u\n", (unsigned)number);
        return;
    }
    for (size_t at = 0; at < length; at += 2) {
        printf("turn %u %u\n", (unsigned)schedule[at], (unsigned)schedule[at + 1]);
    }
}

static void deal_cards(uint32_t boxes) {
    uint32_t *cards = lend(NULL, 0, sizeof *cards), card;
    size_t count = 0, room = 0;
    while (next(&card)) {
        if (count == room) {
            room = 2 * room + 64;
            cards = lend(cards, room, sizeof *cards);
        }
        cards[count++] = card;
    }
    uint64_t length;
    uint8_t *schedule = schedule_for(count, boxes, &length);
    show(kullneyra_deal_into(cards, count, boxes, schedule, length), schedule, length);
}

static void deal_seed(uint32_t boxes, uint32_t first, uint32_t second, uint32_t rounds) {
    struct kullneyra_seed seed = {first, second};
    uint64_t length;
    uint8_t *schedule = schedule_for(rounds, boxes, &length);
    show(kullneyra_deal_seed_into(&seed, rounds, boxes, schedule, length), schedule, length);
}

int main(int count, char **word) {
    if (count == 2) {
        deal_cards(argument(word[1]));
    } else if (count == 5) {
        deal_seed(argument(word[1]), argument(word[2]), argument(word[3]), argument(word[4]));
    } else {
        fail("deal BOXES, or deal BOXES A B ROUNDS");
    }
    if (ferror(stdin)) {
        fail("the input is lost");
    }
    if (fflush(stdout) != 0 || ferror(stdout)) {
        fail("the output is lost");
    }
    return 0;
}
