/* An example of calling the library: reads one card, from the file that is named or else from standard input, and writes on standard output
 * what the program `build` writes. On standard error it says in words what a fitter should make of it.
 *
 *   cc -std=c99 -I include example/build.c target/lib/libbelfrymist.a -o example-build
 *   ./example-build samples/s1.card
 */
#include <stdio.h>

#include "belfrymist.h"

enum { BUDGET = 1000000 };

/* What each refusal of admitting and building says, by its number, and what its place counts. */
static const struct {
    const char *says;
    const char *counts;
} REFUSALS[] = {
    [BELFRYMIST_REFUSED_SHORT] = {"the card has fewer than 512 bytes", NULL},
    [BELFRYMIST_REFUSED_CHECK] = {"a check byte of a block differs", "block"},
    [BELFRYMIST_REFUSED_INDEX] = {"a block's index is not its own", "block"},
    [BELFRYMIST_REFUSED_FORM] = {"the form is not 1", NULL},
    [BELFRYMIST_REFUSED_KIND] = {"the kind is neither pair nor span, or not taken here", NULL},
    [BELFRYMIST_REFUSED_WORD_LENGTH] = {"words have fewer than 2 or more than 12 letters", NULL},
    [BELFRYMIST_REFUSED_COUNT] = {"there are fewer than 1 or more than 504 entries", NULL},
    [BELFRYMIST_REFUSED_SPARE] = {"a byte that must be zero is not", "block"},
    [BELFRYMIST_REFUSED_SIZE] = {"the card is cut short, or something follows it", NULL},
    [BELFRYMIST_REFUSED_WORD] = {"a word has more letters than the card's words", "entry"},
    [BELFRYMIST_REFUSED_PLACES] = {"places out of order, beyond the card, or over 8 wide", "entry"},
    [BELFRYMIST_REFUSED_ROOM] = {"an output is too short", NULL},
};

static int refused(size_t number, size_t place)
{
    printf("refused %zu %zu\n", number, place);
    fprintf(stderr, "refused: %s", REFUSALS[number].says);
    if (REFUSALS[number].counts != NULL)
        fprintf(stderr, ", %s %zu, counted from 0", REFUSALS[number].counts, place);
    fprintf(stderr, "\n");
    return 0;
}

static int built(const belfrymist_build_answer *answer, const uint8_t *letters)
{
    int length = (int)answer->length;
    switch (answer->verdict) {
    case BELFRYMIST_SOLE:
        printf("sole %.*s %zu\n", length, (const char *)letters, answer->placements);
        fprintf(stderr, "this sequence fits, and no other\n");
        return 0;
    case BELFRYMIST_SEVERAL:
        printf("several %.*s %zu\n", length, (const char *)letters, answer->placements);
        fprintf(stderr, "this is the alphabetically first of two sequences or more that fit: do not use it as the answer\n");
        return 0;
    case BELFRYMIST_NONE:
        printf("none %zu\n", answer->placements);
        fprintf(stderr, "no sequence fits\n");
        return 0;
    case BELFRYMIST_UNSETTLED:
        printf("unsettled %zu\n", answer->placements);
        fprintf(stderr, "the budget ran out: whether a sequence fits is not known; where no span is over 4 wide, belfrymist_settle tells\n");
        return 0;
    default:
        fprintf(stderr, "no verdict has this number: %zu\n", answer->verdict);
        return 1;
    }
}

/* Of a longer input one byte more than the largest card is enough: no card has that size, so that the answer is the same. */
static uint8_t card[BELFRYMIST_MOST_CARD + 1];
static uint8_t letters[BELFRYMIST_MOST_SEQUENCE];

/* Says of the first `length` bytes of the card what `build` says. */
static int told(size_t length)
{
    belfrymist_build_answer answer;
    belfrymist_admit_answer admitted = belfrymist_admit(card, length);
    if (admitted.number != 0)
        return refused(admitted.number, admitted.place);
    printf("CARD %s %zu %zu\n", admitted.kind == BELFRYMIST_PAIR ? "pair" : "span", admitted.l, admitted.m);

    /* With room for the longest sequence, an admitted card is not refused. */
    answer = belfrymist_build(card, length, BUDGET, letters, sizeof letters);
    if (answer.number != 0)
        return refused(answer.number, answer.place);
    return built(&answer, letters);
}

static int failed(const char *what)
{
    perror(what);
    return 2;
}

int main(int count, char **words)
{
    FILE *file = count == 2 ? fopen(words[1], "rb") : stdin;
    size_t length;
    int status;

    if (count > 2) {
        fprintf(stderr, "usage: example-build [CARD]\n");
        return 2;
    }
    if (file == NULL)
        return failed(words[1]);
    length = fread(card, 1, sizeof card, file);
    if (ferror(file))
        return failed("the card");
    status = told(length);
    return fflush(stdout) != 0 ? failed("standard output") : status;
}
