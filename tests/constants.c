/* constants: uses each constant of include/belfrymist.h, but for the stacks, at its edge and through the calls. What else is expected is stated here
 * in plain numbers, from the scope document and requests 1, 2 and 11, so that it shows where a constant says another number than the library means.
 * tests/constants changes the constants one at a time and looks that it does show. */
#include <stdio.h>
#include <string.h>

#include "belfrymist.h"

enum { PAIRS = 1, SPANS = 2, MANY = 1024, LONG = 16384 };

static uint8_t card[LONG], text[LONG], out[LONG];
static uint32_t words[MANY];
static uint16_t ones[MANY], twos[MANY];
static int asked, wrong;

static void want(int line, int holds)
{
    asked++;
    if (!holds) {
        wrong++;
        fprintf(stderr, "constants.c:%d: not so\n", line);
    }
}
#define WANT(holds) want(__LINE__, (holds) ? 1 : 0)

/* Stores the two check bytes of a block. */
static void seal(uint8_t *block)
{
    unsigned a = 0, b = 0, i;
    for (i = 0; i < 510; i++) {
        a = (a + block[i]) % 255;
        b = (b + a) % 255;
    }
    block[510] = (uint8_t)a;
    block[511] = (uint8_t)b;
}

static belfrymist_write_answer written(size_t kind, size_t l, size_t m, size_t room)
{
    return belfrymist_write(kind, l, words, m, ones, m, twos, m, card, room);
}

/* Lists of m entries: all words are A, A, ..., and entry e stands at place e alone. */
static void lay_out(size_t kind, size_t m)
{
    size_t e;
    for (e = 0; e < m; e++) {
        words[e] = 0;
        ones[e] = (uint16_t)e;
        twos[e] = (uint16_t)(kind == PAIRS ? 65535 : e);
    }
}

/* Writes the card of such lists. */
static belfrymist_write_answer straight(size_t kind, size_t l, size_t m)
{
    lay_out(kind, m);
    return written(kind, l, m, sizeof card);
}

/* What block 0 with these fields is refused by. It is a card without its entries, so that 9 says that its fields passed. */
static size_t head(size_t form, size_t kind, size_t l, size_t spare, size_t m)
{
    memset(card, 0, 512);
    card[0] = (uint8_t)form;
    card[1] = (uint8_t)kind;
    card[2] = (uint8_t)l;
    card[3] = (uint8_t)spare;
    card[4] = (uint8_t)(m % 256);
    card[5] = (uint8_t)(m / 256);
    seal(card);
    return belfrymist_admit(card, 512).number;
}

/* What a card of 20 entries is refused by, of which entry 0 has place one 0 and this place two: when it is read, and the same when it is written. */
static size_t places(size_t kind, size_t two)
{
    size_t by_reader;
    WANT(straight(kind, 2, 20).length == 1024);
    card[512 + 6] = (uint8_t)(two % 256);
    card[512 + 7] = (uint8_t)(two / 256);
    seal(card + 512);
    by_reader = belfrymist_admit(card, 1024).number;
    twos[0] = (uint16_t)two;
    WANT(written(kind, 2, 20, sizeof card).number == by_reader);
    return by_reader;
}

/* What settling 20 entries is refused by, of which entry 0 has a span so wide. */
static size_t settling(size_t width)
{
    lay_out(SPANS, 20);
    twos[0] = (uint16_t)(width - 1);
    return belfrymist_settle_lists(SPANS, 2, words, 20, ones, 20, twos, 20, out, sizeof out).number;
}

static void blocks(void)
{
    WANT(straight(SPANS, 2, 1).length == 1024);
    WANT(belfrymist_admit(card, BELFRYMIST_BLOCK - 1).number == 1);
    WANT(belfrymist_admit(card, BELFRYMIST_BLOCK).number == 9);
    WANT(belfrymist_fetch(card, 1024, 1).at == BELFRYMIST_BLOCK);
    WANT(belfrymist_fetch(card, 1024, 1).length == BELFRYMIST_BLOCK);
    WANT(straight(SPANS, 2, BELFRYMIST_ENTRIES_IN_A_BLOCK).length == 1024);
    WANT(straight(SPANS, 2, BELFRYMIST_ENTRIES_IN_A_BLOCK + 1).length == 1536);
}

static void limits(void)
{
    WANT(head(1, SPANS, 2, 0, BELFRYMIST_MOST_ENTRIES) == 9);
    WANT(head(1, SPANS, 2, 0, BELFRYMIST_MOST_ENTRIES + 1) == 7);
    WANT(straight(SPANS, 2, BELFRYMIST_MOST_ENTRIES).number == 0);
    WANT(straight(SPANS, 2, BELFRYMIST_MOST_ENTRIES + 1).number == 7);
    WANT(head(1, SPANS, BELFRYMIST_LEAST_LETTERS, 0, 1) == 9);
    WANT(head(1, SPANS, BELFRYMIST_LEAST_LETTERS - 1, 0, 1) == 6);
    WANT(straight(SPANS, BELFRYMIST_LEAST_LETTERS, 1).number == 0);
    WANT(straight(SPANS, BELFRYMIST_LEAST_LETTERS - 1, 1).number == 6);
    WANT(head(1, SPANS, BELFRYMIST_MOST_LETTERS, 0, 1) == 9);
    WANT(head(1, SPANS, BELFRYMIST_MOST_LETTERS + 1, 0, 1) == 6);
    WANT(straight(SPANS, BELFRYMIST_MOST_LETTERS, 1).number == 0);
    WANT(straight(SPANS, BELFRYMIST_MOST_LETTERS + 1, 1).number == 6);
    WANT(places(SPANS, BELFRYMIST_MOST_WIDTH - 1) == 0);
    WANT(places(SPANS, BELFRYMIST_MOST_WIDTH) == 11);
    WANT(settling(BELFRYMIST_MOST_NARROW) == 0);
    WANT(settling(BELFRYMIST_MOST_NARROW + 1) == 30);
    WANT(places(PAIRS, BELFRYMIST_NO_SECOND_PLACE) == 0);
    WANT(places(PAIRS, BELFRYMIST_NO_SECOND_PLACE - 1) == 11);
}

/* The largest card, and the longest sequence, which is its build. */
static void largest_card(void)
{
    lay_out(SPANS, 504);
    WANT(written(SPANS, 12, 504, BELFRYMIST_MOST_CARD - 1).number == 12);
    WANT(written(SPANS, 12, 504, BELFRYMIST_MOST_CARD).number == 0);
    WANT(belfrymist_admit(card, BELFRYMIST_MOST_CARD).m == 504);
    WANT(belfrymist_build(card, 4608, 504, out, BELFRYMIST_MOST_SEQUENCE - 1).number == 12);
    WANT(belfrymist_build(card, 4608, 504, out, BELFRYMIST_MOST_SEQUENCE).length == BELFRYMIST_MOST_SEQUENCE);
}

/* Imports the first bytes of 505 lines that are each as long as a line of a list can be: a word of 12 letters and two numbers of five digits. */
static belfrymist_write_answer import_long(size_t length)
{
    static const char line[] = "AAAAAAAAAAAA\t65534,65535\n";
    size_t i;
    for (i = 0; i < 505 * 25; i++)
        text[i] = (uint8_t)line[i % 25];
    return belfrymist_import(text, length, out, sizeof out);
}

/* The longest list whose lines are sound and not too many: it is refused by the places of its entry 0. A byte more or less is 23 for the last line,
 * and a line more is 7. And the longest list of a card, 504 lines of 21 bytes. */
static void longest_list(void)
{
    size_t e;
    WANT(import_long(BELFRYMIST_MOST_LIST).number == 11);
    WANT(import_long(BELFRYMIST_MOST_LIST - 1).place == 504);
    WANT(import_long(BELFRYMIST_MOST_LIST + 1).place == 505);
    WANT(import_long(BELFRYMIST_MOST_LIST + 25).number == 7);
    for (e = 0; e < 504; e++) {
        ones[e] = 99;
        twos[e] = 503;
    }
    WANT(written(PAIRS, 12, 504, sizeof card).length == 4608);
    WANT(belfrymist_export(card, 4608, out, BELFRYMIST_MOST_LIST).length == 504 * 21);
}

/* The record of a name of so many bytes and of so many letters, all of them A. */
static belfrymist_write_answer record(size_t name, size_t letters, size_t room)
{
    memset(text, 'A', sizeof text);
    return belfrymist_write_fasta(text, name, text, letters, out, room);
}

static void records(void)
{
    static uint8_t name[MANY], letters[MANY];
    WANT(record(BELFRYMIST_MOST_NAME + 1, 1, sizeof out).number == 20);
    WANT(record(BELFRYMIST_MOST_NAME, 1, sizeof out).length == 1 + BELFRYMIST_MOST_NAME + 1 + 2);
    WANT(belfrymist_read_fasta(out, 44, name, BELFRYMIST_MOST_NAME - 1, letters, sizeof letters).number == 12);
    WANT(belfrymist_read_fasta(out, 44, name, BELFRYMIST_MOST_NAME, letters, sizeof letters).name == BELFRYMIST_MOST_NAME);
    /* A full line, and a letter on a second one. */
    WANT(record(1, BELFRYMIST_LINE_LETTERS, sizeof out).length == 3 + BELFRYMIST_LINE_LETTERS + 1);
    WANT(record(1, BELFRYMIST_LINE_LETTERS + 1, sizeof out).length == 3 + BELFRYMIST_LINE_LETTERS + 1 + 2);
    WANT(out[3 + BELFRYMIST_LINE_LETTERS] == '\n');
    WANT(record(40, 515, BELFRYMIST_MOST_RECORD - 1).number == 12);
    WANT(record(40, 515, BELFRYMIST_MOST_RECORD).length == BELFRYMIST_MOST_RECORD);
}

static void kinds_and_shapes(void)
{
    lay_out(PAIRS, 1);
    WANT(written(BELFRYMIST_PAIR, 2, 1, sizeof card).number == 0);
    lay_out(SPANS, 1);
    WANT(written(BELFRYMIST_SPAN, 2, 1, sizeof card).number == 0);
    WANT(places(PAIRS, 1) == 0);
    WANT(belfrymist_admit(card, 1024).kind == BELFRYMIST_PAIR);
    WANT(belfrymist_entry(card, 1024, 0).shape == BELFRYMIST_TWO_PLACES);
    WANT(belfrymist_entry(card, 1024, 1).shape == BELFRYMIST_ONE_PLACE);
    WANT(belfrymist_entry(card, 1024, 20).shape == BELFRYMIST_NO_ENTRY);
    WANT(places(SPANS, 1) == 0);
    WANT(belfrymist_admit(card, 1024).kind == BELFRYMIST_SPAN);
    WANT(belfrymist_entry(card, 1024, 0).shape == BELFRYMIST_A_SPAN);
    WANT(belfrymist_step(card, 1024, 20).shape == BELFRYMIST_NO_ENTRY);
}

/* The verdict on the span card of the first m entries. */
static size_t verdict(size_t m, uint32_t budget, size_t room)
{
    WANT(written(SPANS, 2, m, sizeof card).length == 1024);
    return belfrymist_build(card, 1024, budget, out, room).verdict;
}

static void verdicts(void)
{
    /* The table S1. */
    static const uint32_t s1_words[] = {1, 4, 2, 8};
    static const uint16_t s1_ones[] = {0, 1, 0, 1}, s1_twos[] = {2, 3, 2, 3};
    lay_out(SPANS, 2);
    WANT(verdict(2, 2, 3) == BELFRYMIST_SOLE);
    WANT(verdict(2, 2, 2) == BELFRYMIST_NO_VERDICT);
    ones[1] = twos[1] = 0;
    WANT(verdict(2, 2, 3) == BELFRYMIST_NONE);
    memcpy(words, s1_words, sizeof s1_words);
    memcpy(ones, s1_ones, sizeof s1_ones);
    memcpy(twos, s1_twos, sizeof s1_twos);
    WANT(verdict(4, 8, 5) == BELFRYMIST_SEVERAL);
    WANT(verdict(4, 7, 5) == BELFRYMIST_UNSETTLED);
}

static void refusals_of_cards(void)
{
    WANT(head(2, SPANS, 2, 0, 1) == BELFRYMIST_REFUSED_FORM);
    WANT(head(1, 3, 2, 0, 1) == BELFRYMIST_REFUSED_KIND);
    WANT(head(1, SPANS, 13, 0, 1) == BELFRYMIST_REFUSED_WORD_LENGTH);
    WANT(head(1, SPANS, 2, 0, 505) == BELFRYMIST_REFUSED_COUNT);
    WANT(head(1, SPANS, 2, 1, 1) == BELFRYMIST_REFUSED_SPARE);
    WANT(head(1, SPANS, 2, 0, 1) == BELFRYMIST_REFUSED_SIZE);
    WANT(places(SPANS, 20) == BELFRYMIST_REFUSED_PLACES);
    WANT(settling(5) == BELFRYMIST_REFUSED_WIDER);

    WANT(straight(SPANS, 2, 20).length == 1024);
    WANT(belfrymist_admit(card, 511).number == BELFRYMIST_REFUSED_SHORT);
    WANT(belfrymist_companion(card + 512, 512, 0).number == BELFRYMIST_REFUSED_INDEX);
    WANT(belfrymist_entry(card, 1024, 20).number == BELFRYMIST_REFUSED_ABSENT);
    WANT(written(SPANS, 2, 20, 1023).number == BELFRYMIST_REFUSED_ROOM);
    WANT(belfrymist_write(SPANS, 2, words, 20, ones, 20, twos, 19, card, sizeof card).number == BELFRYMIST_REFUSED_LISTS);
    words[0] = 16;
    WANT(written(SPANS, 2, 20, sizeof card).number == BELFRYMIST_REFUSED_WORD);
    card[0] ^= 1;
    WANT(belfrymist_admit(card, 1024).number == BELFRYMIST_REFUSED_CHECK);
}

static size_t import_refused(const char *list)
{
    return belfrymist_import((const uint8_t *)list, strlen(list), out, sizeof out).number;
}

static void refusals_of_texts(void)
{
    static const char two_lines[] = ">n\nA\nA\n";
    WANT(record(0, 1, sizeof out).number == BELFRYMIST_REFUSED_NAME);
    WANT(record(1, 0, sizeof out).number == BELFRYMIST_REFUSED_LETTER);
    WANT(belfrymist_read_fasta((const uint8_t *)two_lines, 7, out, 40, text, 60).number == BELFRYMIST_REFUSED_LINE);
    WANT(import_refused("") == BELFRYMIST_REFUSED_TEXT);
    WANT(import_refused("AC\t1,2\nCA\t1-2\n") == BELFRYMIST_REFUSED_MIXED);
    WANT(import_refused("AC\t1\nACA\t2\n") == BELFRYMIST_REFUSED_UNEVEN);
    WANT(import_refused("AC\t0\n") == BELFRYMIST_REFUSED_ZERO);
}

int main(void)
{
    blocks();
    limits();
    largest_card();
    longest_list();
    records();
    kinds_and_shapes();
    verdicts();
    refusals_of_cards();
    refusals_of_texts();
    printf("constants: %d asked, %d wrong\n", asked, wrong);
    return wrong != 0;
}
