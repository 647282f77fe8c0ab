/* header FOLDER: calls every function of include/belfrymist.h through it, on the cards S1, P1, P4, S5, one-wider and neighbours-span of FOLDER,
 * and looks at each answer and at every byte of each output. What is expected is stated here, from the scope document and requests 1, 2, 11 and
 * 12. */
#include <stdio.h>
#include <stdlib.h>
#include <string.h>

#include "belfrymist.h"

#define FIELDS(type, count) \
    typedef char type##_has_##count##_fields[sizeof(type) == (count) * sizeof(size_t) ? 1 : -1]
FIELDS(belfrymist_admit_answer, 5);
FIELDS(belfrymist_entry_answer, 6);
FIELDS(belfrymist_step_answer, 7);
FIELDS(belfrymist_held_answer, 2);
FIELDS(belfrymist_part_answer, 2);
FIELDS(belfrymist_write_answer, 3);
FIELDS(belfrymist_build_answer, 5);
FIELDS(belfrymist_count_answer, 4);
FIELDS(belfrymist_fasta_answer, 4);

enum { CARD = 1024, GUARD = 64, UNTOUCHED = 0xA5 };

static int asked, wrong;

static void want(int line, int holds)
{
    asked++;
    if (!holds) {
        wrong++;
        fprintf(stderr, "header.c:%d: not so\n", line);
    }
}
#define WANT(holds) want(__LINE__, (holds) ? 1 : 0)

/* The fields of an answer, in their order, are these numbers. */
#define ANSWERS(type, call, ...)                              \
    do {                                                      \
        type got = call;                                      \
        size_t expected[] = {__VA_ARGS__};                    \
        WANT(sizeof got == sizeof expected);                  \
        WANT(memcmp(&got, expected, sizeof got) == 0);        \
    } while (0)

static void read_card(const char *folder, const char *name, uint8_t *card)
{
    char path[4096];
    FILE *file;
    snprintf(path, sizeof path, "%s/%s.card", folder, name);
    file = fopen(path, "rb");
    if (file == NULL || fread(card, 1, CARD, file) != CARD || fgetc(file) != EOF) {
        fprintf(stderr, "header: %s is no card of %d bytes\n", path, CARD);
        exit(2);
    }
    fclose(file);
}

/* From byte `from` on, all bytes of an output and its guard are as they were. */
static int untouched(const uint8_t *out, size_t from, size_t size)
{
    while (from < size)
        if (out[from++] != UNTOUCHED)
            return 0;
    return 1;
}

static void reading(const uint8_t *s1)
{
    ANSWERS(belfrymist_admit_answer, belfrymist_admit(s1, CARD), 0, 0, BELFRYMIST_SPAN, 2, 4);
    ANSWERS(belfrymist_admit_answer, belfrymist_admit(s1, CARD - 1), BELFRYMIST_REFUSED_SIZE, 0, 0, 0, 0);
    ANSWERS(belfrymist_admit_answer, belfrymist_admit(s1, 511), BELFRYMIST_REFUSED_SHORT, 0, 0, 0, 0);
    ANSWERS(belfrymist_admit_answer, belfrymist_admit(NULL, 0), BELFRYMIST_REFUSED_SHORT, 0, 0, 0, 0);

    ANSWERS(belfrymist_entry_answer, belfrymist_entry(s1, CARD, 0), 0, 0, BELFRYMIST_A_SPAN, 1, 0, 2);
    ANSWERS(belfrymist_entry_answer, belfrymist_entry(s1, CARD, 3), 0, 0, BELFRYMIST_A_SPAN, 8, 1, 3);
    ANSWERS(belfrymist_entry_answer, belfrymist_entry(s1, CARD, 4), BELFRYMIST_REFUSED_ABSENT, 0, 0, 0, 0, 0);
    ANSWERS(belfrymist_entry_answer, belfrymist_entry(NULL, 0, 0), BELFRYMIST_REFUSED_SHORT, 0, 0, 0, 0, 0);

    ANSWERS(belfrymist_step_answer, belfrymist_step(s1, CARD, 2), 0, 0, BELFRYMIST_A_SPAN, 2, 0, 2, 3);
    ANSWERS(belfrymist_step_answer, belfrymist_step(s1, CARD, 4), 0, 0, BELFRYMIST_NO_ENTRY, 0, 0, 0, 0);
    ANSWERS(belfrymist_step_answer, belfrymist_step(s1, CARD, SIZE_MAX), 0, 0, BELFRYMIST_NO_ENTRY, 0, 0, 0, 0);
    ANSWERS(belfrymist_step_answer, belfrymist_step(NULL, 0, 0), BELFRYMIST_REFUSED_SHORT, 0, 0, 0, 0, 0, 0);
}

static void blocks(uint8_t *s1)
{
    ANSWERS(belfrymist_held_answer, belfrymist_companion(s1, CARD, 1), 0, 0);
    ANSWERS(belfrymist_held_answer, belfrymist_companion(s1, CARD, 2), BELFRYMIST_REFUSED_ABSENT, 0);
    ANSWERS(belfrymist_held_answer, belfrymist_companion(s1, CARD, SIZE_MAX), BELFRYMIST_REFUSED_ABSENT, 0);
    ANSWERS(belfrymist_held_answer, belfrymist_companion(NULL, 0, 0), BELFRYMIST_REFUSED_ABSENT, 0);
    ANSWERS(belfrymist_held_answer, belfrymist_companion(s1 + BELFRYMIST_BLOCK, BELFRYMIST_BLOCK, 0), BELFRYMIST_REFUSED_INDEX, 0);

    ANSWERS(belfrymist_part_answer, belfrymist_fetch(s1, CARD, 0), 0, BELFRYMIST_BLOCK);
    ANSWERS(belfrymist_part_answer, belfrymist_fetch(s1, CARD, 1), BELFRYMIST_BLOCK, BELFRYMIST_BLOCK);
    ANSWERS(belfrymist_part_answer, belfrymist_fetch(s1, CARD, 2), 0, 0);
    ANSWERS(belfrymist_part_answer, belfrymist_fetch(NULL, 0, 0), 0, 0);

    s1[BELFRYMIST_BLOCK] ^= 1;
    ANSWERS(belfrymist_held_answer, belfrymist_companion(s1, CARD, 1), BELFRYMIST_REFUSED_CHECK, 1);
    ANSWERS(belfrymist_part_answer, belfrymist_fetch(s1, CARD, 1), 0, 0);
    ANSWERS(belfrymist_admit_answer, belfrymist_admit(s1, CARD), BELFRYMIST_REFUSED_CHECK, 1, 0, 0, 0);
    s1[BELFRYMIST_BLOCK] ^= 1;
}

static void writing(const uint8_t *s1)
{
    static const uint32_t words[] = {1, 4, 2, 8};
    static const uint16_t ones[] = {0, 1, 0, 1}, twos[] = {2, 3, 2, 3}, wide[] = {2, 3, 2, 4};
    uint8_t out[CARD + GUARD];

    memset(out, UNTOUCHED, sizeof out);
    ANSWERS(belfrymist_write_answer, belfrymist_write(BELFRYMIST_SPAN, 2, words, 4, ones, 4, twos, 4, out, CARD - 1),
            BELFRYMIST_REFUSED_ROOM, 0, 0);
    ANSWERS(belfrymist_write_answer, belfrymist_write(BELFRYMIST_SPAN, 2, words, 4, ones, 4, twos, 4, NULL, 0),
            BELFRYMIST_REFUSED_ROOM, 0, 0);
    ANSWERS(belfrymist_write_answer, belfrymist_write(BELFRYMIST_SPAN, 2, words, 4, ones, 4, wide, 4, out, CARD),
            BELFRYMIST_REFUSED_PLACES, 3, 0);
    ANSWERS(belfrymist_write_answer, belfrymist_write(BELFRYMIST_SPAN, 2, words, 4, ones, 4, twos, 3, out, CARD),
            BELFRYMIST_REFUSED_LISTS, 0, 0);
    ANSWERS(belfrymist_write_answer, belfrymist_write(BELFRYMIST_SPAN, 2, NULL, 0, NULL, 0, NULL, 0, out, CARD),
            BELFRYMIST_REFUSED_COUNT, 0, 0);
    ANSWERS(belfrymist_write_answer, belfrymist_write(3, 2, words, 4, ones, 4, twos, 4, out, CARD), BELFRYMIST_REFUSED_KIND, 0, 0);
    WANT(untouched(out, 0, sizeof out));
    ANSWERS(belfrymist_write_answer, belfrymist_write(BELFRYMIST_SPAN, 2, words, 4, ones, 4, twos, 4, out, CARD), 0, 0, CARD);
    WANT(memcmp(out, s1, CARD) == 0);
    WANT(untouched(out, CARD, sizeof out));
}

static void building(const uint8_t *s1, const uint8_t *p1, const uint8_t *s5)
{
    uint8_t out[5 + GUARD];

    memset(out, UNTOUCHED, sizeof out);
    ANSWERS(belfrymist_build_answer, belfrymist_build(s1, CARD, 7, out, 5), 0, 0, BELFRYMIST_UNSETTLED, 0, 7);
    ANSWERS(belfrymist_build_answer, belfrymist_build(s1, CARD, 8, out, 4), BELFRYMIST_REFUSED_ROOM, 0, 0, 0, 0);
    ANSWERS(belfrymist_build_answer, belfrymist_build(s1, CARD, 8, NULL, 0), BELFRYMIST_REFUSED_ROOM, 0, 0, 0, 0);
    ANSWERS(belfrymist_build_answer, belfrymist_build(s5, CARD, 0, out, 3), 0, 0, BELFRYMIST_NONE, 0, 0);
    ANSWERS(belfrymist_build_answer, belfrymist_build(s1, CARD - 1, 8, out, 5), BELFRYMIST_REFUSED_SIZE, 0, 0, 0, 0);
    ANSWERS(belfrymist_build_answer, belfrymist_build(NULL, 0, 8, NULL, 0), BELFRYMIST_REFUSED_SHORT, 0, 0, 0, 0);
    WANT(untouched(out, 0, sizeof out));
    ANSWERS(belfrymist_build_answer, belfrymist_build(s1, CARD, 8, out, 5), 0, 0, BELFRYMIST_SEVERAL, 5, 8);
    WANT(memcmp(out, "ACAGA", 5) == 0 && untouched(out, 5, sizeof out));
    memset(out, UNTOUCHED, sizeof out);
    ANSWERS(belfrymist_build_answer, belfrymist_build(p1, CARD, 0, out, sizeof out), 0, 0, BELFRYMIST_SEVERAL, 5, 0);
    WANT(memcmp(out, "ACAGA", 5) == 0 && untouched(out, 5, sizeof out));
}

static void settling(const uint8_t *s1, const uint8_t *p1, const uint8_t *s5, const uint8_t *wider)
{
    static const uint32_t words[] = {1, 4, 2, 8}, equal[] = {0, 0, 0, 0, 0}, letters[] = {0, 16};
    static const uint16_t ones[] = {0, 1, 0, 1}, twos[] = {2, 3, 2, 3}, beyond[] = {2, 3, 2, 4}, zeros[] = {0, 0, 0, 0, 0},
                          next[] = {1, 1}, fours[] = {4, 4, 3, 2, 1},
                          later_four[] = {0, 3, 4, 4, 1};
    uint8_t out[7 + GUARD];

    memset(out, UNTOUCHED, sizeof out);
    ANSWERS(belfrymist_build_answer, belfrymist_settle(s5, CARD, out, 3), 0, 0, BELFRYMIST_NONE, 0, 0);
    ANSWERS(belfrymist_build_answer, belfrymist_settle(s1, CARD, out, 4), BELFRYMIST_REFUSED_ROOM, 0, 0, 0, 0);
    ANSWERS(belfrymist_build_answer, belfrymist_settle(s1, CARD, NULL, 0), BELFRYMIST_REFUSED_ROOM, 0, 0, 0, 0);
    ANSWERS(belfrymist_build_answer, belfrymist_settle(s1, CARD - 1, out, 4), BELFRYMIST_REFUSED_SIZE, 0, 0, 0, 0);
    ANSWERS(belfrymist_build_answer, belfrymist_settle(NULL, 0, NULL, 0), BELFRYMIST_REFUSED_SHORT, 0, 0, 0, 0);
    /* 12 comes before 5 and before 30. */
    ANSWERS(belfrymist_build_answer, belfrymist_settle(p1, CARD, out, 5), BELFRYMIST_REFUSED_KIND, 0, 0, 0, 0);
    ANSWERS(belfrymist_build_answer, belfrymist_settle(p1, CARD, out, 4), BELFRYMIST_REFUSED_ROOM, 0, 0, 0, 0);
    ANSWERS(belfrymist_build_answer, belfrymist_settle(wider, CARD, out, 7), BELFRYMIST_REFUSED_WIDER, 3, 0, 0, 0);
    ANSWERS(belfrymist_build_answer, belfrymist_settle(wider, CARD, out, 6), BELFRYMIST_REFUSED_ROOM, 0, 0, 0, 0);

    ANSWERS(belfrymist_build_answer, belfrymist_settle_lists(BELFRYMIST_SPAN, 2, words, 4, ones, 4, twos, 4, out, 4), BELFRYMIST_REFUSED_ROOM,
            0, 0, 0, 0);
    ANSWERS(belfrymist_build_answer, belfrymist_settle_lists(BELFRYMIST_PAIR, 2, words, 4, ones, 4, twos, 4, out, 5), BELFRYMIST_REFUSED_KIND,
            0, 0, 0, 0);
    ANSWERS(belfrymist_build_answer, belfrymist_settle_lists(BELFRYMIST_PAIR, 2, words, 4, ones, 4, twos, 4, out, 4), BELFRYMIST_REFUSED_ROOM,
            0, 0, 0, 0);
    ANSWERS(belfrymist_build_answer, belfrymist_settle_lists(BELFRYMIST_SPAN, 2, equal, 5, zeros, 5, fours, 5, out, 6),
            BELFRYMIST_REFUSED_WIDER, 0, 0, 0, 0);
    ANSWERS(belfrymist_build_answer, belfrymist_settle_lists(BELFRYMIST_SPAN, 2, equal, 5, zeros, 5, later_four, 5, out, 6),
            BELFRYMIST_REFUSED_WIDER, 2, 0, 0, 0);
    ANSWERS(belfrymist_build_answer, belfrymist_settle_lists(BELFRYMIST_SPAN, 2, equal, 5, zeros, 5, fours, 5, out, 5),
            BELFRYMIST_REFUSED_ROOM, 0, 0, 0, 0);
    ANSWERS(belfrymist_build_answer, belfrymist_settle_lists(BELFRYMIST_SPAN, 2, words, 4, ones, 4, beyond, 4, out, 0),
            BELFRYMIST_REFUSED_PLACES, 3, 0, 0, 0);
    ANSWERS(belfrymist_build_answer, belfrymist_settle_lists(BELFRYMIST_SPAN, 2, letters, 2, zeros, 2, zeros, 2, out, 0),
            BELFRYMIST_REFUSED_WORD, 1, 0, 0, 0);
    ANSWERS(belfrymist_build_answer, belfrymist_settle_lists(3, 1, words, 4, ones, 4, twos, 3, NULL, 0), BELFRYMIST_REFUSED_KIND, 0, 0, 0, 0);
    ANSWERS(belfrymist_build_answer, belfrymist_settle_lists(BELFRYMIST_SPAN, 1, words, 4, ones, 4, twos, 3, NULL, 0),
            BELFRYMIST_REFUSED_WORD_LENGTH, 0, 0, 0, 0);
    ANSWERS(belfrymist_build_answer, belfrymist_settle_lists(BELFRYMIST_SPAN, 2, words, 4, ones, 4, twos, 3, NULL, 0), BELFRYMIST_REFUSED_LISTS,
            0, 0, 0, 0);
    ANSWERS(belfrymist_build_answer, belfrymist_settle_lists(BELFRYMIST_SPAN, 2, NULL, 0, NULL, 0, NULL, 0, NULL, 0), BELFRYMIST_REFUSED_COUNT,
            0, 0, 0, 0);
    /* AC and CA, both at 0 alone. */
    ANSWERS(belfrymist_build_answer, belfrymist_settle_lists(BELFRYMIST_SPAN, 2, words, 2, zeros, 2, zeros, 2, out, 3), 0, 0, BELFRYMIST_NONE,
            0, 0);
    WANT(untouched(out, 0, sizeof out));

    ANSWERS(belfrymist_build_answer, belfrymist_settle(s1, CARD, out, 5), 0, 0, BELFRYMIST_SEVERAL, 5, 0);
    WANT(memcmp(out, "ACAGA", 5) == 0 && untouched(out, 5, sizeof out));
    memset(out, UNTOUCHED, sizeof out);
    ANSWERS(belfrymist_build_answer, belfrymist_settle_lists(BELFRYMIST_SPAN, 2, words, 4, ones, 4, twos, 4, out, sizeof out), 0, 0,
            BELFRYMIST_SEVERAL, 5, 0);
    WANT(memcmp(out, "ACAGA", 5) == 0 && untouched(out, 5, sizeof out));
    /* AA twice, each at 0 or 1: two ways with one sequence. */
    memset(out, UNTOUCHED, sizeof out);
    ANSWERS(belfrymist_build_answer, belfrymist_settle_lists(BELFRYMIST_SPAN, 2, equal, 2, zeros, 2, next, 2, out, 3), 0, 0, BELFRYMIST_SOLE, 3,
            0);
    WANT(memcmp(out, "AAA", 3) == 0 && untouched(out, 3, sizeof out));
}

static void counting(const uint8_t *s1, const uint8_t *p1, const uint8_t *p4)
{
    static const uint32_t words[] = {1, 4, 2, 8}, equal[] = {0, 0};
    static const uint16_t ones[] = {0, 1, 0, 1}, twos[] = {2, 3, 2, 3}, wide[] = {2, 3, 2, 4}, zeros[] = {0, 0}, next[] = {1, 1};

    ANSWERS(belfrymist_count_answer, belfrymist_count(p1, CARD), 0, 0, 1, 1);
    ANSWERS(belfrymist_count_answer, belfrymist_count(p4, CARD), 0, 0, 0, 0);
    ANSWERS(belfrymist_count_answer, belfrymist_count(s1, CARD), BELFRYMIST_REFUSED_KIND, 0, 0, 0);
    ANSWERS(belfrymist_count_answer, belfrymist_count(s1, CARD - 1), BELFRYMIST_REFUSED_SIZE, 0, 0, 0);
    ANSWERS(belfrymist_count_answer, belfrymist_count(NULL, 0), BELFRYMIST_REFUSED_SHORT, 0, 0, 0);

    ANSWERS(belfrymist_count_answer, belfrymist_count_lists(BELFRYMIST_PAIR, 2, words, 4, ones, 4, twos, 4), 0, 0, 1, 1);
    /* AC and CA at 0 or 1 spell ACA and CAC; AA and AA spell AAA either way. */
    ANSWERS(belfrymist_count_answer, belfrymist_count_lists(BELFRYMIST_PAIR, 2, words, 2, zeros, 2, next, 2), 0, 0, 1, 1);
    ANSWERS(belfrymist_count_answer, belfrymist_count_lists(BELFRYMIST_PAIR, 2, equal, 2, zeros, 2, next, 2), 0, 0, 1, 0);
    ANSWERS(belfrymist_count_answer, belfrymist_count_lists(BELFRYMIST_SPAN, 2, words, 4, ones, 4, twos, 4), BELFRYMIST_REFUSED_KIND, 0, 0,
            0);
    ANSWERS(belfrymist_count_answer, belfrymist_count_lists(BELFRYMIST_SPAN, 2, words, 4, ones, 4, wide, 4), BELFRYMIST_REFUSED_PLACES, 3,
            0, 0);
    ANSWERS(belfrymist_count_answer, belfrymist_count_lists(3, 1, words, 4, ones, 4, twos, 3), BELFRYMIST_REFUSED_KIND, 0, 0, 0);
    ANSWERS(belfrymist_count_answer, belfrymist_count_lists(BELFRYMIST_PAIR, 2, words, 4, ones, 4, twos, 3), BELFRYMIST_REFUSED_LISTS, 0, 0,
            0);
    ANSWERS(belfrymist_count_answer, belfrymist_count_lists(BELFRYMIST_PAIR, 2, NULL, 0, NULL, 0, NULL, 0), BELFRYMIST_REFUSED_COUNT, 0, 0,
            0);
}

/* A text as bytes and their number, without the zero at its end. */
#define TEXT(text) (const uint8_t *)(text), sizeof(text) - 1

static void importing(const uint8_t *p1, const uint8_t *neighbours)
{
    static const uint32_t words[] = {0, 0};
    static const uint16_t ones[] = {0, 0}, twos[] = {1, BELFRYMIST_NO_SECOND_PLACE};
    uint8_t out[CARD + GUARD], written[CARD];

    memset(out, UNTOUCHED, sizeof out);
    ANSWERS(belfrymist_write_answer, belfrymist_import(NULL, 0, out, CARD), BELFRYMIST_REFUSED_TEXT, 1, 0);
    ANSWERS(belfrymist_write_answer, belfrymist_import(NULL, 0, NULL, 0), BELFRYMIST_REFUSED_TEXT, 1, 0);
    ANSWERS(belfrymist_write_answer, belfrymist_import(TEXT("AC\t1"), out, CARD), BELFRYMIST_REFUSED_TEXT, 1, 0);
    ANSWERS(belfrymist_write_answer, belfrymist_import(TEXT("AC\t1\r\n"), out, CARD), BELFRYMIST_REFUSED_TEXT, 1, 0);
    ANSWERS(belfrymist_write_answer, belfrymist_import(TEXT("AC\t1\nCA\t65536\n"), out, CARD), BELFRYMIST_REFUSED_TEXT, 2, 0);
    ANSWERS(belfrymist_write_answer, belfrymist_import(TEXT("AC\t1,2\nACA\t0-1\n"), out, CARD), BELFRYMIST_REFUSED_MIXED, 2, 0);
    ANSWERS(belfrymist_write_answer, belfrymist_import(TEXT("AC\t1,2\nACA\t0,1\n"), out, CARD), BELFRYMIST_REFUSED_UNEVEN, 2, 0);
    ANSWERS(belfrymist_write_answer, belfrymist_import(TEXT("AC\t1,2\nCA\t0,1\n"), out, CARD), BELFRYMIST_REFUSED_ZERO, 2, 0);
    /* The card's rules carry the card's places; 12 comes last. */
    ANSWERS(belfrymist_write_answer, belfrymist_import(TEXT("A\t0\n"), out, 0), BELFRYMIST_REFUSED_ZERO, 1, 0);
    ANSWERS(belfrymist_write_answer, belfrymist_import(TEXT("A\t9\n"), out, 0), BELFRYMIST_REFUSED_WORD_LENGTH, 0, 0);
    ANSWERS(belfrymist_write_answer, belfrymist_import(TEXT("AAAAAAAAAAAAA\t1\n"), out, CARD), BELFRYMIST_REFUSED_WORD_LENGTH, 0, 0);
    ANSWERS(belfrymist_write_answer, belfrymist_import(TEXT("AC\t1\nCA\t3\n"), NULL, 0), BELFRYMIST_REFUSED_PLACES, 1, 0);
    ANSWERS(belfrymist_write_answer, belfrymist_import(TEXT("AC\t65535\n"), out, CARD), BELFRYMIST_REFUSED_PLACES, 0, 0);
    ANSWERS(belfrymist_write_answer, belfrymist_import(TEXT("AC\t1\n"), out, CARD - 1), BELFRYMIST_REFUSED_ROOM, 0, 0);
    ANSWERS(belfrymist_write_answer, belfrymist_import(TEXT("AC\t1\n"), NULL, 0), BELFRYMIST_REFUSED_ROOM, 0, 0);
    WANT(untouched(out, 0, sizeof out));

    ANSWERS(belfrymist_write_answer, belfrymist_import(TEXT("AC\t1,3\nCA\t2,4\nAG\t1,3\nGA\t2,4\n"), out, CARD), 0, 0, CARD);
    WANT(memcmp(out, p1, CARD) == 0 && untouched(out, CARD, sizeof out));
    /* A number alone on a span list, and on a pair list. */
    memset(out, UNTOUCHED, sizeof out);
    ANSWERS(belfrymist_write_answer, belfrymist_import(TEXT("GAT\t1\nATT\t2-3\nTTA\t2-3\nTAC\t4-5\nACA\t4-5\n"), out, sizeof out), 0, 0, CARD);
    WANT(memcmp(out, neighbours, CARD) == 0 && untouched(out, CARD, sizeof out));
    ANSWERS(belfrymist_write_answer, belfrymist_write(BELFRYMIST_PAIR, 2, words, 2, ones, 2, twos, 2, written, CARD), 0, 0, CARD);
    ANSWERS(belfrymist_write_answer, belfrymist_import(TEXT("AA\t1,2\nAA\t1\n"), out, CARD), 0, 0, CARD);
    WANT(memcmp(out, written, CARD) == 0);
}

static void exporting(const uint8_t *p1, const uint8_t *neighbours)
{
    static const char of_p1[] = "AC\t1,3\nCA\t2,4\nAG\t1,3\nGA\t2,4\n";
    static const char of_neighbours[] = "GAT\t1-1\nATT\t2-3\nTTA\t2-3\nTAC\t4-5\nACA\t4-5\n";
    enum { P1 = sizeof of_p1 - 1, NEIGHBOURS = sizeof of_neighbours - 1 };
    uint8_t out[NEIGHBOURS + GUARD];

    memset(out, UNTOUCHED, sizeof out);
    ANSWERS(belfrymist_write_answer, belfrymist_export(NULL, 0, NULL, 0), BELFRYMIST_REFUSED_SHORT, 0, 0);
    ANSWERS(belfrymist_write_answer, belfrymist_export(p1, CARD - 1, out, 0), BELFRYMIST_REFUSED_SIZE, 0, 0);
    ANSWERS(belfrymist_write_answer, belfrymist_export(p1, CARD, out, P1 - 1), BELFRYMIST_REFUSED_ROOM, 0, 0);
    ANSWERS(belfrymist_write_answer, belfrymist_export(p1, CARD, NULL, 0), BELFRYMIST_REFUSED_ROOM, 0, 0);
    WANT(untouched(out, 0, sizeof out));
    ANSWERS(belfrymist_write_answer, belfrymist_export(p1, CARD, out, P1), 0, 0, P1);
    WANT(memcmp(out, of_p1, P1) == 0 && untouched(out, P1, sizeof out));
    memset(out, UNTOUCHED, sizeof out);
    ANSWERS(belfrymist_write_answer, belfrymist_export(neighbours, CARD, out, sizeof out), 0, 0, NEIGHBOURS);
    WANT(memcmp(out, of_neighbours, NEIGHBOURS) == 0 && untouched(out, NEIGHBOURS, sizeof out));
}

#define TEN "ACGTACGTAC"
#define SIXTY TEN TEN TEN TEN TEN TEN
#define FORTY "0123456789-abcdefghijklmnopqrstuvwxyz~!>"

static void writing_records(void)
{
    static const char named[] = ">" FORTY "\nGATTACA\n", sixty[] = ">n\n" SIXTY "\n", more[] = ">n\n" SIXTY "\nT\n";
    enum { NAMED = sizeof named - 1, SIXTY_LONG = sizeof sixty - 1, MORE = sizeof more - 1 };
    uint8_t out[NAMED + MORE + GUARD];

    memset(out, UNTOUCHED, sizeof out);
    ANSWERS(belfrymist_write_answer, belfrymist_write_fasta(NULL, 0, TEXT("GATTACA"), out, sizeof out), BELFRYMIST_REFUSED_NAME, 0, 0);
    ANSWERS(belfrymist_write_answer, belfrymist_write_fasta(NULL, 0, NULL, 0, NULL, 0), BELFRYMIST_REFUSED_NAME, 0, 0);
    ANSWERS(belfrymist_write_answer, belfrymist_write_fasta(TEXT(FORTY "a"), TEXT("GATTACA"), out, sizeof out), BELFRYMIST_REFUSED_NAME, 0, 0);
    ANSWERS(belfrymist_write_answer, belfrymist_write_fasta(TEXT("a b"), TEXT("gattaca"), out, 0), BELFRYMIST_REFUSED_NAME, 0, 0);
    ANSWERS(belfrymist_write_answer, belfrymist_write_fasta(TEXT("a\x7F"), TEXT("GATTACA"), out, sizeof out), BELFRYMIST_REFUSED_NAME, 0, 0);
    ANSWERS(belfrymist_write_answer, belfrymist_write_fasta(TEXT("a\n"), TEXT("GATTACA"), out, sizeof out), BELFRYMIST_REFUSED_NAME, 0, 0);
    ANSWERS(belfrymist_write_answer, belfrymist_write_fasta(TEXT("a\0"), TEXT("GATTACA"), out, sizeof out), BELFRYMIST_REFUSED_NAME, 0, 0);
    ANSWERS(belfrymist_write_answer, belfrymist_write_fasta(TEXT("a"), TEXT("gATTACA"), out, 0), BELFRYMIST_REFUSED_LETTER, 0, 0);
    ANSWERS(belfrymist_write_answer, belfrymist_write_fasta(TEXT("a"), TEXT(SIXTY "\nT"), out, sizeof out), BELFRYMIST_REFUSED_LETTER, 60, 0);
    ANSWERS(belfrymist_write_answer, belfrymist_write_fasta(TEXT("a"), TEXT("GATTACN"), NULL, 0), BELFRYMIST_REFUSED_LETTER, 6, 0);
    ANSWERS(belfrymist_write_answer, belfrymist_write_fasta(TEXT("a"), NULL, 0, out, sizeof out), BELFRYMIST_REFUSED_LETTER, 0, 0);
    ANSWERS(belfrymist_write_answer, belfrymist_write_fasta(TEXT("n"), TEXT(SIXTY "T"), out, MORE - 1), BELFRYMIST_REFUSED_ROOM, 0, 0);
    ANSWERS(belfrymist_write_answer, belfrymist_write_fasta(TEXT("n"), TEXT("T"), NULL, 0), BELFRYMIST_REFUSED_ROOM, 0, 0);
    WANT(untouched(out, 0, sizeof out));

    ANSWERS(belfrymist_write_answer, belfrymist_write_fasta(TEXT(FORTY), TEXT("GATTACA"), out, NAMED), 0, 0, NAMED);
    WANT(memcmp(out, named, NAMED) == 0 && untouched(out, NAMED, sizeof out));
    memset(out, UNTOUCHED, sizeof out);
    ANSWERS(belfrymist_write_answer, belfrymist_write_fasta(TEXT("n"), TEXT(SIXTY), out, SIXTY_LONG), 0, 0, SIXTY_LONG);
    WANT(memcmp(out, sixty, SIXTY_LONG) == 0 && untouched(out, SIXTY_LONG, sizeof out));
    memset(out, UNTOUCHED, sizeof out);
    ANSWERS(belfrymist_write_answer, belfrymist_write_fasta(TEXT("n"), TEXT(SIXTY "T"), out, sizeof out), 0, 0, MORE);
    WANT(memcmp(out, more, MORE) == 0 && untouched(out, MORE, sizeof out));
}

/* What reading a text answers, with outputs of so many bytes. */
#define READ(text, names, many) belfrymist_read_fasta(TEXT(text), name, names, letters, many)

static void reading_records(void)
{
    uint8_t name[BELFRYMIST_MOST_NAME + GUARD], letters[61 + GUARD];

    memset(name, UNTOUCHED, sizeof name);
    memset(letters, UNTOUCHED, sizeof letters);
    ANSWERS(belfrymist_fasta_answer, belfrymist_read_fasta(NULL, 0, NULL, 0, NULL, 0), BELFRYMIST_REFUSED_NAME, 0, 0, 0);
    ANSWERS(belfrymist_fasta_answer, READ("n\nGATTACA\n", 40, 61), BELFRYMIST_REFUSED_NAME, 0, 0, 0);
    ANSWERS(belfrymist_fasta_answer, READ(">\nGATTACA\n", 40, 61), BELFRYMIST_REFUSED_NAME, 0, 0, 0);
    ANSWERS(belfrymist_fasta_answer, READ(">n", 40, 61), BELFRYMIST_REFUSED_NAME, 0, 0, 0);
    ANSWERS(belfrymist_fasta_answer, READ(">n m\ngattaca\n", 0, 0), BELFRYMIST_REFUSED_NAME, 0, 0, 0);
    ANSWERS(belfrymist_fasta_answer, READ(">n\r\nGATTACA\r\n", 40, 61), BELFRYMIST_REFUSED_NAME, 0, 0, 0);
    ANSWERS(belfrymist_fasta_answer, READ(">" FORTY "a\nGATTACA\n", 40, 61), BELFRYMIST_REFUSED_NAME, 0, 0, 0);
    ANSWERS(belfrymist_fasta_answer, READ(">n\n", 40, 61), BELFRYMIST_REFUSED_LETTER, 0, 0, 0);
    ANSWERS(belfrymist_fasta_answer, READ(">n\n\n\n", 40, 61), BELFRYMIST_REFUSED_LETTER, 0, 0, 0);
    ANSWERS(belfrymist_fasta_answer, READ(">n\nGATTACa\n", 0, 0), BELFRYMIST_REFUSED_LETTER, 6, 0, 0);
    ANSWERS(belfrymist_fasta_answer, READ(">n\nGATTACA\r\n", 40, 61), BELFRYMIST_REFUSED_LETTER, 7, 0, 0);
    ANSWERS(belfrymist_fasta_answer, READ(">n\nGATTACA\n>m\nA\n", 40, 61), BELFRYMIST_REFUSED_LETTER, 7, 0, 0);
    /* 21 is asked of the whole record before 22. */
    ANSWERS(belfrymist_fasta_answer, READ(">n\nA\nCx\n", 40, 61), BELFRYMIST_REFUSED_LETTER, 2, 0, 0);
    ANSWERS(belfrymist_fasta_answer, READ(">n\nA\nC\n", 0, 0), BELFRYMIST_REFUSED_LINE, 0, 0, 0);
    ANSWERS(belfrymist_fasta_answer, READ(">n\n\nGATTACA\n", 40, 61), BELFRYMIST_REFUSED_LINE, 0, 0, 0);
    ANSWERS(belfrymist_fasta_answer, READ(">n\nGATTACA", 40, 61), BELFRYMIST_REFUSED_LINE, 0, 0, 0);
    ANSWERS(belfrymist_fasta_answer, READ(">n\n" SIXTY "T\n", 40, 61), BELFRYMIST_REFUSED_LINE, 0, 0, 0);
    ANSWERS(belfrymist_fasta_answer, READ(">n\n" SIXTY "\n\n", 40, 61), BELFRYMIST_REFUSED_LINE, 0, 0, 0);
    ANSWERS(belfrymist_fasta_answer, READ(">ab\nGATTACA\n", 1, 61), BELFRYMIST_REFUSED_ROOM, 0, 0, 0);
    ANSWERS(belfrymist_fasta_answer, READ(">ab\nGATTACA\n", 40, 6), BELFRYMIST_REFUSED_ROOM, 0, 0, 0);
    ANSWERS(belfrymist_fasta_answer, belfrymist_read_fasta(TEXT(">ab\nGATTACA\n"), NULL, 0, NULL, 0), BELFRYMIST_REFUSED_ROOM, 0, 0, 0);
    WANT(untouched(name, 0, sizeof name) && untouched(letters, 0, sizeof letters));

    ANSWERS(belfrymist_fasta_answer, READ(">ab\nGATTACA\n", 2, 7), 0, 0, 2, 7);
    WANT(memcmp(name, "ab", 2) == 0 && untouched(name, 2, sizeof name));
    WANT(memcmp(letters, "GATTACA", 7) == 0 && untouched(letters, 7, sizeof letters));
    memset(letters, UNTOUCHED, sizeof letters);
    ANSWERS(belfrymist_fasta_answer, READ(">" FORTY "\n" SIXTY "\nT\n", 40, 61), 0, 0, 40, 61);
    WANT(memcmp(name, FORTY, 40) == 0 && untouched(name, 40, sizeof name));
    WANT(memcmp(letters, SIXTY "T", 61) == 0 && untouched(letters, 61, sizeof letters));
    memset(letters, UNTOUCHED, sizeof letters);
    ANSWERS(belfrymist_fasta_answer, READ(">n\n" SIXTY "\n", sizeof name, sizeof letters), 0, 0, 1, 60);
    WANT(memcmp(name, "n", 1) == 0 && memcmp(letters, SIXTY, 60) == 0 && untouched(letters, 60, sizeof letters));
}

int main(int count, char **arguments)
{
    uint8_t s1[CARD], p1[CARD], p4[CARD], s5[CARD], wider[CARD], neighbours[CARD], s1_before[CARD];

    if (count != 2)
        return 2;
    read_card(arguments[1], "s1", s1);
    read_card(arguments[1], "p1", p1);
    read_card(arguments[1], "p4", p4);
    read_card(arguments[1], "s5", s5);
    read_card(arguments[1], "one-wider", wider);
    read_card(arguments[1], "neighbours-span", neighbours);
    memcpy(s1_before, s1, CARD);
    reading(s1);
    blocks(s1);
    writing(s1);
    building(s1, p1, s5);
    settling(s1, p1, s5, wider);
    counting(s1, p1, p4);
    importing(p1, neighbours);
    exporting(p1, neighbours);
    writing_records();
    reading_records();
    WANT(memcmp(s1, s1_before, CARD) == 0);
    printf("header: %d asked, %d wrong\n", asked, wrong);
    return wrong != 0;
}
