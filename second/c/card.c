/* Reading and writing cards in plain C, to be timed beside the library.
 *
 * The sums of a block are plain ones, with one remainder each at its end. */

#include "card.h"

#include "numbers.h" /* which beside/build.rs writes */

#include <stdbool.h>
#include <string.h>

/* ---- numbers of more bytes than one, the lowest byte first */

static uint16_t two_bytes(const uint8_t *at)
{
    return (uint16_t)(at[0] | at[1] << 8);
}

static uint32_t four_bytes(const uint8_t *at)
{
    return two_bytes(at) | (uint32_t)two_bytes(at + 2) << 16;
}

static void put_two_bytes(uint8_t *at, uint16_t number)
{
    at[0] = (uint8_t)number;
    at[1] = (uint8_t)(number >> 8);
}

static void put_four_bytes(uint8_t *at, uint32_t number)
{
    put_two_bytes(at, (uint16_t)number);
    put_two_bytes(at + 2, (uint16_t)(number >> 16));
}

/* ---- a block */

/* The two check bytes of a block. */
struct sums {
    uint8_t a, b;
};

/* The largest b before its remainder is 255 times the sum of the numbers from
 * 1 to 510, which is 33,227,775, so that 32 bits hold both. The loop takes six
 * bytes a turn, 85 times: some processors slow down where a turn is very
 * short. */
static struct sums sums_of(const uint8_t *block)
{
    uint32_t a = 0, b = 0;
#pragma GCC unroll 6
    for (size_t i = 0; i < AT_A; i++) {
        a += block[i];
        b += a;
    }
    return (struct sums){(uint8_t)(a % MODULUS), (uint8_t)(b % MODULUS)};
}

/* What block k is refused by: 2 or 3. */
static size_t fault_of_block(const uint8_t *block, size_t k)
{
    struct sums sums = sums_of(block);
    if (sums.a != block[AT_A] || sums.b != block[AT_B])
        return CHECK;
    if (two_bytes(block + AT_INDEX) != k)
        return INDEX;
    return HOLDS;
}

/* Stores the index and the check of block k. */
static void seal(uint8_t *block, size_t k)
{
    put_two_bytes(block + AT_INDEX, (uint16_t)k);
    struct sums sums = sums_of(block);
    block[AT_A] = sums.a;
    block[AT_B] = sums.b;
}

struct held c_companion(const uint8_t *card, size_t length, size_t k)
{
    if (k >= length / BLOCK)
        return (struct held){ABSENT, 0};
    size_t fault = fault_of_block(card + k * BLOCK, k);
    return (struct held){fault, fault ? k : 0};
}

/* ---- kind, l and m, and the rules of an entry, for reading and for writing */

struct profile {
    size_t kind, l, m;
};

static bool is_kind(size_t kind)
{
    return kind == PAIR || kind == SPAN;
}

static bool is_word_length(size_t l)
{
    return FEWEST_LETTERS <= l && l <= MOST_LETTERS;
}

static bool is_count(size_t m)
{
    return FEWEST_ENTRIES <= m && m <= MOST_ENTRIES;
}

/* The bytes of a card of m entries. */
static size_t size_of(size_t m)
{
    return (1 + (m + ENTRIES_PER_BLOCK - 1) / ENTRIES_PER_BLOCK) * BLOCK;
}

/* The entries of block k, which is not block 0: where they begin among those
 * of the card, and their number. */
struct run {
    size_t first, count;
};

static struct run run_of(size_t m, size_t k)
{
    size_t first = (k - 1) * ENTRIES_PER_BLOCK;
    size_t left = m - first;
    return (struct run){first,
                        left < ENTRIES_PER_BLOCK ? left : ENTRIES_PER_BLOCK};
}

/* Says whether the places keep the rules of their kind. No card has so many
 * entries that NO_PLACE would be below m. */
static inline bool is_allowed(struct profile card, size_t one, size_t two)
{
    if (card.kind == SPAN)
        return one <= two && two < card.m && two - one < SPAN_WIDTH;
    /* No branch, since it is left to chance which entries have one place. */
    return (one < card.m) & ((two == NO_PLACE) | ((one < two) & (two < card.m)));
}

/* What an entry is refused by: 10 or 11. */
static inline size_t fault_of_entry(struct profile card, uint32_t word,
                                    size_t one, size_t two)
{
    if (word >> (2 * card.l))
        return WORD;
    return is_allowed(card, one, two) ? HOLDS : PLACES;
}

/* ---- reading */

/* Looks at every byte, which lets the compiler look at many at once. */
static bool is_zero(const uint8_t *bytes, size_t length)
{
    uint8_t any = 0;
    for (size_t i = 0; i < length; i++)
        any |= bytes[i];
    return any == 0;
}

/* What the fields of block 0 are refused by: 4, 5, 6, 7, 8. */
static size_t fault_of_head(const uint8_t *head, struct profile card)
{
    if (head[AT_FORM] != THE_FORM)
        return FORM;
    if (!is_kind(card.kind))
        return KIND;
    if (!is_word_length(card.l))
        return WORD_LENGTH;
    if (!is_count(card.m))
        return COUNT;
    if (head[AT_GAP] || !is_zero(head + AT_SPARE, AT_INDEX - AT_SPARE))
        return SPARE;
    return HOLDS;
}

/* What block k, which is not block 0, is refused by: 2, 3, its entries in
 * turn, 8. */
static struct held test_later_block(struct profile card, const uint8_t *block,
                                    size_t k)
{
    size_t fault = fault_of_block(block, k);
    if (fault)
        return (struct held){fault, k};
    struct run run = run_of(card.m, k);
    const uint8_t *slot = block;
    for (size_t i = 0; i < run.count; i++, slot += ENTRY) {
        fault = fault_of_entry(card, four_bytes(slot), two_bytes(slot + 4),
                               two_bytes(slot + 6));
        if (fault)
            return (struct held){fault, run.first + i};
    }
    if (!is_zero(slot, (size_t)(block + AT_INDEX - slot)))
        return (struct held){SPARE, k};
    return (struct held){HOLDS, 0};
}

struct admitted c_admit(const uint8_t *card, size_t length)
{
    if (length < BLOCK)
        return (struct admitted){.number = SHORT};
    struct profile profile = {card[AT_KIND], card[AT_LETTERS],
                              two_bytes(card + AT_COUNT)};
    size_t fault = fault_of_block(card, 0);
    if (!fault)
        fault = fault_of_head(card, profile);
    if (!fault && length != size_of(profile.m))
        fault = SIZE;
    if (fault)
        return (struct admitted){.number = fault};

    size_t blocks = length / BLOCK;
    for (size_t k = 1; k < blocks; k++) {
        struct held held = test_later_block(profile, card + k * BLOCK, k);
        if (held.number)
            return (struct admitted){.number = held.number, .place = held.place};
    }
    return (struct admitted){
        .kind = profile.kind, .l = profile.l, .m = profile.m};
}

/* ---- writing */

struct lists {
    const uint32_t *words;
    const uint16_t *ones, *twos;
};

/* What the entries in turn are refused by. */
static struct held test_entries(struct profile card, struct lists lists)
{
    for (size_t i = 0; i < card.m; i++) {
        size_t fault = fault_of_entry(card, lists.words[i], lists.ones[i],
                                      lists.twos[i]);
        if (fault)
            return (struct held){fault, i};
    }
    return (struct held){HOLDS, 0};
}

static void put_head(struct profile card, uint8_t *restrict block)
{
    memset(block, 0, BLOCK);
    block[AT_FORM] = THE_FORM;
    block[AT_KIND] = (uint8_t)card.kind;
    block[AT_LETTERS] = (uint8_t)card.l;
    put_two_bytes(block + AT_COUNT, (uint16_t)card.m);
    seal(block, 0);
}

static void put_later_block(struct profile card, struct lists lists,
                            uint8_t *restrict block, size_t k)
{
    struct run run = run_of(card.m, k);
    uint8_t *slot = block;
    for (size_t i = run.first; i < run.first + run.count; i++, slot += ENTRY) {
        put_four_bytes(slot, lists.words[i]);
        put_two_bytes(slot + 4, lists.ones[i]);
        put_two_bytes(slot + 6, lists.twos[i]);
    }
    memset(slot, 0, (size_t)(block + AT_INDEX - slot));
    seal(block, k);
}

struct written c_write(size_t kind, size_t l, const uint32_t *words,
                       size_t words_length, const uint16_t *ones,
                       size_t ones_length, const uint16_t *twos,
                       size_t twos_length, uint8_t *restrict out, size_t room)
{
    size_t m = words_length;
    if (!is_kind(kind))
        return (struct written){.number = KIND};
    if (!is_word_length(l))
        return (struct written){.number = WORD_LENGTH};
    if (ones_length != m || twos_length != m)
        return (struct written){.number = LISTS};
    if (!is_count(m))
        return (struct written){.number = COUNT};
    struct profile card = {kind, l, m};
    struct lists lists = {words, ones, twos};
    struct held held = test_entries(card, lists);
    if (held.number)
        return (struct written){.number = held.number, .place = held.place};
    size_t size = size_of(m);
    if (room < size)
        return (struct written){.number = ROOM};

    put_head(card, out);
    for (size_t k = 1; k < size / BLOCK; k++)
        put_later_block(card, lists, out + k * BLOCK, k);
    return (struct written){.length = size};
}
