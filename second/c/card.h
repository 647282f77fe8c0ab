/* Reading and writing cards in plain C, to be timed beside the library. */

#ifndef PLAIN_CARD_H
#define PLAIN_CARD_H

#include <stddef.h>
#include <stdint.h>

/* The numbers of the refusals, and 0 where nothing is refused. */
enum {
    HOLDS = 0,
    SHORT = 1,
    CHECK = 2,
    INDEX = 3,
    FORM = 4,
    KIND = 5,
    WORD_LENGTH = 6,
    COUNT = 7,
    SPARE = 8,
    SIZE = 9,
    WORD = 10,
    PLACES = 11,
    ROOM = 12,
    LISTS = 13,
    ABSENT = 14
};

/* The answers, each laid out as the library's own. On refusal every field but
 * number and place is 0. */
struct held {
    size_t number, place;
};

struct admitted {
    size_t number, place, kind, l, m;
};

struct written {
    size_t number, place, length;
};

/* Says whether block k is there and its check and index hold: 14, 2, 3. */
struct held c_companion(const uint8_t *card, size_t length, size_t k);

/* Tests all of the card in the order on reading. */
struct admitted c_admit(const uint8_t *card, size_t length);

/* Writes the card whose entries stand in three lists: 5, 6, 13, 7, the entries
 * in turn, 12. A refusal changes no byte, and later bytes are never changed. */
struct written c_write(size_t kind, size_t l, const uint32_t *words,
                       size_t words_length, const uint16_t *ones,
                       size_t ones_length, const uint16_t *twos,
                       size_t twos_length, uint8_t *restrict out, size_t room);

#endif
