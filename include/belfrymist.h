/* Spectrum cards: admitting, reading and writing them, building the sequence, settling narrow cards, counting builds, and probe lists; and FASTA
 * records. For firmware, in C99 and in C++.
 *
 * Link libbelfrymist.a, by -lbelfrymist, on x86-64 alone. `make` writes it, and `make install` puts it below PREFIX, with a file for pkg-config in
 * PREFIX/lib/pkgconfig: where pkg-config does not look there, name that folder in PKG_CONFIG_PATH.
 *
 * Each function is proved to meet its contract, which stands over the function of the same name in crates/firmware/src/. Here the same is said in
 * words; where the two differ, the contract is right.
 *
 * WHAT COMES BACK. Every function answers for every input, and ends. An answer is a struct of numbers, returned by value. `number`, in
 * each struct that has one, is 0 where nothing is refused; otherwise it is one of the refusals below, `place` says where, and every other
 * field is 0. An answer that is no refusal has place 0. After a refusal no byte of any buffer differs.
 *
 * WHAT THE CALLER OWES. The proof takes this for granted, and no call can test it:
 *   - a pointer and the length after it are one run of elements that are all there. Lengths count elements, not bytes;
 *   - with length 0 nothing is read or written through the pointer. It may be null: tried on the compiled library, not proved;
 *   - a pointer is aligned for its elements: 4 for uint32_t, 2 for uint16_t, any for bytes;
 *   - an output may be written, has a value in each byte before the call, and overlaps nothing else that the call is lent;
 *   - during the call nothing else writes what the call is lent, and nothing else reads or writes an output;
 *   - there is stack: see BELFRYMIST_STACK.
 * What is no output is only read. Nothing is kept from call to call and no memory is asked for, so that calls may run side by side in
 * threads, each with its own outputs. From outside the library needs memcpy and memset at most.
 */
#ifndef BELFRYMIST_H
#define BELFRYMIST_H

#include <stddef.h>
#include <stdint.h>

#ifdef __cplusplus
extern "C" {
#endif

/* The numbers of a card. */
enum {
    BELFRYMIST_BLOCK = 512,             /* bytes of a block */
    BELFRYMIST_ENTRIES_IN_A_BLOCK = 63, /* a card has 1 + ceil(m / 63) blocks */
    BELFRYMIST_MOST_ENTRIES = 504,      /* m is from 1 to this */
    BELFRYMIST_LEAST_LETTERS = 2,       /* l, the letters of a word, is from this ... */
    BELFRYMIST_MOST_LETTERS = 12,       /* ... to this */
    BELFRYMIST_MOST_WIDTH = 8,          /* the places of a span */
    BELFRYMIST_MOST_NARROW = 4,         /* the places of a span that belfrymist_settle takes */
    BELFRYMIST_MOST_CARD = 4608,        /* bytes of the largest card */
    BELFRYMIST_MOST_LIST = 12600,       /* room for the list of every card, 504 lines of at most 25 bytes; no longer list is imported */
    BELFRYMIST_MOST_SEQUENCE = 515,     /* letters of the longest sequence: room for every build */
    BELFRYMIST_NO_SECOND_PLACE = 65535  /* place two of an entry that has one place, on a pair card */
};

/* The numbers of a FASTA record. */
enum {
    BELFRYMIST_MOST_NAME = 40,          /* bytes of the longest name */
    BELFRYMIST_LINE_LETTERS = 60,       /* letters of each line but the last, which has from 1 to so many */
    BELFRYMIST_MOST_RECORD = 566        /* room for the record of every build, whatever its name */
};

/* Bytes of stack that a call takes at most: measured on x86-64 over the samples, the largest cards of both kinds and the longest record of a build,
 * and not proved. Each number is what was measured, rounded up to a multiple of 8,192, for importing of 1,024, and for any other call of 512.
 * Building takes about 58,500 bytes on a pair card, and on a span card about 25,100 and 192 more for each entry that it places, but no less than
 * 30,100. Settling takes as much for a small card as for a full one.
 *
 * A thread takes more stack than the call that it makes: about 4,400 bytes more, measured on x86-64 with glibc 2.36 and not proved, for what the
 * thread library keeps there and for the function that the thread begins in. Give a thread 8,192 bytes more than the number here, and the bytes of
 * the program's thread-local variables, and no less than PTHREAD_STACK_MIN. */
enum {
    BELFRYMIST_STACK = 122880,          /* belfrymist_build */
    BELFRYMIST_STACK_SETTLING = 90112,  /* belfrymist_settle and belfrymist_settle_lists */
    BELFRYMIST_STACK_COUNTING = 40960,  /* belfrymist_count and belfrymist_count_lists */
    BELFRYMIST_STACK_IMPORTING = 5120,  /* belfrymist_import */
    BELFRYMIST_STACK_READING = 512      /* any other call, those that write a card, a list or a record among them */
};

/* The kinds of card. */
enum { BELFRYMIST_PAIR = 1, BELFRYMIST_SPAN = 2 };

/* The shapes of an entry's allowed places. */
enum {
    BELFRYMIST_NO_ENTRY = 0,     /* a refusal, or the end of the list */
    BELFRYMIST_ONE_PLACE = 1,    /* `first`; `second` is 0 */
    BELFRYMIST_TWO_PLACES = 2,   /* `first` and `second`, first < second */
    BELFRYMIST_A_SPAN = 3        /* every place from `first` to `second`, first <= second */
};

/* The verdicts. */
enum {
    BELFRYMIST_NO_VERDICT = 0,   /* a refusal */
    BELFRYMIST_SOLE = 1,         /* exactly one sequence fits, and it was given */
    BELFRYMIST_SEVERAL = 2,      /* two or more fit, and the alphabetically first was given */
    BELFRYMIST_NONE = 3,         /* no sequence fits */
    BELFRYMIST_UNSETTLED = 4     /* the budget ended the walk: nothing is known of what fits. It is not "none" */
};

/* The refusals. Beside each stand what is wrong and what the place counts: blocks and entries from 0 over the whole card, lines from 1. */
enum {
    BELFRYMIST_REFUSED_SHORT = 1,        /* the card has fewer than 512 bytes; place 0 */
    BELFRYMIST_REFUSED_CHECK = 2,        /* a check byte of a block differs; the block */
    BELFRYMIST_REFUSED_INDEX = 3,        /* a block's index is not its own; the block */
    BELFRYMIST_REFUSED_FORM = 4,         /* the form is not 1; place 0 */
    BELFRYMIST_REFUSED_KIND = 5,         /* the kind is neither pair nor span, or not taken here; place 0. Only span cards are settled by
                                            belfrymist_settle, and only pair cards counted by belfrymist_count */
    BELFRYMIST_REFUSED_WORD_LENGTH = 6,  /* words have fewer than 2 or more than 12 letters; place 0 */
    BELFRYMIST_REFUSED_COUNT = 7,        /* there are fewer than 1 or more than 504 entries; place 0 */
    BELFRYMIST_REFUSED_SPARE = 8,        /* a byte that must be zero is not; the block */
    BELFRYMIST_REFUSED_SIZE = 9,         /* the card is cut short, or something follows it; place 0. It has 512 * (1 + ceil(m / 63)) bytes */
    BELFRYMIST_REFUSED_WORD = 10,        /* a word has more letters than the card's words; the entry. Its value is 4^l or more */
    BELFRYMIST_REFUSED_PLACES = 11,      /* places out of order, beyond the card, or over 8 wide; the entry. The last place is m - 1 */
    BELFRYMIST_REFUSED_ROOM = 12,        /* an output is too short; place 0 */
    BELFRYMIST_REFUSED_LISTS = 13,       /* the three lists differ in length; place 0 */
    BELFRYMIST_REFUSED_ABSENT = 14,      /* there is no such block or entry; place 0 */
    BELFRYMIST_REFUSED_NAME = 20,        /* no name of 1 to 40 printable characters, or in a record not between `>` and a newline; place 0. Each
                                            character is a byte from 33 to 126 */
    BELFRYMIST_REFUSED_LETTER = 21,      /* a byte that is none of A, C, G and T, or no letter at all; the letters before it. In a record a newline is
                                            no such byte */
    BELFRYMIST_REFUSED_LINE = 22,        /* in a record a newline is missing, or stands where none belongs; place 0 */
    BELFRYMIST_REFUSED_TEXT = 23,        /* a line is not a word, a tab, places and a newline, or the list is empty; the line */
    BELFRYMIST_REFUSED_MIXED = 24,       /* a line's mark, comma or hyphen, is not that of an earlier line; the line */
    BELFRYMIST_REFUSED_UNEVEN = 25,      /* a word has not as many letters as the first; the line */
    BELFRYMIST_REFUSED_ZERO = 26,        /* a place is 0, where places count from 1; the line */
    BELFRYMIST_REFUSED_WIDER = 30        /* a span is over 4 wide; the entry. It is the first such */
};

typedef struct {
    size_t number, place;
    size_t kind; /* BELFRYMIST_PAIR or BELFRYMIST_SPAN */
    size_t l;    /* letters of a word */
    size_t m;    /* entries */
} belfrymist_admit_answer;

typedef struct {
    size_t number, place;
    size_t shape;         /* of its allowed places */
    size_t word;          /* its value: A, C, G, T are 0, 1, 2, 3, the first letter most significant */
    size_t first, second; /* its places, as the shape says */
} belfrymist_entry_answer;

typedef struct {
    size_t number, place;
    size_t shape, word, first, second; /* as in belfrymist_entry_answer */
    size_t next;                       /* where the reading head stands then */
} belfrymist_step_answer;

typedef struct {
    size_t number, place;
} belfrymist_held_answer;

typedef struct {
    size_t at;     /* the part begins at this byte of the card */
    size_t length; /* 512, or 0 for the empty part */
} belfrymist_part_answer;

typedef struct {
    size_t number, place;
    size_t length; /* bytes of the card that was written; from belfrymist_export, of the list; from belfrymist_write_fasta, of the record */
} belfrymist_write_answer;

typedef struct {
    size_t number, place;
    size_t name;    /* bytes of the name */
    size_t letters; /* how many there are */
} belfrymist_fasta_answer;

typedef struct {
    size_t number, place;
    size_t verdict;    /* one of the verdicts */
    size_t length;     /* letters of the sequence that was given, m + l - 1; 0 for none and unsettled */
    size_t placements; /* that the walk took; the budget, for unsettled; 0 on a pair card, and where a card is settled without a budget */
} belfrymist_build_answer;

typedef struct {
    size_t number, place;
    size_t any;      /* 1 where there is a build, 0 where there is none */
    size_t exponent; /* where any is 1, there are two to this power; otherwise 0 */
} belfrymist_count_answer;

/* Admits a card: tests all of it, and answers its kind, l and m.
 *
 * Refuses, the first of these that holds: 1; in block 0: 2, 3, 4, 5, 6, 7, 8; 9; then in each later block in turn: 2, 3, its entries in
 * turn (10 before 11), 8. These are "the reader's refusals" below.
 *
 * All of card_len is the card: a byte after it gives 9. */
belfrymist_admit_answer belfrymist_admit(const uint8_t *card, size_t card_len);

/* Fetches entry i, from 0. The card is admitted first.
 *
 * Refuses: the reader's refusals, then 14 where i is m or more. */
belfrymist_entry_answer belfrymist_entry(const uint8_t *card, size_t card_len, size_t i);

/* A step of a reading head that stands at an entry, from 0: the entry, and in `next` the head moved one on. The card is admitted first.
 *
 * At m or beyond it is the end: every field is 0, `next` too, so that shape BELFRYMIST_NO_ENTRY with number 0 tells it.
 *
 * Refuses: the reader's refusals, never 14. */
belfrymist_step_answer belfrymist_step(const uint8_t *card, size_t card_len, size_t at);

/* Whether block k, from 0, is there and its check and index hold: number 0 says so. The block need belong to no card that can be admitted.
 *
 * Refuses: 14 where its 512 bytes are not all there, at 0; then 2, at k; then 3, at k. */
belfrymist_held_answer belfrymist_companion(const uint8_t *card, size_t card_len, size_t k);

/* Where in the card the 512 bytes of block k stand: card + at, no copy. Has no refusal of its own: length is 0, and at too, exactly where
 * belfrymist_companion refuses with the same arguments, and that tells why. Block 0 has at 0 and length 512. */
belfrymist_part_answer belfrymist_fetch(const uint8_t *card, size_t card_len, size_t k);

/* Writes the card of this kind and l whose entry i is words[i], ones[i], twos[i]: the word, place one and place two, as a card stores them.
 * m is the length of the lists. The card stands at the start of out, `length` bytes of it: 512 * (1 + ceil(m / 63)); later bytes are
 * untouched. BELFRYMIST_MOST_CARD bytes are room for every card.
 *
 * Refuses, the first of these that holds: 5; 6; 13; 7; each entry in turn, 10 before 11; 12 where out has fewer bytes than the card. */
belfrymist_write_answer belfrymist_write(size_t kind, size_t l, const uint32_t *words, size_t words_len, const uint16_t *ones,
                                         size_t ones_len, const uint16_t *twos, size_t twos_len, uint8_t *out, size_t out_len);

/* Builds the sequence of a card. The card is admitted first. The verdict is over all sequences whose words, in order, can be matched one to
 * one with the card's entries, each at an allowed place.
 *
 * Sole and several: the letters stand at the start of out, `length` of them, as ASCII capitals with no zero after them; later bytes are
 * untouched. None and unsettled: no byte of out is touched, and length is 0.
 *
 * The budget bounds the placements of the walk on a span card, and with them the time; a pair card is always settled, with 0
 * placements. A settled answer is the same under every larger budget. The program `build` takes 1,000,000.
 *
 * Refuses: the reader's refusals, then 12 where out has fewer than m + l - 1 bytes, whichever verdict would follow.
 *
 * BELFRYMIST_MOST_SEQUENCE bytes are room for every card. */
belfrymist_build_answer belfrymist_build(const uint8_t *card, size_t card_len, uint32_t budget, uint8_t *out, size_t out_len);

/* Settles a span card whose spans are at most 4 wide. The card is admitted first. The verdict is sole, several or none, over all sequences as
 * belfrymist_build has it, and never unsettled: there is no budget. Placements are 0. The time is at most in proportion to m, which is
 * measured and not proved. Wherever belfrymist_build settles the card, verdict, length and letters are the same.
 *
 * Sole and several: the letters stand at the start of out, `length` of them, as ASCII capitals with no zero after them; later bytes are
 * untouched. None: no byte of out is touched, and length is 0.
 *
 * Refuses: the reader's refusals; then 12 where out has fewer than m + l - 1 bytes, whichever verdict would follow; then 5 on a pair card; then
 * 30 at the first entry whose span is over 4 wide.
 *
 * BELFRYMIST_MOST_SEQUENCE bytes are room for every card. */
belfrymist_build_answer belfrymist_settle(const uint8_t *card, size_t card_len, uint8_t *out, size_t out_len);

/* What belfrymist_settle answers and writes, of the card of this kind and l whose entry i is words[i], ones[i], twos[i], as belfrymist_write takes
 * them.
 *
 * Refuses, the first of these that holds: 5 where the kind is neither 1 nor 2; 6; 13; 7; each entry in turn, 10 before 11; 12; then 5 where the
 * kind is pair; then 30. */
belfrymist_build_answer belfrymist_settle_lists(size_t kind, size_t l, const uint32_t *words, size_t words_len, const uint16_t *ones,
                                                size_t ones_len, const uint16_t *twos, size_t twos_len, uint8_t *out, size_t out_len);

/* How many builds a pair card has: none, or a power of two, whose exponent is given (a full card may have more than a size_t holds). A build is
 * a sequence, so that two ways that only exchange equal words are one. belfrymist_build, with room for the sequence, says sole of such a card
 * exactly where `any` is 1 and the exponent 0, several where the exponent is above 0, and none where `any` is 0. There is no output and no
 * budget.
 *
 * Refuses: the reader's refusals, then 5 on a span card, of which no number is given. */
belfrymist_count_answer belfrymist_count(const uint8_t *card, size_t card_len);

/* What belfrymist_count answers, of the card of this kind and l whose entry i is words[i], ones[i], twos[i], as belfrymist_write takes them.
 *
 * Refuses, the first of these that holds: 5 where the kind is neither 1 nor 2; 6; 13; 7; each entry in turn, 10 before 11; then 5 where the
 * kind is span. */
belfrymist_count_answer belfrymist_count_lists(size_t kind, size_t l, const uint32_t *words, size_t words_len, const uint16_t *ones,
                                               size_t ones_len, const uint16_t *twos, size_t twos_len);

/* Writes the card of a probe list, the text that older readers keep. A line is an entry: a word in the capitals A, C, G and T, a tab, its places as
 * `7`, `3,7` or `3-7`, and a newline, the last line too. A number is at most 65,535, without needless zeros before it. On a list places count from
 * 1: a listed place p is place p - 1 of the card. A list with a comma makes a pair card, one with a hyphen a span card, on which `7` means `7-7`,
 * and one with neither a pair card. l is the letters of the first word, m the number of lines.
 *
 * The card stands at the start of out, `length` bytes of it, as belfrymist_write has it; later bytes are untouched. BELFRYMIST_MOST_CARD bytes
 * are room for every card.
 *
 * Refuses, the first of these that holds: each line in turn: 23, 24, 25, 26, with the line from 1, and 23 at 1 where list_len is 0; then of the card:
 * 6; 7; each entry in turn, 11, with the entry from 0; then 12 where out has fewer bytes than the card. 5, 10 and 13 do not occur. A carriage
 * return and a byte-order mark are 23. */
belfrymist_write_answer belfrymist_import(const uint8_t *list, size_t list_len, uint8_t *out, size_t out_len);

/* Writes the probe list of a card, which belfrymist_import makes the same card of. The card is admitted first. There is a line for each entry, in
 * their order, with places counted from 1: `7` or `3,7` on a pair card, `3-7` on a span card, and `7-7` for a span one place wide.
 *
 * The list stands at the start of out, `length` bytes of it, with no zero after it; later bytes are untouched. BELFRYMIST_MOST_LIST bytes are room
 * for every list.
 *
 * Refuses: the reader's refusals, then 12 where out has fewer bytes than the list. */
belfrymist_write_answer belfrymist_export(const uint8_t *card, size_t card_len, uint8_t *out, size_t out_len);

/* Writes the FASTA record of a name and letters: `>`, the name, a newline, then the letters in lines of 60, the last one shorter or full, each ended
 * by a newline. A name is 1 to 40 printable ASCII characters without spaces; letters are the capitals A, C, G and T, 1 or more of them, as
 * belfrymist_build gives them.
 *
 * The record stands at the start of out, `length` bytes of it, with no zero after it; later bytes are untouched. It has
 * name_len + letters_len + ceil(letters_len / 60) + 2 bytes. BELFRYMIST_MOST_RECORD bytes are room for the record of every build.
 *
 * Refuses, the first of these that holds: 20; 21 with the number of letters before the first byte that is none, and at 0 where letters_len is 0;
 * 12 where out has fewer bytes than the record. */
belfrymist_write_answer belfrymist_write_fasta(const uint8_t *name, size_t name_len, const uint8_t *letters, size_t letters_len, uint8_t *out,
                                               size_t out_len);

/* Reads a FASTA record, laid out as belfrymist_write_fasta does it and in no other way. The name stands at the start of name_out, `name` bytes of it,
 * and the letters, without their line ends, at the start of letters_out, `letters` of them, with no zero after either; later bytes are untouched.
 * BELFRYMIST_MOST_NAME bytes are room for every name, and record_len bytes for the letters.
 *
 * Refuses, the first of these that holds of the whole record: 20 where it does not begin with `>`, a name and a newline; 21 where a byte after that
 * is neither a letter nor a newline, with the number of letters before it, and at 0 where there is no letter; 22 where the lines are not those that
 * belfrymist_write_fasta makes of the letters; 12 where name_out or letters_out is too short. All of record_len is the record: a second record after
 * it is 21, and an empty line after it 22. A carriage return is 20 in the name's line and 21 later; a small letter is 21. */
belfrymist_fasta_answer belfrymist_read_fasta(const uint8_t *record, size_t record_len, uint8_t *name_out, size_t name_out_len,
                                              uint8_t *letters_out, size_t letters_out_len);

#ifdef __cplusplus
}
#endif

#endif
