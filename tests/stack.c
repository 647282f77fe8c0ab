/* stack CARD...: measures the stack that calls take, and holds what include/belfrymist.h says to it: each number is the most that was measured,
 * rounded up to a whole number of steps. A call runs on a stack of its own that was filled with one byte beforehand; what it took reaches down to the
 * lowest byte that differs afterwards. The walk goes one level deeper with every entry that it places, so that a full card with a build takes the
 * most. Each call also runs in a thread, whose stack is as large as the header says. */
#define _GNU_SOURCE
#include <limits.h>
#include <pthread.h>
#include <stdio.h>
#include <stdlib.h>
#include <string.h>
#include <ucontext.h>

#include "belfrymist.h"

enum { ROOM = 1 << 20, FILL = 0x5C, FOR_A_THREAD = 8192 };

static uint8_t room[ROOM];
static ucontext_t here, there;
static const uint8_t *lowest_own;
static void (*call)(void);

static uint8_t card[BELFRYMIST_MOST_CARD + 1], out[BELFRYMIST_MOST_CARD], list[BELFRYMIST_MOST_LIST];
static uint8_t name[BELFRYMIST_MOST_NAME], letters[BELFRYMIST_MOST_SEQUENCE], record[BELFRYMIST_MOST_RECORD];
static uint32_t words[BELFRYMIST_MOST_ENTRIES];
static uint16_t ones[BELFRYMIST_MOST_ENTRIES], twos[BELFRYMIST_MOST_ENTRIES];
static size_t length, list_length, record_length, m, kind, l;
static volatile size_t seen;

static void on_own_stack(void)
{
    uint8_t mark;
    lowest_own = &mark;
    call();
}

/* The lowest byte that is no longer as it was filled. */
static const uint8_t *lowest(void)
{
    const uint8_t *at = room;
    while (at < room + sizeof room && *at == FILL)
        at++;
    return at;
}

/* The bytes of stack that a call takes. */
static size_t taken(void (*what)(void))
{
    memset(room, FILL, sizeof room);
    call = what;
    getcontext(&there);
    there.uc_stack.ss_sp = room;
    there.uc_stack.ss_size = sizeof room;
    there.uc_link = &here;
    makecontext(&there, on_own_stack, 0);
    swapcontext(&here, &there);
    return (size_t)(lowest_own - lowest());
}

static void *in_a_thread(void *nothing)
{
    call();
    return nothing;
}

/* The bytes of its stack that a thread takes which makes the call and nothing else, where for the call so many are stated. */
static size_t taken_in_a_thread(void (*what)(void), size_t stated)
{
    size_t least = (size_t)PTHREAD_STACK_MIN, size = stated + FOR_A_THREAD > least ? stated + FOR_A_THREAD : least;
    pthread_attr_t attributes;
    pthread_t thread;
    memset(room, FILL, sizeof room);
    call = what;
    if (pthread_attr_init(&attributes) != 0 || pthread_attr_setstack(&attributes, room + sizeof room - size, size) != 0 ||
        pthread_create(&thread, &attributes, in_a_thread, NULL) != 0 || pthread_join(thread, NULL) != 0)
        exit(5);
    pthread_attr_destroy(&attributes);
    return (size_t)(room + sizeof room - lowest());
}

static void admit(void) { seen = belfrymist_admit(card, length).m; }
static void entry(void) { seen = belfrymist_entry(card, length, m - 1).word; }
static void step(void) { seen = belfrymist_step(card, length, m - 1).word; }
static void companion(void) { seen = belfrymist_companion(card, length, 1).number; }
static void fetch(void) { seen = belfrymist_fetch(card, length, 1).length; }
static void written(void) { seen = belfrymist_write(kind, l, words, m, ones, m, twos, m, out, sizeof out).length; }
static void build(void) { seen = belfrymist_build(card, length, 1000000, out, sizeof out).verdict; }
static void settle_card(void) { seen = belfrymist_settle(card, length, out, sizeof out).verdict; }
static void settle_lists(void) { seen = belfrymist_settle_lists(kind, l, words, m, ones, m, twos, m, out, sizeof out).verdict; }
static void count_card(void) { seen = belfrymist_count(card, length).any; }
static void count_lists(void) { seen = belfrymist_count_lists(kind, l, words, m, ones, m, twos, m).any; }
static void export_card(void) { list_length = belfrymist_export(card, length, list, sizeof list).length; }
static void import_list(void) { seen = belfrymist_import(list, list_length, out, sizeof out).length; }
static void write_record(void) { record_length = belfrymist_write_fasta(name, sizeof name, letters, sizeof letters, record, sizeof record).length; }
static void read_record(void) { seen = belfrymist_read_fasta(record, record_length, name, sizeof name, letters, sizeof letters).letters; }

/* Takes up a card that stands in `card`, its entries in the lists. */
static void take_up(void)
{
    belfrymist_admit_answer a = belfrymist_admit(card, length);
    size_t e;
    kind = a.kind;
    l = a.l;
    m = a.m;
    for (e = 0; e < m; e++) {
        belfrymist_entry_answer got = belfrymist_entry(card, length, e);
        words[e] = (uint32_t)got.word;
        ones[e] = (uint16_t)got.first;
        twos[e] = (uint16_t)(got.shape == BELFRYMIST_ONE_PLACE ? BELFRYMIST_NO_SECOND_PLACE : got.second);
    }
}

/* Calls for which the header states one number, the step of that number, and the most that they took, alone and in a thread. */
static struct group {
    const char *what;
    size_t stated, step;
    void (*calls[10])(void);
    size_t most, most_in_a_thread;
} groups[] = {
    {"to build", BELFRYMIST_STACK, 8192, {build}, 0, 0},
    {"to settle", BELFRYMIST_STACK_SETTLING, 8192, {settle_card, settle_lists}, 0, 0},
    {"to count", BELFRYMIST_STACK_COUNTING, 8192, {count_card, count_lists}, 0, 0},
    {"for other calls", BELFRYMIST_STACK_READING, 512,
     {admit, entry, step, companion, fetch, written, export_card, write_record, read_record}, 0, 0},
    {"to import", BELFRYMIST_STACK_IMPORTING, 1024, {import_list}, 0, 0},
};
enum { GROUPS = sizeof groups / sizeof *groups };

static size_t larger(size_t one, size_t other) { return one > other ? one : other; }

static void measure_group(struct group *group)
{
    size_t i;
    for (i = 0; group->calls[i] != NULL; i++) {
        group->most = larger(group->most, taken(group->calls[i]));
        group->most_in_a_thread = larger(group->most_in_a_thread, taken_in_a_thread(group->calls[i], group->stated));
    }
}

/* Says what the calls took, and whether the header states that, rounded up, and whether in a thread no more than stated comes to it. */
static int is_held(const struct group *group)
{
    size_t steps = (group->most + group->step - 1) / group->step;
    printf("stack: at most %zu bytes %s, and %zu in a thread; the header says %zu\n", group->most, group->what, group->most_in_a_thread,
           group->stated);
    return group->stated == steps * group->step && group->most_in_a_thread <= group->most + FOR_A_THREAD;
}

/* Measures the calls on the card: building first, and the others where the card is admitted. */
static void measure(void)
{
    size_t i;
    measure_group(&groups[0]);
    take_up();
    for (i = 1; m != 0 && i < GROUPS; i++)
        measure_group(&groups[i]);
}

/* A full pair card: the words of A and C by turns, each at its own place or two places on. */
static void full_pair_card(void)
{
    size_t e;
    for (e = 0; e < BELFRYMIST_MOST_ENTRIES; e++) {
        words[e] = e % 2 == 0 ? 1 : 4;
        ones[e] = (uint16_t)(e % 4 < 2 ? e : e - 2);
        twos[e] = (uint16_t)(ones[e] + 2);
    }
    length = belfrymist_write(BELFRYMIST_PAIR, 2, words, e, ones, e, twos, e, card, sizeof card).length;
}

/* A full span card. Its first word can stand at no place but 0, and where its span ends later it is the last to be tried there: all that is
 * tried before is in vain. From place 15 on all words are equal. */
static void full_span_card(uint16_t end_of_first)
{
    static const uint8_t start[] = {3, 0, 1, 2, 0, 2, 1, 0, 0, 1, 1, 2, 2, 1, 0, 2};
    size_t e;
    for (e = 0; e < BELFRYMIST_MOST_ENTRIES; e++) {
        uint32_t letter = e < sizeof start ? start[e] : 0, next = e + 1 < sizeof start ? start[e + 1] : 0;
        words[e] = 4 * letter + next;
        ones[e] = (uint16_t)(e < 8 ? 0 : e - 7);
        twos[e] = (uint16_t)(e < 8 ? 7 : e);
    }
    twos[0] = end_of_first;
    length = belfrymist_write(BELFRYMIST_SPAN, 2, words, e, ones, e, twos, e, card, sizeof card).length;
}

/* A full span card at most 4 wide: the words of A and C by turns, each at its own place or up to three places before it. */
static void full_narrow_card(void)
{
    size_t e;
    for (e = 0; e < BELFRYMIST_MOST_ENTRIES; e++) {
        words[e] = e % 2 == 0 ? 1 : 4;
        ones[e] = (uint16_t)(e < 3 ? 0 : e - 3);
        twos[e] = (uint16_t)e;
    }
    length = belfrymist_write(BELFRYMIST_SPAN, 2, words, e, ones, e, twos, e, card, sizeof card).length;
}

static size_t placements(void) { return belfrymist_build(card, length, 1000000, out, sizeof out).placements; }

/* Takes up the card on which the walk has made 512 placements in vain before it goes down, so that it keeps states in memory at every depth. */
static int take_up_remembered(void)
{
    size_t straight;
    full_span_card(0);
    straight = placements();
    full_span_card(7);
    return placements() >= straight + 512;
}

int main(int count, char **names)
{
    int i, held = 1;
    memset(name, 'n', sizeof name);
    memset(letters, 'A', sizeof letters);
    for (i = 1; i < count; i++) {
        FILE *file = fopen(names[i], "rb");
        if (file == NULL)
            return 2;
        length = fread(card, 1, sizeof card, file);
        fclose(file);
        measure();
    }
    full_pair_card();
    measure();
    full_narrow_card();
    measure();
    if (!take_up_remembered())
        return 3;
    measure();
    if (record_length != sizeof record)
        return 4;
    for (i = 0; i < GROUPS; i++)
        held &= is_held(&groups[i]);
    return !held;
}
