/* divisions CALL CARD: one call of belfrymist_companion, belfrymist_admit or belfrymist_write, for tests/divisions to count what it executes.
 * The first two read the card; the third writes a card with as many entries. The exit status is the number of the refusal, 0 where there is
 * none, and 100 where there is no such call or card. */
#include "belfrymist.h"

#include <stdio.h>
#include <string.h>

static uint8_t card[BELFRYMIST_MOST_CARD], out[BELFRYMIST_MOST_CARD];
static uint32_t words[BELFRYMIST_MOST_ENTRIES];
static uint16_t places[BELFRYMIST_MOST_ENTRIES];

int main(int count, char **arguments)
{
    FILE *file = count == 3 ? fopen(arguments[2], "rb") : NULL;
    size_t length, i;
    belfrymist_admit_answer told;
    if (!file) return 100;
    length = fread(card, 1, sizeof card, file);
    fclose(file);
    if (!strcmp(arguments[1], "companion")) return (int)belfrymist_companion(card, length, 0).number;
    told = belfrymist_admit(card, length);
    if (!strcmp(arguments[1], "admit")) return (int)told.number;
    if (strcmp(arguments[1], "write")) return 100;
    for (i = 0; i < told.m; i++) {
        words[i] = (uint32_t)(7 * i);
        places[i] = (uint16_t)i;
    }
    return (int)belfrymist_write(BELFRYMIST_SPAN, 12, words, told.m, places, told.m, places, told.m, out, sizeof out).number;
}
