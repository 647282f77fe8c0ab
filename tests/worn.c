/* worn CARD: what comes of a card when one byte of it is worn: each byte that is 00 reads FF, one at a time. Prints how often each refusal came, as
 * `refused NUMBER TIMES`, with number 0 where the card is admitted, and of the cards that are, how often each verdict came, as
 * `verdict NUMBER TIMES`. */
#include <stdio.h>

#include "belfrymist.h"

enum { BUDGET = 1000000, NUMBERS = 100 };

static uint8_t card[BELFRYMIST_MOST_CARD], letters[BELFRYMIST_MOST_SEQUENCE];
static size_t length, refused[NUMBERS], verdicts[BELFRYMIST_UNSETTLED + 1];

static void try_card(void)
{
    size_t number = belfrymist_admit(card, length).number;
    refused[number < NUMBERS ? number : NUMBERS - 1]++;
    if (number == 0)
        verdicts[belfrymist_build(card, length, BUDGET, letters, sizeof letters).verdict]++;
}

static void print(const char *what, const size_t *times, size_t count)
{
    size_t i;
    for (i = 0; i < count; i++)
        if (times[i] != 0)
            printf("%s %zu %zu\n", what, i, times[i]);
}

int main(int count, char **names)
{
    FILE *file = count == 2 ? fopen(names[1], "rb") : NULL;
    size_t i;

    if (file == NULL)
        return 2;
    length = fread(card, 1, sizeof card, file);
    fclose(file);
    for (i = 0; i < length; i++) {
        if (card[i] != 0x00)
            continue;
        card[i] = 0xFF;
        try_card();
        card[i] = 0x00;
    }
    print("refused", refused, sizeof refused / sizeof *refused);
    print("verdict", verdicts, sizeof verdicts / sizeof *verdicts);
    return 0;
}
