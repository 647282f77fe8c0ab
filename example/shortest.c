/* Builds the card on standard input: prints the verdict's number and
 * the letters. */
#include <stdio.h>

#include <belfrymist.h>

/* Room for a byte too many, so that a longer input is refused. */
static uint8_t card[BELFRYMIST_MOST_CARD + 1];
static uint8_t out[BELFRYMIST_MOST_SEQUENCE];

int main(void)
{
    size_t length = fread(card, 1, sizeof card, stdin);
    belfrymist_build_answer built =
        belfrymist_build(card, length, 1000000, out, sizeof out);

    if (built.number != 0)
        printf("refused %zu %zu\n", built.number, built.place);
    else
        printf("%zu %.*s\n",
               built.verdict, (int)built.length, (char *)out);
    return ferror(stdin) || fflush(stdout) != 0;
}
