/* record NAME: writes on standard output the FASTA record of NAME and of the letters that stand on standard input.
 * record: writes the name of the record that stands on standard input, and its letters, each on a line of its own.
 * Both through include/belfrymist.h. A refusal is a line on standard error, and status 1. */
#include <stdio.h>
#include <string.h>

#include "belfrymist.h"

static uint8_t given[BELFRYMIST_MOST_RECORD + 1], out[BELFRYMIST_MOST_RECORD], name[BELFRYMIST_MOST_NAME];

static int refused(size_t number, size_t place)
{
    fprintf(stderr, "refused %zu %zu\n", number, place);
    return 1;
}

int main(int count, char **words)
{
    size_t length = fread(given, 1, sizeof given, stdin);
    if (count > 1) {
        belfrymist_write_answer w = belfrymist_write_fasta((const uint8_t *)words[1], strlen(words[1]), given, length, out, sizeof out);
        if (w.number != 0)
            return refused(w.number, w.place);
        fwrite(out, 1, w.length, stdout);
    } else {
        belfrymist_fasta_answer r = belfrymist_read_fasta(given, length, name, sizeof name, out, sizeof out);
        if (r.number != 0)
            return refused(r.number, r.place);
        printf("%.*s\n%.*s\n", (int)r.name, (const char *)name, (int)r.letters, (const char *)out);
    }
    return 0;
}
