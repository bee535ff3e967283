/* Converts the AIGER file at standard input to binary, with a map that undoes it. From the top of the repository:

       gzip -dc release/libaigtools.a.gz > libaigtools.a
       cc -Iinclude -o aigconvert examples/c/aigconvert.c libaigtools.a
       ./aigconvert < examples/half_adder.aag > half_adder.aig

   Where the library is installed:

       cc -o aigconvert examples/c/aigconvert.c $(pkg-config --cflags --libs aigtools) */
#include "read_all.h"
#include <aigtools.h>

int main(void) {
    size_t length, room;
    uint8_t *input = read_all(stdin, &length), *output, words[80];
    aigtools_outcome outcome;
    if (!input) {
        perror("aigconvert");
        return 1;
    }

    /* a likely size first; with less than is needed, the outcome tells how much that is */
    output = malloc(room = length + 64);
    while (output && aigtools_convert(AIGTOOLS_KEEP_MAP, AIGTOOLS_LARGEST, input, length,
                                      output, room, &outcome) == AIGTOOLS_TOO_SHORT) {
        free(output);
        output = malloc(room = outcome.length);
    }
    free(input);
    if (!output || outcome.status != AIGTOOLS_DONE) {
        room = output ? aigtools_message(&outcome, words, sizeof words) : 0;
        fprintf(stderr, "%.*s\n", (int)room, (const char *)words);
        free(output);
        return 1;
    }
    length = fwrite(output, 1, outcome.length, stdout);
    free(output);
    return length != outcome.length || fflush(stdout);
}
