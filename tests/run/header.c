/* What the examples of include/aigtools.h take as given, and they one after the other: tests/run/library.py writes each
   as a block to examples.inc. The circuit is a latch that an input toggles; its first bad state is never 1, and its
   second is the latch. The latch of another, which stays 0, is to be 1 again and again. Two inverters are compared. */
#include "aigtools.h"
#include <stdio.h>
#include <stdlib.h>
#include <string.h>

static const char toggle[] = "aag 5 1 1 1 3 2\n2\n4 10\n4\n0\n4\n6 4 2\n8 5 3\n10 9 7\n";
static const char run[] = "1\nb1\n0\n1\n0\n.\n";
static const char stuck[] = "aag 1 0 1 0 0 0 0 1\n2 2\n1\n2\n";
static const char inverter[] = "aag 1 1 0 1 0\n2\n3\n";

int main(void) {
    const uint8_t *const input = (const uint8_t *)toggle, *const model = input;
    const size_t input_length = sizeof toggle - 1, model_length = input_length;
    const uint8_t *const witness = (const uint8_t *)run, *const refutation = witness;
    const size_t witness_length = sizeof run - 1, refutation_length = 0;
    const uint8_t *const live = (const uint8_t *)stuck;
    const size_t live_length = sizeof stuck - 1;
    const uint8_t *const first = (const uint8_t *)inverter, *const second = first;
    const size_t first_length = sizeof inverter - 1, second_length = first_length;
    uint32_t words[16];
    const size_t words_length = sizeof words / sizeof words[0];
    uint8_t values[10] = {0, 1};
    aigtools_counts counts;
    aigtools_outcome outcome;
    if (aigtools_read(0, AIGTOOLS_LARGEST, input, input_length, words, words_length, values, 0, &counts, &outcome)) {
        return 1;
    }
#include "examples.inc"
    /* the next state, put in the place of the state */
    return values[2] != 1;
}
