/* Counts the gates of an AIGER file by level: inputs and latches are at level 0, a gate is one above its higher operand.
   From the top of the repository:

       gzip -dc release/libaigtools.a.gz > libaigtools.a
       cc -Iinclude -o levels examples/c/levels.c libaigtools.a
       ./levels examples/half_adder.aag

   Each line has a level, from 1 on, and how many gates it has. FILE may be -, the standard input. Status 0: done; 1: the
   file is refused, or a call of the system; 2: not one FILE. */
#include "read_all.h"
#include <aigtools.h>
#include <errno.h>
#include <inttypes.h>
#include <string.h>

/* Room for so many, all 0; without memory the program ends. */
static void *room_for(size_t count, size_t size) {
    void *room = calloc(count + 1, size);
    if (room) return room;
    fputs("levels: out of memory\n", stderr);
    exit(1);
}

/* The words of the circuit in order, which the caller frees; or NULL, and the outcome says why. */
static uint32_t *words_of(const uint8_t *input, size_t length, aigtools_counts *counts, aigtools_outcome *outcome) {
    size_t words_length = 0, bytes_length = 0;
    uint32_t *words = room_for(0, sizeof *words);
    uint8_t *bytes = room_for(0, 1);

    /* without room at first; then the outcome and the counts tell how much is needed */
    while (aigtools_read(AIGTOOLS_ORDERED, AIGTOOLS_LARGEST, input, length, words, words_length, bytes, bytes_length,
                         counts, outcome) == AIGTOOLS_TOO_SHORT) {
        free(words);
        free(bytes);
        words = room_for(words_length = outcome->length, sizeof *words);
        bytes = room_for(bytes_length = aigtools_bytes(counts), 1);
    }
    free(bytes);
    if (outcome->status == AIGTOOLS_DONE) return words;
    free(words);
    return NULL;
}

/* Prints how many gates each level has. A gate stands behind its operands. */
static void print_levels(const aigtools_counts *counts, const uint32_t *words) {
    uint32_t *level_of = room_for(counts->max_var, sizeof *level_of);
    uint32_t *gates_at = room_for((size_t)counts->gates + 1, sizeof *gates_at);
    const uint32_t *gate = aigtools_gates(counts, words);
    uint32_t left, right, level, i;

    for (i = 0; i < counts->gates; i++, gate += 3) {
        left = level_of[gate[1] / 2];
        right = level_of[gate[2] / 2];
        level = 1 + (left > right ? left : right);
        level_of[gate[0] / 2] = level;
        gates_at[level]++;
    }
    for (level = 1; gates_at[level]; level++) printf("%" PRIu32 " %" PRIu32 "\n", level, gates_at[level]);
    free(level_of);
    free(gates_at);
}

int main(int count, char **given) {
    uint8_t *input, message[80];
    uint32_t *words;
    size_t length;
    aigtools_counts counts;
    aigtools_outcome outcome;
    FILE *file;

    if (count != 2) {
        fputs("usage: levels FILE\n", stderr);
        return 2;
    }
    file = strcmp(given[1], "-") ? fopen(given[1], "rb") : stdin;
    input = file ? read_all(file, &length) : NULL;
    if (!input) {
        fprintf(stderr, "levels: %s: %s\n", given[1], strerror(errno));
        return 1;
    }
    words = words_of(input, length, &counts, &outcome);
    free(input);
    if (!words) {
        length = aigtools_message(&outcome, message, sizeof message);
        fprintf(stderr, "levels: %s: %.*s\n", given[1], (int)length, (const char *)message);
        return 1;
    }
    print_levels(&counts, words);
    free(words);
    if (!fflush(stdout) && !ferror(stdout)) return 0;
    perror("levels: standard output");
    return 1;
}
