/* Circuits as arrays: how long libaigtools takes to read, write and step them, and how much memory, beside its own
   conversions of the same file.

       cc -O2 -Iinclude -o bench/out/arrays bench/arrays.c libaigtools.a
       bench/out/arrays FILE TIMES     the least of so many runs, in nanoseconds a gate of the file

   Reading alone is the time of a conversion that is refused once the file is read: outputs are to become bad states, and
   there are bad states. So the file is first converted to one whose outputs are bad states. Each measurement has a
   process of its own, whose arrays were touched before; its memory is the peak beyond that. */
#define _POSIX_C_SOURCE 200809L
#include "aigtools.h"

#include <malloc.h>
#include <stdio.h>
#include <stdlib.h>
#include <string.h>
#include <sys/wait.h>
#include <time.h>
#include <unistd.h>

struct text { uint8_t *bytes; size_t length; };
struct arrays { aigtools_counts counts; uint32_t *words; size_t words_length; uint8_t *bytes; size_t bytes_length; };

static struct text source, output;
static struct arrays plain, ordered;
static uint8_t *values;
static size_t values_length;
static int is_binary;

static void *room(size_t size) {
    void *block = malloc(size + 1);
    if (!block) exit(2);
    return memset(block, 1, size + 1);
}

static double seconds(void) {
    struct timespec now;
    clock_gettime(CLOCK_PROCESS_CPUTIME_ID, &now);
    return (double)now.tv_sec + (double)now.tv_nsec * 1e-9;
}

/* a number of this name in /proc/self/status, in KB */
static double status(const char *name) {
    char line[200];
    double found = 0;
    FILE *file = fopen("/proc/self/status", "r");
    while (file && fgets(line, sizeof line, file))
        if (!strncmp(line, name, strlen(name))) found = atof(line + strlen(name) + 1);
    if (file) fclose(file);
    return found;
}

static void forget_peak(void) {
    FILE *file = fopen("/proc/self/clear_refs", "w");
    if (file) fputs("5", file), fclose(file);
}

static uint32_t convert(uint32_t options) {
    aigtools_outcome outcome;
    return aigtools_convert(options, AIGTOOLS_LARGEST, source.bytes, source.length, output.bytes, output.length, &outcome);
}
static uint32_t reading(void) {
    return convert(AIGTOOLS_OUTPUTS_AS_BAD | (is_binary ? 0 : AIGTOOLS_ASCII)) == AIGTOOLS_REFUSED ? 0 : 1;
}
static uint32_t to_ascii(void) { return convert(AIGTOOLS_ASCII); }
static uint32_t to_binary(void) { return convert(0); }

static uint32_t read_into(struct arrays *arrays, uint32_t options) {
    aigtools_outcome outcome;
    uint32_t status = aigtools_read(options, AIGTOOLS_LARGEST, source.bytes, source.length, arrays->words,
                                    arrays->words_length, arrays->bytes, arrays->bytes_length, &arrays->counts, &outcome);
    arrays->words_length = outcome.length;
    return status;
}
static uint32_t read_plain(void) { return read_into(&plain, 0); }
static uint32_t read_ordered(void) { return read_into(&ordered, AIGTOOLS_ORDERED); }
static uint32_t write_with(uint32_t options) {
    aigtools_outcome outcome;
    return aigtools_write(options, &plain.counts, plain.words, aigtools_words(&plain.counts), plain.bytes,
                          aigtools_bytes(&plain.counts), output.bytes, output.length, &outcome);
}
static uint32_t write_ascii(void) { return write_with(AIGTOOLS_ASCII); }
static uint32_t write_binary(void) { return write_with(0); }
static uint32_t step(void) {
    aigtools_outcome outcome;
    return aigtools_step(&ordered.counts, ordered.words, ordered.words_length, values, values_length, &outcome);
}

/* Says how long the call takes, by that of `beside` as 1 where it is above 0, and how much memory. */
static double measure(const char *name, uint32_t (*call)(void), long times, double beside) {
    double best = 1e9, gates = plain.counts.gates;
    int ends[2];
    pid_t child;
    if (pipe(ends)) exit(2);
    fflush(stdout);
    malloc_trim(0);
    child = fork();
    if (!child) {
        double held, peak, from;
        long i;
        forget_peak();
        held = status("VmRSS:");
        if (call() != AIGTOOLS_DONE) exit(1);
        peak = status("VmHWM:") - held;
        for (i = 0; i < times; i++) {
            from = seconds();
            if (call() != AIGTOOLS_DONE) exit(1);
            from = seconds() - from;
            if (from < best) best = from;
        }
        printf("%-16s %10.2f ns a gate   %8.1f bytes a gate   %12.2f us", name, best * 1e9 / gates,
               peak * 1024 / gates, best * 1e6);
        if (beside > 0) printf("   %.2f", best / beside);
        printf("\n");
        fflush(stdout);
        if (write(ends[1], &best, sizeof best) < 0) exit(2);
        _exit(0);
    }
    close(ends[1]);
    if (read(ends[0], &best, sizeof best) != sizeof best) printf("%s: failed\n", name), exit(1);
    close(ends[0]);
    waitpid(child, NULL, 0);
    return best;
}

/* The file, with its outputs as bad states. */
static void take(const char *path) {
    FILE *file = fopen(path, "rb");
    struct text text = {NULL, 0};
    aigtools_outcome outcome;
    if (!file) exit(2);
    fseek(file, 0, SEEK_END);
    text.length = (size_t)ftell(file);
    rewind(file);
    text.bytes = room(text.length);
    if (fread(text.bytes, 1, text.length, file) != text.length) exit(2);
    fclose(file);
    is_binary = text.bytes[1] == 'i';
    output.length = 16 * text.length + 4096;
    output.bytes = room(output.length);
    if (aigtools_convert(AIGTOOLS_OUTPUTS_AS_BAD | (is_binary ? 0 : AIGTOOLS_ASCII), AIGTOOLS_LARGEST, text.bytes,
                         text.length, output.bytes, output.length, &outcome) != AIGTOOLS_DONE)
        exit(3);
    source.length = outcome.length;
    source.bytes = room(source.length);
    memcpy(source.bytes, output.bytes, source.length);
    free(text.bytes);
}

/* Arrays with room for the circuit. */
static void hold(struct arrays *arrays, uint32_t options) {
    arrays->words = room(sizeof *arrays->words);
    arrays->bytes = room(1);
    read_into(arrays, options);
    free(arrays->words);
    free(arrays->bytes);
    arrays->bytes_length = aigtools_bytes(&arrays->counts);
    arrays->words = room(sizeof *arrays->words * arrays->words_length);
    arrays->bytes = room(arrays->bytes_length);
    if (read_into(arrays, options) != AIGTOOLS_DONE) exit(3);
}

int main(int count, char **words) {
    double alone, to_text, to_image;
    long times;
    if (count != 3) return 2;
    times = atol(words[2]);
    take(words[1]);
    hold(&plain, 0);
    hold(&ordered, AIGTOOLS_ORDERED);
    values_length = aigtools_values_length(&ordered.counts);
    values = room(values_length);
    alone = measure("reading alone", reading, times, 0);
    measure("read", read_plain, times, alone);
    to_image = measure("convert", to_binary, times, 0);
    measure("read in order", read_ordered, times, to_image);
    measure("write", write_binary, times, to_image - alone);
    to_text = measure("convert --ascii", to_ascii, times, 0);
    measure("write ascii", write_ascii, times, to_text - alone);
    measure("step", step, times, 0);
    return 0;
}
