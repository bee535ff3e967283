/* Calls of libaigtools that Python cannot make: memory is refused, outputs are too short by one byte, exact and longer,
   and threads call at once. Each check that fails says so; the status is 1 then.

       cc -Iinclude -Wl,--wrap=malloc,--wrap=realloc,--wrap=free tests/run/library.c libaigtools.a -lpthread
       library                 the checks
       library FILE TIMES      how many nanoseconds a conversion of the file to binary takes, over so many */
#define _POSIX_C_SOURCE 200809L
#include "aigtools.h"

#include <pthread.h>
#include <stdio.h>
#include <stdlib.h>
#include <string.h>
#include <time.h>

#define ROOM 4096
#define THREADS 8
#define UNTOUCHED 0xAA
/* an array of characters as the two arguments of an input */
#define TEXT(it) (const uint8_t *)(it), sizeof(it) - 1

void *__real_malloc(size_t size);
void *__real_realloc(void *old, size_t size);
void __real_free(void *old);

/* the growths of memory before the one that is refused, or none if negative; how many there were; and how many blocks
   are held */
static long before = -1, growths, held;

static int is_refused(void) { return growths++ == before; }

void *__wrap_malloc(size_t size) {
    void *block = is_refused() ? NULL : __real_malloc(size);
    if (block) __atomic_add_fetch(&held, 1, __ATOMIC_SEQ_CST);
    return block;
}

void *__wrap_realloc(void *old, size_t size) {
    void *block = is_refused() ? NULL : __real_realloc(old, size);
    if (block && !old) __atomic_add_fetch(&held, 1, __ATOMIC_SEQ_CST);
    return block;
}

void __wrap_free(void *old) {
    if (old) __atomic_sub_fetch(&held, 1, __ATOMIC_SEQ_CST);
    __real_free(old);
}

static const char gate[] = "aag 7 2 0 2 3\n2\n4\n6\n12\n6 13 15\n12 2 4\n14 3 5\ni0 x\nc\nhalf adder\n";
static const char toggle[] = "aag 1 0 1 1 0 1\n2 3\n2\n2\n";
static const char steps[] = "\n\n\n";
static const char claim[] = "1\nb0\n0\n\n\n.\n";
static const char said[] = "c\ns SATISFIABLE\nv -1 2\nv 0\n";
/* two bits that are at no value, so that a lemma is needed */
static const char four[] = "aag 9 2 0 0 7 1\n2\n4\n18\n6 5 3\n8 5 2\n10 4 3\n12 4 2\n14 9 7\n16 13 11\n18 16 14\n";
static const char refutation[] = "2 3 0\nd 3 2 0\n3 0\n0\n";
/* two tokens go from latch to latch: there are never two */
static const char tokens[] = "aag 3 0 2 0 1 1\n2 4 1\n4 2\n6\n6 4 2\n";
static const char invariant[] = ".i 2\n11 1\n.e\n";
static const char shown_by[] = "-10 0\n";
/* two inverters, each with its name; the second has a bad state for an output */
static const char first[] = "aag 1 1 0 1 0\n2\n3\ni0 a\no0 f\n";
static const char second[] = "aag 2 1 0 0 1 1\n2\n5\n4 2 2\nb0 f\ni0 a\n";
static const char wrong_claim[] = "1\nb0\n0\n\n.\n";
/* a latch that is to be 1 again and again, which a toggle is; and a goal that is never met */
static const char fair[] = "aag 1 0 1 0 0 0 0 1\n2 3\n1\n2\n";
static const char lasso_claim[] = "1\nj0\n0\n\n\n\n.\n", no_lasso_claim[] = "1\nj0\n0\n\n.\n";
static const char closed_by[] = "s SATISFIABLE\nv 2 0\n";
static const char unmet[] = "aag 0 0 0 0 0 0 0 1\n1\n0\n";
static const char never_met[] = "-1 1\n", unmet_by[] = "-16 0\n0\n";

static int failed;

static void check(int holds, const char *name, const char *what, long number) {
    if (holds) return;
    failed = 1;
    printf("FAILED %s: %s, %ld\n", name, what, number);
}

typedef uint32_t call(uint8_t *output, size_t room, aigtools_outcome *outcome);

static uint32_t to_binary(uint8_t *output, size_t room, aigtools_outcome *outcome) {
    return aigtools_convert(AIGTOOLS_KEEP_MAP, AIGTOOLS_LARGEST, TEXT(gate), output, room, outcome);
}
static uint32_t to_ascii(uint8_t *output, size_t room, aigtools_outcome *outcome) {
    return aigtools_convert(AIGTOOLS_ASCII, AIGTOOLS_LARGEST, TEXT(gate), output, room, outcome);
}
static uint32_t frames(uint8_t *output, size_t room, aigtools_outcome *outcome) {
    return aigtools_unroll(0, 5, AIGTOOLS_LARGEST, TEXT(toggle), output, room, outcome);
}
static uint32_t trace(uint8_t *output, size_t room, aigtools_outcome *outcome) {
    return aigtools_simulate(AIGTOOLS_PROPERTIES, AIGTOOLS_LARGEST, TEXT(toggle), TEXT(steps), output, room, outcome);
}
static uint32_t dump(uint8_t *output, size_t room, aigtools_outcome *outcome) {
    return aigtools_simulate(AIGTOOLS_VCD, AIGTOOLS_LARGEST, TEXT(toggle), TEXT(steps), output, room, outcome);
}
static uint32_t clauses(uint8_t *output, size_t room, aigtools_outcome *outcome) {
    return aigtools_clauses(AIGTOOLS_ALL_BAD, 5, AIGTOOLS_LARGEST, TEXT(toggle), output, room, outcome);
}
static uint32_t reached(uint8_t *output, size_t room, aigtools_outcome *outcome) {
    return aigtools_answer(0, 5, AIGTOOLS_LARGEST, TEXT(toggle), TEXT(said), output, room, outcome);
}
/* what has no text: its words stand for it */
static uint32_t put_words(const char *words, unsigned long number, uint8_t *output, size_t room,
                          aigtools_outcome *outcome) {
    char text[32];
    outcome->length = (uint64_t)snprintf(text, sizeof text, "%s %lu", words, number);
    if (outcome->length > room) return outcome->status = AIGTOOLS_TOO_SHORT;
    memcpy(output, text, outcome->length);
    return outcome->status;
}
static uint32_t judged(uint8_t *output, size_t room, aigtools_outcome *outcome) {
    uint32_t status = aigtools_witness(AIGTOOLS_LARGEST, TEXT(toggle), TEXT(claim), outcome);
    if (status != AIGTOOLS_DONE) return status;
    return put_words("confirmed", (unsigned long)outcome->number, output, room, outcome);
}
static uint32_t refuted(uint8_t *output, size_t room, aigtools_outcome *outcome) {
    uint32_t status = aigtools_refute(0, 1, AIGTOOLS_LARGEST, TEXT(four), TEXT(refutation), outcome);
    if (status != AIGTOOLS_DONE) return status;
    return put_words("none within", 1, output, room, outcome);
}

static uint32_t shown(uint8_t *output, size_t room, aigtools_outcome *outcome) {
    return aigtools_invariant_clauses(0, AIGTOOLS_LARGEST, TEXT(tokens), TEXT(invariant), output, room, outcome);
}
static uint32_t never(uint8_t *output, size_t room, aigtools_outcome *outcome) {
    uint32_t status =
        aigtools_never(AIGTOOLS_ALL_BAD, AIGTOOLS_LARGEST, TEXT(tokens), TEXT(invariant), TEXT(shown_by), outcome);
    if (status != AIGTOOLS_DONE) return status;
    return put_words("never", 0, output, room, outcome);
}
static uint32_t compared(uint8_t *output, size_t room, aigtools_outcome *outcome) {
    return aigtools_miter(AIGTOOLS_ASCII, AIGTOOLS_LARGEST, TEXT(first), TEXT(second), output, room, outcome);
}
static uint32_t by_name(uint8_t *output, size_t room, aigtools_outcome *outcome) {
    return aigtools_miter(AIGTOOLS_BY_NAME, AIGTOOLS_LARGEST, TEXT(first), TEXT(second), output, room, outcome);
}

/* the same of justice properties */
static uint32_t fair_clauses(uint8_t *output, size_t room, aigtools_outcome *outcome) {
    return aigtools_clauses(AIGTOOLS_JUSTICE, 3, AIGTOOLS_LARGEST, TEXT(fair), output, room, outcome);
}
static uint32_t closed(uint8_t *output, size_t room, aigtools_outcome *outcome) {
    return aigtools_answer(AIGTOOLS_JUSTICE, 3, AIGTOOLS_LARGEST, TEXT(fair), TEXT(closed_by), output, room, outcome);
}
static uint32_t no_lasso(uint8_t *output, size_t room, aigtools_outcome *outcome) {
    uint32_t status =
        aigtools_refute(AIGTOOLS_JUSTICE, 2, AIGTOOLS_LARGEST, TEXT(fair), (const uint8_t *)"0\n", 2, outcome);
    if (status != AIGTOOLS_DONE) return status;
    return put_words("no lasso within", 2, output, room, outcome);
}
static uint32_t unmet_clauses(uint8_t *output, size_t room, aigtools_outcome *outcome) {
    return aigtools_invariant_clauses(AIGTOOLS_JUSTICE, AIGTOOLS_LARGEST, TEXT(unmet), TEXT(never_met), output, room,
                                      outcome);
}
static uint32_t never_fair(uint8_t *output, size_t room, aigtools_outcome *outcome) {
    uint32_t status =
        aigtools_never(AIGTOOLS_JUSTICE, AIGTOOLS_LARGEST, TEXT(unmet), TEXT(never_met), TEXT(unmet_by), outcome);
    if (status != AIGTOOLS_DONE) return status;
    return put_words("holds", 0, output, room, outcome);
}
static uint32_t lasso(uint8_t *output, size_t room, aigtools_outcome *outcome) {
    uint32_t status = aigtools_witness(AIGTOOLS_LARGEST, TEXT(fair), TEXT(lasso_claim), outcome);
    if (status != AIGTOOLS_DONE) return status;
    return put_words("lasso at", (unsigned long)outcome->number, output, room, outcome);
}
static uint32_t lasso_run(uint8_t *output, size_t room, aigtools_outcome *outcome) {
    return aigtools_dump(AIGTOOLS_LARGEST, TEXT(fair), TEXT(lasso_claim), output, room, outcome);
}

/* the circuit of the gate as arrays, which are made once, and what has its words, its bytes and its counts one behind the
   other */
#define MOST 64
static struct arrays {
    aigtools_counts counts;
    uint32_t words[MOST];
    uint8_t bytes[MOST];
} gate_arrays, ordered_arrays;

static int is_untouched(const uint8_t *from, size_t count) {
    while (count && *from == UNTOUCHED) from++, count--;
    return count == 0;
}

static uint32_t read_into(struct arrays *arrays, uint32_t options) {
    aigtools_outcome outcome;
    memset(arrays, UNTOUCHED, sizeof *arrays);
    return aigtools_read(options, AIGTOOLS_LARGEST, TEXT(gate), arrays->words, MOST, arrays->bytes, MOST,
                         &arrays->counts, &outcome);
}
static uint32_t arrays_of(uint32_t options, uint8_t *output, size_t room, aigtools_outcome *outcome) {
    struct arrays arrays;
    uint32_t status;
    memset(&arrays, UNTOUCHED, sizeof arrays);
    status = aigtools_read(options, AIGTOOLS_LARGEST, TEXT(gate), arrays.words, MOST, arrays.bytes, MOST, &arrays.counts,
                           outcome);
    if (status != AIGTOOLS_DONE) {
        check(is_untouched((const uint8_t *)&arrays, sizeof arrays), "arrays", "untouched", status);
        return status;
    }
    outcome->length = sizeof arrays;
    if (room < sizeof arrays) return outcome->status = AIGTOOLS_TOO_SHORT;
    memcpy(output, &arrays, sizeof arrays);
    return status;
}
static uint32_t as_arrays(uint8_t *output, size_t room, aigtools_outcome *outcome) {
    return arrays_of(0, output, room, outcome);
}
static uint32_t in_order(uint8_t *output, size_t room, aigtools_outcome *outcome) {
    return arrays_of(AIGTOOLS_ORDERED, output, room, outcome);
}
static uint32_t write_of(uint32_t options, uint8_t *output, size_t room, aigtools_outcome *outcome) {
    const aigtools_counts *counts = &gate_arrays.counts;
    return aigtools_write(options, counts, gate_arrays.words, aigtools_words(counts), gate_arrays.bytes,
                          aigtools_bytes(counts), output, room, outcome);
}
static uint32_t written(uint8_t *output, size_t room, aigtools_outcome *outcome) {
    return write_of(0, output, room, outcome);
}
static uint32_t written_ascii(uint8_t *output, size_t room, aigtools_outcome *outcome) {
    return write_of(AIGTOOLS_ASCII, output, room, outcome);
}

static uint32_t run_of(const char *witness, size_t length, uint8_t *output, size_t room, aigtools_outcome *outcome) {
    return aigtools_dump(AIGTOOLS_LARGEST, TEXT(toggle), (const uint8_t *)witness, length, output, room, outcome);
}
static uint32_t run(uint8_t *output, size_t room, aigtools_outcome *outcome) {
    return run_of(claim, sizeof claim - 1, output, room, outcome);
}

static const struct { const char *name; call *of; } calls[] = {
    {"to binary", to_binary}, {"to ascii", to_ascii}, {"frames", frames}, {"trace", trace},
    {"dump", dump},           {"judged", judged},     {"run", run},       {"clauses", clauses},
    {"reached", reached},     {"refuted", refuted},   {"shown", shown}, {"never", never},
    {"compared", compared},   {"by name", by_name},
    {"fair clauses", fair_clauses}, {"closed", closed}, {"no lasso", no_lasso}, {"unmet clauses", unmet_clauses},
    {"never fair", never_fair}, {"lasso", lasso},     {"lasso run", lasso_run},
    {"arrays", as_arrays},    {"in order", in_order}, {"written", written}, {"written ascii", written_ascii},
};
#define CALLS (sizeof calls / sizeof *calls)

static void check_rooms(const char *name, call *of, const uint8_t *text, size_t length) {
    size_t rooms[] = {0, length - 1, length, length + 7}, i;
    for (i = 0; i < 4; i++) {
        uint8_t output[ROOM];
        aigtools_outcome outcome;
        size_t written = rooms[i] < length ? 0 : length;
        uint32_t status;
        memset(output, UNTOUCHED, sizeof output);
        status = of(output, rooms[i], &outcome);
        check(status == (written ? AIGTOOLS_DONE : AIGTOOLS_TOO_SHORT), name, "status for the room", (long)rooms[i]);
        check(outcome.status == status && outcome.length == length, name, "outcome for the room", (long)rooms[i]);
        check(memcmp(output, text, written) == 0, name, "text in the room", (long)rooms[i]);
        check(is_untouched(output + written, ROOM - written), name, "what stands behind the text", (long)rooms[i]);
    }
}

static void check_refusals(const char *name, call *of) {
    long all, number, blocks = held;
    uint8_t output[ROOM];
    aigtools_outcome outcome;
    growths = 0;
    of(output, ROOM, &outcome);
    all = growths;
    check(all > 0 && held == blocks, name, "growths of memory, and all given back", all);
    for (number = 0; number < all; number++) {
        memset(output, UNTOUCHED, sizeof output);
        growths = 0;
        before = number;
        of(output, ROOM, &outcome);
        before = -1;
        check(outcome.status == AIGTOOLS_OUT_OF_MEMORY && outcome.length == 0 && outcome.kind == 0, name,
              "out of memory", number);
        check(is_untouched(output, ROOM), name, "output untouched, out of memory", number);
        check(held == blocks, name, "all given back, out of memory", number);
    }
    printf("%s: %ld growths refused\n", name, all);
}

/* the half adder of these inputs, 0, 1 or 2 for x: that each value is right, and that no memory was taken */
static int is_stepped(uint8_t x, uint8_t y) {
    static const uint8_t and[3][3] = {{0, 0, 0}, {0, 1, 2}, {0, 2, 2}};
    const aigtools_counts *counts = &ordered_arrays.counts;
    uint8_t values[ROOM], not_x = x == 2 ? 2 : !x, not_y = y == 2 ? 2 : !y, carry = and[x][y], none = and[not_x][not_y];
    uint8_t wanted[8] = {0, 0, 0, 0, 0, 0, 0, 0};
    aigtools_outcome outcome;
    memset(values, UNTOUCHED, sizeof values);
    values[1] = x, values[2] = y;
    wanted[1] = x, wanted[2] = y, wanted[3] = carry, wanted[4] = none;
    wanted[5] = and[carry == 2 ? 2 : !carry][none == 2 ? 2 : !none];
    wanted[6] = wanted[5], wanted[7] = carry;
    return aigtools_step(counts, ordered_arrays.words, aigtools_words(counts), values, ROOM, &outcome) ==
               AIGTOOLS_DONE &&
           outcome.length == sizeof wanted && aigtools_values_length(counts) == sizeof wanted &&
           memcmp(values, wanted, sizeof wanted) == 0 &&
           is_untouched(values + sizeof wanted, sizeof values - sizeof wanted);
}

static void check_steps(void) {
    uint8_t i;
    growths = 0;
    for (i = 0; i < 9; i++) check(is_stepped(i / 3, i % 3), "step", "of a half adder", i);
    check(growths == 0, "step", "takes no memory", growths);
}

static uint8_t texts[CALLS][ROOM];
static size_t lengths[CALLS];

static void *call_often(void *wrong) {
    int i;
    for (i = 0; i < 2000; i++) {
        uint8_t output[ROOM];
        aigtools_outcome outcome;
        size_t k = (size_t)i % CALLS;
        if (calls[k].of(output, ROOM, &outcome) != AIGTOOLS_DONE || outcome.length != lengths[k] ||
            memcmp(output, texts[k], lengths[k]) != 0 || !is_stepped((uint8_t)(i % 3), (uint8_t)(i / 3 % 3)))
            *(int *)wrong = 1;
    }
    return NULL;
}

static void check_threads(void) {
    pthread_t threads[THREADS];
    int wrong[THREADS] = {0}, i;
    for (i = 0; i < THREADS; i++)
        check(pthread_create(&threads[i], NULL, call_often, &wrong[i]) == 0, "threads", "started", i);
    for (i = 0; i < THREADS; i++) pthread_join(threads[i], NULL);
    for (i = 0; i < THREADS; i++) check(!wrong[i], "threads", "the same texts", i);
}

static void check_refused_options(void) {
    static const uint32_t bad[] = {AIGTOOLS_KEEP_MAP | AIGTOOLS_ASCII, AIGTOOLS_KEEP_MAP | AIGTOOLS_STRIP,
                                   AIGTOOLS_KEEP_MAP | AIGTOOLS_UNDO_MAP, AIGTOOLS_OUTPUTS_AS_BAD | AIGTOOLS_KEEP_MAP,
                                   AIGTOOLS_OUTPUTS_AS_BAD | AIGTOOLS_UNDO_MAP, AIGTOOLS_PROPERTIES, AIGTOOLS_VCD,
                                   AIGTOOLS_BY_NAME, AIGTOOLS_KEEP_MAP | AIGTOOLS_SIMPLIFY, 1024, 1u << 31};
    static const uint32_t no_trace[] = {AIGTOOLS_ASCII, AIGTOOLS_PROPERTIES | AIGTOOLS_VCD,
                                        AIGTOOLS_VCD | AIGTOOLS_ASCII, AIGTOOLS_OUTPUTS_AS_BAD, 128,
                                        AIGTOOLS_BY_NAME, AIGTOOLS_SIMPLIFY};
    static const uint32_t no_miter[] = {AIGTOOLS_STRIP, AIGTOOLS_KEEP_MAP | AIGTOOLS_BY_NAME, 1024};
    static const uint32_t above = AIGTOOLS_LARGEST + 1;
    const uint8_t *text = (const uint8_t *)gate;
    uint8_t output[1] = {UNTOUCHED};
    aigtools_outcome x;
    size_t i;
#define IS_BAD(of) check((of) == AIGTOOLS_BAD_OPTIONS, "options", #of, (long)i)
    for (i = 0; i < sizeof bad / sizeof *bad; i++) IS_BAD(aigtools_convert(bad[i], 1, text, 0, output, 1, &x));
    for (i = 0; i < sizeof no_trace / sizeof *no_trace; i++)
        IS_BAD(aigtools_simulate(no_trace[i], 1, text, 0, text, 0, output, 1, &x));
    for (i = 0; i < sizeof no_miter / sizeof *no_miter; i++)
        IS_BAD(aigtools_miter(no_miter[i], 1, text, 0, text, 0, output, 1, &x));
    IS_BAD(aigtools_miter(0, above, text, 0, text, 0, output, 1, &x));
    IS_BAD(aigtools_convert(0, above, text, 0, output, 1, &x));
    IS_BAD(aigtools_justice_as_bad(AIGTOOLS_KEEP_MAP, 0, 1, text, 0, output, 1, &x));
    IS_BAD(aigtools_justice_as_bad(AIGTOOLS_OUTPUTS_AS_BAD, 0, 1, text, 0, output, 1, &x));
    IS_BAD(aigtools_justice_as_bad(0, 0, above, text, 0, output, 1, &x));
    IS_BAD(aigtools_unroll(AIGTOOLS_STRIP, 1, 1, text, 0, output, 1, &x));
    IS_BAD(aigtools_unroll(0, 0, 1, text, 0, output, 1, &x));
    IS_BAD(aigtools_unroll(0, 1000001, 1, text, 0, output, 1, &x));
    IS_BAD(aigtools_clauses(0, 0, 1, text, 0, output, 1, &x));
    IS_BAD(aigtools_clauses(AIGTOOLS_JUSTICE, 0, 1, text, 0, output, 1, &x));
    IS_BAD(aigtools_clauses(0, 0, AIGTOOLS_SIMPLIFIED, text, 0, output, 1, &x));
    IS_BAD(aigtools_answer(AIGTOOLS_ALL_BAD, 1000001, 1, text, 0, text, 0, output, 1, &x));
    IS_BAD(aigtools_refute(0, 0, 1, text, 0, text, 0, &x));
    IS_BAD(aigtools_witness(above, text, 0, text, 0, &x));
    IS_BAD(aigtools_dump(above, text, 0, text, 0, output, 1, &x));
    check(aigtools_message(&x, output, 1) == 0 && output[0] == UNTOUCHED, "message", "no fault", 0);
    check(aigtools_convert(0, 1, text, 0, output, 1, &x) == AIGTOOLS_REFUSED && x.kind == AIGTOOLS_NOT_AIGER &&
              x.place == AIGTOOLS_LINE && x.number == 1, "convert", "nothing at all", 0);
    growths = 0;
    check(aigtools_message(&x, output, 1) == 25 && output[0] == UNTOUCHED, "message", "too short", 0);
    check(growths == 0, "message", "takes no memory", growths);
    check(aigtools_version() == AIGTOOLS_VERSION, "version", "that of the header", aigtools_version());
}

/* The limit of a call for clauses says whether they are those of the simplified circuit, which here has no gate. */
static void check_simplified(void) {
    static const char model[] = "aag 2 1 0 1 1 1\n2\n4\n3\n4 2 2\n";
    static const char clauses[] = "p cnf 2 2\n-1 0\n-2 0\n", simple[] = "aag 1 1 0 1 0 1\n2\n2\n3\n";
    const uint32_t limit = AIGTOOLS_SIMPLIFIED + 2;
    uint8_t output[ROOM];
    aigtools_outcome x;
    memset(output, UNTOUCHED, sizeof output);
    aigtools_clauses(0, 1, limit, TEXT(model), output, ROOM, &x);
    check(x.status == AIGTOOLS_DONE && x.length == sizeof clauses - 1 && memcmp(output, clauses, x.length) == 0 &&
              is_untouched(output + x.length, ROOM - x.length),
          "simplified", "clauses", x.status);
    aigtools_clauses(0, 1, limit - 1, TEXT(model), output, ROOM, &x);
    check(x.status == AIGTOOLS_REFUSED && x.kind == AIGTOOLS_TOO_LARGE, "simplified", "the limit", x.status);
    aigtools_convert(AIGTOOLS_SIMPLIFY | AIGTOOLS_ASCII, 2, TEXT(model), output, ROOM, &x);
    check(x.status == AIGTOOLS_DONE && x.length == sizeof simple - 1 && memcmp(output, simple, x.length) == 0,
          "simplified", "a conversion", x.status);
    check(aigtools_refute(0, 1, limit, TEXT(model), TEXT("2 0\n"), &x) == AIGTOOLS_REFUSED &&
              x.kind == AIGTOOLS_DOES_NOT_FOLLOW, "simplified", "no refutation", x.kind);
}

static void check_verdicts_with_runs(void) {
    static const char line[] = "$comment not confirmed $end\n";
    uint8_t output[ROOM];
    aigtools_outcome x, too_short;
    run(output, ROOM, &x);
    check(x.status == AIGTOOLS_DONE && x.number == 1, "run", "confirmed at step 1", (long)x.number);
    memset(output, UNTOUCHED, sizeof output);
    run_of(wrong_claim, sizeof wrong_claim - 1, output, ROOM, &x);
    check(x.status == AIGTOOLS_NOT_CONFIRMED && x.number == 0, "run", "not confirmed", x.status);
    check(memcmp(output, line, sizeof line - 1) == 0 && is_untouched(output + x.length, ROOM - x.length), "run",
          "the text that is not confirmed", (long)x.length);
    run_of(wrong_claim, sizeof wrong_claim - 1, output, x.length - 1, &too_short);
    check(too_short.status == AIGTOOLS_TOO_SHORT && too_short.length == x.length && too_short.number == 0, "run",
          "too short", (long)too_short.length);
    run_of(claim, 4, output, ROOM, &x);
    check(x.status == AIGTOOLS_REFUSED && x.kind == AIGTOOLS_BAD_WITNESS, "run", "refused", x.status);
}

static void check_justice(void) {
    static const char model[] = "aag 1 0 1 0 0 0 0 1\n2 3\n1\n2\n", none[] = "aag 0 0 0 0 0 0 0 1\n0\n";
    static const char large[] = "aag 2147483642 0 0 0 0 0 0 1\n0\n", live[] = "aag 6 1 1 0 4 1\n2\n4 9\n12\n";
    static const struct { uint32_t property, kind; const char *model; } refused[] = {
        {1, AIGTOOLS_NO_SUCH_JUSTICE, model},
        {AIGTOOLS_ALL_BAD, AIGTOOLS_NO_SUCH_JUSTICE, model},
        {0, AIGTOOLS_TOO_LARGE_JUSTICE, large},
    };
    uint8_t output[ROOM];
    aigtools_outcome x;
    size_t i;
    memset(output, UNTOUCHED, sizeof output);
    for (i = 0; i < sizeof refused / sizeof *refused; i++) {
        aigtools_justice_as_bad(0, refused[i].property, AIGTOOLS_LARGEST, (const uint8_t *)refused[i].model,
                                strlen(refused[i].model), output, ROOM, &x);
        check(x.status == AIGTOOLS_REFUSED && x.kind == refused[i].kind && x.place == AIGTOOLS_WHOLE &&
                  x.subject == (i < 2 ? refused[i].property : 0) && is_untouched(output, ROOM),
              "justice", "refused", (long)i);
    }
    aigtools_justice_as_bad(AIGTOOLS_ASCII, 0, AIGTOOLS_LARGEST, TEXT(none), output, ROOM, &x);
    check(x.status == AIGTOOLS_DONE && memcmp(output, live, sizeof live - 1) == 0 &&
              is_untouched(output + x.length, ROOM - x.length),
          "justice", "as a bad state", x.status);
}

static int is_text(const uint8_t *output, const aigtools_outcome *x, const char *text) {
    return x->status == AIGTOOLS_DONE && x->length == strlen(text) && memcmp(output, text, x->length) == 0;
}

/* a number from AIGTOOLS_JUSTICE on is a justice property's, but for AIGTOOLS_ALL_BAD */
static void check_justice_properties(void) {
    static const uint32_t none[] = {AIGTOOLS_JUSTICE + 1, AIGTOOLS_JUSTICE + 7, AIGTOOLS_ALL_BAD - 1};
    static const char large[] = "aag 2147483642 0 0 0 0 0 0 1\n0\n", full[] = "aag 2147483647 0 0 0 0 0 0 1\n0\n";
    uint8_t output[ROOM];
    aigtools_outcome x;
    size_t i;
    memset(output, UNTOUCHED, sizeof output);
#define IS_NONE(of) \
    check((of) == AIGTOOLS_REFUSED && x.kind == AIGTOOLS_NO_SUCH_JUSTICE && x.place == AIGTOOLS_WHOLE && \
              x.subject == none[i] - AIGTOOLS_JUSTICE && x.number == 0, "no such justice", #of, (long)i)
    for (i = 0; i < sizeof none / sizeof *none; i++) {
        IS_NONE(aigtools_clauses(none[i], 1, AIGTOOLS_LARGEST, TEXT(fair), output, ROOM, &x));
        IS_NONE(aigtools_answer(none[i], 1, AIGTOOLS_LARGEST, TEXT(fair), TEXT(closed_by), output, ROOM, &x));
        IS_NONE(aigtools_refute(none[i], 1, AIGTOOLS_LARGEST, TEXT(fair), TEXT(refutation), &x));
        IS_NONE(aigtools_invariant_clauses(none[i], AIGTOOLS_LARGEST, TEXT(fair), TEXT(never_met), output, ROOM, &x));
        IS_NONE(aigtools_never(none[i], AIGTOOLS_LARGEST, TEXT(fair), TEXT(never_met), TEXT(unmet_by), &x));
    }
    aigtools_clauses(AIGTOOLS_JUSTICE - 1, 1, AIGTOOLS_LARGEST, TEXT(fair), output, ROOM, &x);
    check(x.kind == AIGTOOLS_NO_SUCH_BAD_STATE && x.subject == AIGTOOLS_LARGEST, "clauses", "the last bad state",
          x.kind);
    aigtools_clauses(AIGTOOLS_ALL_BAD, 1, AIGTOOLS_LARGEST, TEXT(fair), output, ROOM, &x);
    check(x.kind == AIGTOOLS_NOT_UNROLLABLE, "clauses", "all bad states beside a justice property", x.kind);
    aigtools_clauses(AIGTOOLS_JUSTICE, 1, AIGTOOLS_LARGEST, TEXT(large), output, ROOM, &x);
    check(x.kind == AIGTOOLS_TOO_LARGE_JUSTICE && x.place == AIGTOOLS_WHOLE, "clauses", "too large", x.kind);
    aigtools_answer(AIGTOOLS_JUSTICE, 2, AIGTOOLS_LARGEST, TEXT(fair), TEXT(closed_by), output, ROOM, &x);
    check(x.kind == AIGTOOLS_NOT_REACHED, "answer", "no lasso of so few steps", x.kind);
    aigtools_refute(AIGTOOLS_JUSTICE, 3, AIGTOOLS_LARGEST, TEXT(fair), (const uint8_t *)"0\n", 2, &x);
    check(x.kind == AIGTOOLS_DOES_NOT_FOLLOW && x.number == 1, "refute", "a lasso there is", x.kind);
    check(is_untouched(output, ROOM), "justice", "output untouched, refused", 0);
    closed(output, ROOM, &x);
    check(is_text(output, &x, "1\nj0\n0\n\n\n.\n"), "closed", "the witness of a lasso", (long)x.length);
    lasso(output, ROOM, &x);
    check(is_text(output, &x, "lasso at 1") && x.number == 1, "lasso", "begins at step 1", (long)x.number);
    memset(output, UNTOUCHED, sizeof output);
    aigtools_witness(AIGTOOLS_LARGEST, TEXT(fair), TEXT(no_lasso_claim), &x);
    check(x.status == AIGTOOLS_NOT_CONFIRMED && x.number == 0 && x.kind == 0, "lasso", "not confirmed", x.status);
    aigtools_witness(AIGTOOLS_LARGEST, TEXT(toggle), TEXT(lasso_claim), &x);
    check(x.status == AIGTOOLS_REFUSED && x.kind == AIGTOOLS_BAD_WITNESS && x.number == 2, "lasso", "of no property",
          x.status);
    aigtools_witness(AIGTOOLS_LARGEST, TEXT(full), (const uint8_t *)"1\nj0\n\n\n.\n", 9, &x);
    check(x.status == AIGTOOLS_DONE && x.number == 0, "lasso", "and no variable left", x.status);
    aigtools_dump(AIGTOOLS_LARGEST, TEXT(full), (const uint8_t *)"1\nj0\n\n\n.\n", 9, output, ROOM, &x);
    check(x.status == AIGTOOLS_REFUSED && x.kind == AIGTOOLS_TOO_LARGE_JUSTICE && x.place == AIGTOOLS_WHOLE &&
              is_untouched(output, ROOM), "lasso run", "no variable left", x.status);
}

static void check_answers(void) {
    static const struct { const char *said; uint32_t bad, frames, kind, place, subject; uint64_t number; } refused[] = {
        {"s UNSATISFIABLE\n", 0, 1, AIGTOOLS_UNSATISFIABLE, AIGTOOLS_WHOLE, 0, 0},
        {"s UNKNOWN\n", AIGTOOLS_ALL_BAD, 1, AIGTOOLS_UNKNOWN, AIGTOOLS_WHOLE, 0, 0},
        {"s SATISFIABLE\nv 0\n", 0, 1, AIGTOOLS_NOT_REACHED, AIGTOOLS_WHOLE, 0, 0},
        {"s SATISFIABLE\nv\nx\n", 0, 2, AIGTOOLS_BAD_ANSWER, AIGTOOLS_LINE, 0, 3},
        {"x\n", 1, 2, AIGTOOLS_NO_SUCH_BAD_STATE, AIGTOOLS_WHOLE, 1, 0},
    };
    uint8_t output[ROOM];
    aigtools_outcome x;
    size_t i;
    memset(output, UNTOUCHED, sizeof output);
    for (i = 0; i < sizeof refused / sizeof *refused; i++) {
        aigtools_answer(refused[i].bad, refused[i].frames, AIGTOOLS_LARGEST, TEXT(toggle),
                        (const uint8_t *)refused[i].said, strlen(refused[i].said), output, ROOM, &x);
        check(x.status == AIGTOOLS_REFUSED && x.kind == refused[i].kind && x.place == refused[i].place &&
                  x.subject == refused[i].subject && x.number == refused[i].number && x.length == 0,
              "reached", "refused", (long)i);
    }
    check(is_untouched(output, ROOM), "reached", "output untouched, refused", 0);
    aigtools_clauses(AIGTOOLS_ALL_BAD, 1, AIGTOOLS_LARGEST, TEXT(gate), output, ROOM, &x);
    check(x.status == AIGTOOLS_REFUSED && x.kind == AIGTOOLS_NO_BAD_STATES, "clauses", "no bad states", x.kind);
}

static void check_refutations(void) {
    static const struct { const char *said; uint32_t bad, kind, place, subject; uint64_t number; } refused[] = {
        {"", AIGTOOLS_ALL_BAD, AIGTOOLS_NO_REFUTATION, AIGTOOLS_WHOLE, 0, 0},
        {"2 3 0\nx\n", 0, AIGTOOLS_BAD_REFUTATION, AIGTOOLS_LINE, 0, 2},
        {"c\n2 3 0\n0\n", 0, AIGTOOLS_DOES_NOT_FOLLOW, AIGTOOLS_LINE, 0, 3},
        {"3 0\n", 1, AIGTOOLS_NO_SUCH_BAD_STATE, AIGTOOLS_WHOLE, 1, 0},
    };
    aigtools_outcome x;
    size_t i;
    for (i = 0; i < sizeof refused / sizeof *refused; i++) {
        aigtools_refute(refused[i].bad, 1, AIGTOOLS_LARGEST, TEXT(four), (const uint8_t *)refused[i].said,
                        strlen(refused[i].said), &x);
        check(x.status == AIGTOOLS_REFUSED && x.kind == refused[i].kind && x.place == refused[i].place &&
                  x.subject == refused[i].subject && x.number == refused[i].number && x.length == 0,
              "refuted", "refused", (long)i);
    }
    aigtools_refute(0, 1, AIGTOOLS_LARGEST, TEXT(four), TEXT(refutation), &x);
    check(x.status == AIGTOOLS_DONE && x.kind == 0 && x.place == 0 && x.number == 0 && x.length == 0, "refuted", "done",
          x.status);
}

static void check_invariants(void) {
    static const struct { const char *of, *said; uint32_t bad, kind, place, subject; uint64_t number; } refused[] = {
        {"11 1\n10 11\n", "", 0, AIGTOOLS_BAD_INVARIANT, AIGTOOLS_LINE, 0, 2},
        {"1 1\n", "", 0, AIGTOOLS_NOT_EACH_LATCH, AIGTOOLS_LINE, 0, 1},
        {"\n# 1\n10 1\n", "", 0, AIGTOOLS_MET_AT_START, AIGTOOLS_LINE, 0, 3},
        {"11 1\n", "", 1, AIGTOOLS_NO_SUCH_BAD_STATE, AIGTOOLS_WHOLE, 1, 0},
        {"11 1\n", "", AIGTOOLS_ALL_BAD, AIGTOOLS_NO_REFUTATION, AIGTOOLS_WHOLE, 0, 0},
        {"11 1\n", "\nx\n", 0, AIGTOOLS_BAD_REFUTATION, AIGTOOLS_LINE, 0, 2},
        {"11 1\n", "0\n", 0, AIGTOOLS_DOES_NOT_FOLLOW, AIGTOOLS_LINE, 0, 1},
        {"", "-5 0\n", 0, AIGTOOLS_DOES_NOT_FOLLOW, AIGTOOLS_LINE, 0, 1},
    };
    uint8_t output[ROOM];
    aigtools_outcome x;
    size_t i;
    memset(output, UNTOUCHED, sizeof output);
    for (i = 0; i < sizeof refused / sizeof *refused; i++) {
        const uint8_t *of = (const uint8_t *)refused[i].of, *said = (const uint8_t *)refused[i].said;
        aigtools_never(refused[i].bad, AIGTOOLS_LARGEST, TEXT(tokens), of, strlen(refused[i].of), said,
                       strlen(refused[i].said), &x);
        check(x.status == AIGTOOLS_REFUSED && x.kind == refused[i].kind && x.place == refused[i].place &&
                  x.subject == refused[i].subject && x.number == refused[i].number && x.length == 0,
              "never", "refused", (long)i);
        if (i > 3) continue;
        aigtools_invariant_clauses(refused[i].bad, AIGTOOLS_LARGEST, TEXT(tokens), of, strlen(refused[i].of), output,
                                   ROOM, &x);
        check(x.status == AIGTOOLS_REFUSED && x.kind == refused[i].kind && x.number == refused[i].number, "shown",
              "refused", (long)i);
    }
    check(is_untouched(output, ROOM), "shown", "output untouched, refused", 0);
    aigtools_never(0, AIGTOOLS_LARGEST, TEXT(tokens), TEXT(invariant), TEXT(shown_by), &x);
    check(x.status == AIGTOOLS_DONE && x.kind == 0 && x.place == 0 && x.number == 0 && x.length == 0, "never", "done",
          x.status);
}

static void check_miters(void) {
    static const char most[] = "aag 2147483647 0 0 0 0\n", two[] = "aag 0 0 0 1 0 1\n0\n0\no0 x\nb0 y\n";
    static const struct { const char *of, *other; uint32_t options, status, kind, place; uint64_t number; } refused[] = {
        {"", "", 0, AIGTOOLS_REFUSED, AIGTOOLS_NOT_AIGER, AIGTOOLS_LINE, 1},
        {"aag 0 0 0 0 0 0 0 0 1\n1\n", "", 0, AIGTOOLS_REFUSED, AIGTOOLS_NOT_COMPARABLE, AIGTOOLS_WHOLE, 0},
        {"aag 1 1 0 0 0\n2\n", "", AIGTOOLS_BY_NAME, AIGTOOLS_REFUSED, AIGTOOLS_NO_NAME, AIGTOOLS_INPUT, 0},
        {most, "aag 1 1 0 0 0\n", 0, AIGTOOLS_SECOND_REFUSED, AIGTOOLS_TRUNCATED, AIGTOOLS_LINE, 2},
        {most, "aag 0 0 0 0 0 0 0 0 1\n1\n", 0, AIGTOOLS_SECOND_REFUSED, AIGTOOLS_NOT_COMPARABLE, AIGTOOLS_WHOLE, 0},
        {first, most, 0, AIGTOOLS_SECOND_REFUSED, AIGTOOLS_OTHER_INPUTS, AIGTOOLS_WHOLE, 0},
        {two, most, AIGTOOLS_BY_NAME, AIGTOOLS_SECOND_REFUSED, AIGTOOLS_OTHER_OUTPUTS, AIGTOOLS_WHOLE, 0},
        {most, most, AIGTOOLS_BY_NAME, AIGTOOLS_SECOND_REFUSED, AIGTOOLS_TOO_LARGE_TO_COMPARE, AIGTOOLS_WHOLE, 0},
        {two, "aag 0 0 0 2 0\n0\n0\no0 x\no1 x\n", AIGTOOLS_BY_NAME, AIGTOOLS_SECOND_REFUSED, AIGTOOLS_NAME_TWICE,
         AIGTOOLS_OUTPUT, 1},
        {two, "aag 0 0 0 0 0 2\n0\n0\nb0 y\nb1 z\n", AIGTOOLS_BY_NAME, AIGTOOLS_SECOND_REFUSED, AIGTOOLS_NO_SUCH_NAME,
         AIGTOOLS_BAD, 1},
    };
    static const char words[] = "bad state 1: no such name in the other file";
    uint8_t output[ROOM];
    aigtools_outcome x;
    size_t i;
    memset(output, UNTOUCHED, sizeof output);
    for (i = 0; i < sizeof refused / sizeof *refused; i++) {
        uint32_t status = aigtools_miter(refused[i].options, AIGTOOLS_LARGEST, (const uint8_t *)refused[i].of,
                                         strlen(refused[i].of), (const uint8_t *)refused[i].other,
                                         strlen(refused[i].other), output, ROOM, &x);
        check(status == refused[i].status && x.status == status && x.kind == refused[i].kind &&
                  x.place == refused[i].place && x.number == refused[i].number && x.subject == 0 && x.length == 0,
              "compared", "refused", (long)i);
    }
    check(is_untouched(output, ROOM), "compared", "output untouched, refused", 0);
    check(aigtools_message(&x, output, ROOM) == sizeof words - 1 && memcmp(output, words, sizeof words - 1) == 0, "message",
          "of the second circuit", 0);
}

static int time_conversion(const char *path, long times) {
    FILE *file = fopen(path, "rb");
    size_t length;
    uint8_t *text = malloc(1u << 30), *output = malloc(1u << 30);
    aigtools_outcome outcome;
    struct timespec from, to;
    long i;
    if (!file || !text || !output) return 2;
    length = fread(text, 1, 1u << 30, file);
    fclose(file);
    clock_gettime(CLOCK_MONOTONIC, &from);
    for (i = 0; i < times; i++)
        if (aigtools_convert(0, AIGTOOLS_LARGEST, text, length, output, 1u << 30, &outcome) != AIGTOOLS_DONE) return 2;
    clock_gettime(CLOCK_MONOTONIC, &to);
    printf("%.0f ns\n",
           ((double)(to.tv_sec - from.tv_sec) * 1e9 + (double)(to.tv_nsec - from.tv_nsec)) / (double)times);
    return 0;
}

int main(int count, char **words) {
    size_t i;
    if (count == 3) return time_conversion(words[1], atol(words[2]));
    check(read_into(&gate_arrays, 0) == AIGTOOLS_DONE, "arrays", "read", 0);
    check(read_into(&ordered_arrays, AIGTOOLS_ORDERED) == AIGTOOLS_DONE, "arrays", "in order", 0);
    for (i = 0; i < CALLS; i++) {
        aigtools_outcome outcome;
        check(calls[i].of(texts[i], ROOM, &outcome) == AIGTOOLS_DONE, calls[i].name, "done", (long)i);
        lengths[i] = outcome.length;
        check_rooms(calls[i].name, calls[i].of, texts[i], lengths[i]);
        check_refusals(calls[i].name, calls[i].of);
    }
    check_verdicts_with_runs();
    check_simplified();
    check_justice();
    check_justice_properties();
    check_answers();
    check_refutations();
    check_invariants();
    check_miters();
    check_refused_options();
    check_steps();
    check_threads();
    return failed;
}
