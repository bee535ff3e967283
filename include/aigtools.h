/*
 * libaigtools, in the memory of a program: AIGER files converted, unrolled and simulated, and witnesses judged; clauses
 * for SAT solvers, and their refutations and invariants checked; and circuits as arrays of numbers.
 *
 * The functions are those of the program `aiger`, and proved as it is; so are those for arrays. docs/FORMAT.md says
 * what each text is, and examples/c has programs in C and in Rust.
 *
 * Calls        A call reads its inputs, makes its whole answer, a text or arrays, and then copies it out where there is
 *              room for all of it. It keeps nothing: no state, no file, no pointer that it was given.
 * Threads      Any thread may call any function at any time. Calls that run at once share nothing, unless their
 *              outputs or outcomes overlap. A call takes up to 128 KB of stack, for a waveform; 64 KB may be too few for
 *              any but aigtools_witness.
 * Ownership    All memory that is passed stays the caller's. What a call takes for itself comes from malloc and
 *              realloc, and goes back to free before it returns; aigtools_step takes none. No signal handler may call.
 * Pointers     No pointer is null: where a length is 0, pass any address of that type. What a call may write to
 *              overlaps nothing else that is passed. Inputs are not changed.
 * Errors       Each call returns outcome->status. For AIGTOOLS_REFUSED the outcome says what the first fault is and
 *              where, and aigtools_message has the words. Without an answer outputs and arrays are as they were.
 * Units        Lengths are in bytes, those of `words` in words of 32 bits. Lines and gates are counted from 1, steps,
 *              words and values from 0. No text ends in a zero byte.
 *
 * Compile and link with what `pkg-config --cflags --libs aigtools` says, or with libaigtools.a alone. x86-64 with
 * SSE4.2 (x86-64-v2), Linux.
 */
#ifndef AIGTOOLS_H
#define AIGTOOLS_H

#include <stddef.h>
#include <stdint.h>

#ifdef __cplusplus
extern "C" {
#endif

/* The version of this header, as aigtools_version tells that of the library: a byte each for major, minor and patch. */
#define AIGTOOLS_VERSION 0x010700u

/* The largest `max_var`: a file with a larger index, or with more of a kind, is refused with AIGTOOLS_TOO_LARGE. */
#define AIGTOOLS_LARGEST 2147483647u

/* What a `property` is: the position of a bad state, from 0; all bad states; or, added to the position of a justice
   property, that one. */
#define AIGTOOLS_ALL_BAD 4294967295u
#define AIGTOOLS_JUSTICE 2147483648u

/* How a call ended. */
enum aigtools_status {
    AIGTOOLS_DONE = 0,          /* the text, the arrays or the values were written, the witness is confirmed, or there
                                   is no run */
    AIGTOOLS_TOO_SHORT = 1,     /* there is no room for the text, which has outcome.length bytes; aigtools_read needs as
                                   many words, and aigtools_step as many bytes of values */
    AIGTOOLS_REFUSED = 2,       /* the input has a fault, a solver's answer has no run into a bad state and no lasso, or
                                   its refutation shows nothing: see kind, place, number and subject */
    AIGTOOLS_OUT_OF_MEMORY = 3, /* memory was refused; nothing is said of the input */
    AIGTOOLS_BAD_OPTIONS = 4,   /* options exclude each other or are not known, or a number is out of its range */
    AIGTOOLS_NOT_CONFIRMED = 5, /* the witness file is right, and the model does not do what it claims: its waveform
                                   was written, if one was asked for */
    AIGTOOLS_SECOND_REFUSED = 6 /* aigtools_miter: as AIGTOOLS_REFUSED, of the second circuit */
};

/* Options, a bit each. */
enum aigtools_option {
    AIGTOOLS_ASCII = 1,     /* convert, justice_as_bad, unroll, miter, write: write ASCII, and not binary */
    AIGTOOLS_STRIP = 2,     /* convert, justice_as_bad: leave out symbols and comment */
    AIGTOOLS_KEEP_MAP = 4,  /* convert: begin the comment with a map that undoes the conversion; with no other option */
    AIGTOOLS_UNDO_MAP = 8,  /* convert: undo a conversion by the map of its image */
    AIGTOOLS_PROPERTIES = 16, /* simulate: show bad states and constraints too */
    AIGTOOLS_VCD = 32,      /* simulate: write the trace as a waveform, with them; without AIGTOOLS_PROPERTIES */
    AIGTOOLS_OUTPUTS_AS_BAD = 64, /* convert: write outputs as bad states; with no map */
    AIGTOOLS_ORDERED = 128, /* read: the circuit as a binary file has it, and how its variables are numbered there */
    AIGTOOLS_BY_NAME = 256, /* miter: pair inputs, outputs and bad states by their symbols */
    AIGTOOLS_SIMPLIFY = 512 /* convert, justice_as_bad, unroll, miter: write a circuit with fewer gates that means the
                               same; without AIGTOOLS_KEEP_MAP */
};

/* Added to the `max_var` of aigtools_clauses, aigtools_answer, aigtools_refute, aigtools_invariant_clauses or
   aigtools_never: the clauses are those of what is left of the unrolled circuit once it is simplified, as with
   `aiger aigunroll --simplify`. Its inputs have the same numbers, so an answer on either is read alike. */
#define AIGTOOLS_SIMPLIFIED 2147483648u

/* What is wrong, where the status is AIGTOOLS_REFUSED or AIGTOOLS_SECOND_REFUSED. */
enum aigtools_kind {
    AIGTOOLS_NO_FAULT = 0,
    AIGTOOLS_NOT_AIGER = 1,           /* the first word is neither aag nor aig */
    AIGTOOLS_BAD_HEADER = 2,
    AIGTOOLS_TOO_LARGE = 3,           /* a number is above the limit */
    AIGTOOLS_BAD_LINE = 4,
    AIGTOOLS_NOT_VARIABLE = 5,        /* a definition is not an even literal from 2 on */
    AIGTOOLS_LITERAL_RANGE = 6,
    AIGTOOLS_BAD_RESET = 7,
    AIGTOOLS_TRUNCATED = 8,
    AIGTOOLS_BAD_DELTA = 9,
    AIGTOOLS_BAD_SYMBOL = 10,
    AIGTOOLS_SYMBOL_RANGE = 11,
    AIGTOOLS_SYMBOL_TWICE = 12,
    AIGTOOLS_REDEFINED = 13,          /* outcome.subject is the variable */
    AIGTOOLS_UNDEFINED = 14,          /* outcome.subject is the literal */
    AIGTOOLS_CYCLIC = 15,             /* outcome.subject is the literal of the gate */
    AIGTOOLS_NOT_ORDERED = 16,        /* to undo a map, or for a step, the gates must be in binary order */
    AIGTOOLS_NO_MAP = 17,
    AIGTOOLS_BAD_MAP_LINE = 18,       /* outcome.number counts lines of the map */
    AIGTOOLS_MAP_MISMATCH = 19,
    AIGTOOLS_MAP_FORGED = 20,         /* the map does not belong to this circuit */
    AIGTOOLS_NOT_UNROLLABLE = 21,     /* justice or fairness cannot be unrolled */
    AIGTOOLS_TOO_LARGE_UNROLLED = 22,
    AIGTOOLS_BAD_STIMULUS = 23,       /* the model is right; the line is of the stimulus */
    AIGTOOLS_BAD_WITNESS = 24,        /* the model is right; the line is of the witness file */
    AIGTOOLS_HAS_BAD = 25,            /* outputs become bad states only where there is none */
    AIGTOOLS_NO_BAD_STATES = 26,      /* clauses say that a bad state is reached */
    AIGTOOLS_NO_SUCH_BAD_STATE = 27,  /* outcome.subject is its number */
    AIGTOOLS_BAD_ANSWER = 28,         /* the model is right; the line is of the answer */
    AIGTOOLS_UNSATISFIABLE = 29,      /* this is the answer; nothing is proved by that */
    AIGTOOLS_UNKNOWN = 30,            /* so is this */
    AIGTOOLS_NOT_REACHED = 31,        /* the run that the answer gives reaches no bad state, or is no lasso */
    AIGTOOLS_NO_REFUTATION = 32,      /* the model is right; the refutation ends, and has shown nothing */
    AIGTOOLS_BAD_REFUTATION = 33,     /* the line is of the refutation */
    AIGTOOLS_DOES_NOT_FOLLOW = 34,    /* so is this line, whose clause does not follow by unit propagation */
    AIGTOOLS_BAD_INVARIANT = 35,      /* the model is right; the line is of the invariant */
    AIGTOOLS_NOT_EACH_LATCH = 36,     /* so is this line, which has not a character for each latch */
    AIGTOOLS_MET_AT_START = 37,       /* so is this line, whose cube a first state may meet */
    AIGTOOLS_TOO_LARGE_INVARIANT = 38, /* the model and the invariant together have too many gates or cubes */
    AIGTOOLS_BAD_COUNTS = 39,         /* the counts are out of range, or not those of these words, bytes and names */
    AIGTOOLS_BAD_VALUE = 40,          /* a value is neither 0, 1 nor 2 */
    AIGTOOLS_NOT_COMPARABLE = 41,     /* justice or fairness cannot be compared */
    AIGTOOLS_OTHER_INPUTS = 42,       /* the circuits have not as many inputs */
    AIGTOOLS_OTHER_OUTPUTS = 43,      /* they have not as many outputs and bad states */
    AIGTOOLS_TOO_LARGE_TO_COMPARE = 44,
    AIGTOOLS_NO_NAME = 45,            /* an input, an output or a bad state has no symbol */
    AIGTOOLS_NAME_TWICE = 46,         /* it has the name of one before it */
    AIGTOOLS_NO_SUCH_NAME = 47,       /* nothing of the first circuit has its name */
    AIGTOOLS_NO_SUCH_JUSTICE = 48,    /* outcome.subject is the number of the justice property */
    AIGTOOLS_TOO_LARGE_JUSTICE = 49   /* with the latches that find a loop, or the input that marks one, there are too
                                         many variables; or the property has too many goals */
};

/* Where it is wrong. */
enum aigtools_place {
    AIGTOOLS_WHOLE = 0,   /* no one place */
    AIGTOOLS_LINE = 1,    /* outcome.number is a line */
    AIGTOOLS_GATE = 2,    /* outcome.number is a gate of a binary file, whose gates stand in no line */
    AIGTOOLS_MAP_LINE = 3, /* outcome.number is a line of the map */
    AIGTOOLS_WORD = 4,    /* outcome.number is the first word of the entry */
    AIGTOOLS_VALUE = 5,   /* outcome.number is the value of an input or a latch: that of variable 1 is value 1 */
    AIGTOOLS_INPUT = 6,   /* outcome.number is an input, counted from 0 */
    AIGTOOLS_OUTPUT = 7,  /* outcome.number is an output, counted from 0 */
    AIGTOOLS_BAD = 8      /* outcome.number is a bad state, counted from 0 */
};

/* What came of a call. A field that says nothing is 0. */
typedef struct aigtools_outcome {
    uint32_t status;  /* enum aigtools_status */
    uint32_t kind;    /* enum aigtools_kind */
    uint32_t place;   /* enum aigtools_place */
    uint32_t subject; /* the variable, the literal, the bad state or the justice property that the fault names */
    uint64_t number;  /* the line, the gate, the word, the value, the input, the output or the bad state; or the step at
                         which a witness is confirmed: that shows the bad state, or begins the loop */
    uint64_t length;  /* how long the text is, where it was written or has no room; so also the words or the values */
} aigtools_outcome;

/* What a circuit has, counted. */
typedef struct aigtools_counts {
    uint32_t max_var;          /* the largest variable */
    uint32_t inputs;
    uint32_t latches;
    uint32_t outputs;
    uint32_t bad;
    uint32_t constraints;
    uint32_t justice;          /* justice properties */
    uint32_t justice_literals; /* of all of them */
    uint32_t fairness;
    uint32_t gates;
    uint32_t symbols;
    uint32_t has_comment;      /* 1 where there is a comment, perhaps an empty one; else 0 */
    uint64_t name_bytes;       /* of all symbols */
    uint64_t comment_bytes;
} aigtools_counts;

/*
 * Converts an AIGER file, ASCII or binary, to the canonical text of its circuit, as `aiger aigtoaig`. The same input
 * and options always make the same bytes. Pass a likely size first: to ask for the length takes a whole conversion.
 *
 *     uint8_t text[4096], words[80];
 *     aigtools_outcome outcome;
 *     if (aigtools_convert(AIGTOOLS_ASCII, AIGTOOLS_LARGEST, input, input_length,
 *                          text, sizeof text, &outcome) == AIGTOOLS_DONE)
 *         fwrite(text, 1, outcome.length, stdout);
 *     else
 *         printf("%.*s\n", (int)aigtools_message(&outcome, words, sizeof words), (const char *)words);
 */
uint32_t aigtools_convert(uint32_t options, uint32_t max_var, const uint8_t *input, size_t input_length,
                          uint8_t *output, size_t output_length, aigtools_outcome *outcome);

/*
 * Makes of the circuit of an AIGER file one with an input and latches more and one bad state, as
 * `aiger aigtoaig --justice-as-bad`: that is reached exactly where the circuit has a run without end in which each
 * literal of the justice property of this number, counted from 0, and each fairness constraint is 1 again and again,
 * and all constraints always hold. So where aigtools_never finds it unreachable, there is no such run.
 */
uint32_t aigtools_justice_as_bad(uint32_t options, uint32_t property, uint32_t max_var,
                                 const uint8_t *input, size_t input_length,
                                 uint8_t *output, size_t output_length, aigtools_outcome *outcome);

/* Unrolls the circuit of an AIGER file over so many frames, from 1 to 1000000, as `aiger aigunroll`. */
uint32_t aigtools_unroll(uint32_t options, uint32_t frames, uint32_t max_var,
                         const uint8_t *input, size_t input_length,
                         uint8_t *output, size_t output_length, aigtools_outcome *outcome);

/*
 * Writes clauses in DIMACS, for a SAT solver: they can be satisfied exactly if a run of at most so many steps, 1 to
 * 1000000, reaches the bad state, or any, with all constraints kept, as `aiger aigunroll --cnf`; for a justice
 * property, if a lasso has fewer steps: a run that comes back to one of its states, with all constraints kept, and
 * meets each literal of the property and each fairness constraint on the way. A number from AIGTOOLS_JUSTICE on, of a
 * justice property that there is not, is refused with AIGTOOLS_NO_SUCH_JUSTICE.
 */
uint32_t aigtools_clauses(uint32_t property, uint32_t frames, uint32_t max_var,
                          const uint8_t *input, size_t input_length,
                          uint8_t *output, size_t output_length, aigtools_outcome *outcome);

/*
 * Follows the run that a solver's answer to these clauses gives, as `aiger aigunroll --answer`; pass the same
 * `property` and frames. The text is a witness file of the run up to the bad state, or of the lasso, which
 * aigtools_witness confirms, whatever the solver said.
 */
uint32_t aigtools_answer(uint32_t property, uint32_t frames, uint32_t max_var,
                         const uint8_t *model, size_t model_length,
                         const uint8_t *answer, size_t answer_length,
                         uint8_t *output, size_t output_length, aigtools_outcome *outcome);

/*
 * Checks a refutation of these clauses (DRAT, text or binary) that a solver wrote, as `aiger aigunroll --refutation`;
 * pass the same `property` and frames. AIGTOOLS_DONE: no run of at most so many steps reaches the bad state, or any,
 * with all constraints kept; or no lasso of the justice property has fewer. That is proved, whatever the solver said.
 *
 *     if (aigtools_refute(0, 20, AIGTOOLS_LARGEST, model, model_length,
 *                         refutation, refutation_length, &outcome) == AIGTOOLS_DONE)
 *         puts("none within 20");
 *     if (aigtools_refute(AIGTOOLS_JUSTICE + 0, 20, AIGTOOLS_LARGEST, live, live_length,
 *                         refutation, refutation_length, &outcome) == AIGTOOLS_DONE)
 *         puts("no lasso within 20");
 */
uint32_t aigtools_refute(uint32_t property, uint32_t frames, uint32_t max_var,
                         const uint8_t *model, size_t model_length,
                         const uint8_t *refutation, size_t refutation_length, aigtools_outcome *outcome);

/*
 * Writes clauses in DIMACS in which an invariant of the circuit of an AIGER file is to be shown, as
 * `aiger aigunroll --invariant --cnf`: a PLA with a column for each latch, as pdr of ABC writes one; for
 * a justice property one for each latch of what aigtools_justice_as_bad makes. If they cannot be satisfied, no run,
 * however long, reaches the bad state, or any, with all constraints kept; or no run without end keeps them and meets
 * each literal of the justice property and each fairness constraint again and again.
 */
uint32_t aigtools_invariant_clauses(uint32_t property, uint32_t max_var, const uint8_t *model, size_t model_length,
                                    const uint8_t *invariant, size_t invariant_length,
                                    uint8_t *output, size_t output_length, aigtools_outcome *outcome);

/*
 * Checks a refutation of these clauses that a solver wrote, as `aiger aigunroll --invariant --refutation`; pass the
 * same `property` and invariant. AIGTOOLS_DONE: what these say if they cannot be satisfied. That is proved, whatever
 * the invariant and the solver said.
 */
uint32_t aigtools_never(uint32_t property, uint32_t max_var, const uint8_t *model, size_t model_length,
                        const uint8_t *invariant, size_t invariant_length,
                        const uint8_t *refutation, size_t refutation_length, aigtools_outcome *outcome);

/*
 * Makes one circuit of those of two AIGER files, their miter, as `aiger aigmiter`: it has the inputs of the first, and
 * its bad states say where the two differ. Where aigtools_refute finds none of them within K steps, the two are equal
 * for K steps; where aigtools_never finds none, at every step.
 *
 *     size_t room = 2 * (first_length + second_length) + 64;
 *     uint8_t *miter = malloc(room);
 *     if (aigtools_miter(0, AIGTOOLS_LARGEST, first, first_length, second, second_length,
 *                        miter, room, &outcome) == AIGTOOLS_DONE)
 *         fwrite(miter, 1, outcome.length, stdout);
 */
uint32_t aigtools_miter(uint32_t options, uint32_t max_var, const uint8_t *first, size_t first_length,
                        const uint8_t *second, size_t second_length,
                        uint8_t *output, size_t output_length, aigtools_outcome *outcome);

/*
 * Simulates the circuit of an AIGER file over a stimulus, as `aiger aigsim --batch`. The text is the trace, or, with
 * AIGTOOLS_VCD, its waveform (a Value Change Dump). A bad line of the stimulus leaves no text. Two steps of a model with
 * one input:
 *
 *     const uint8_t steps[] = {'1', '\n', '0', '\n'};
 *     uint8_t text[4096];
 *     aigtools_simulate(0, AIGTOOLS_LARGEST, model, model_length, steps, sizeof steps, text, sizeof text, &outcome);
 *     fwrite(text, 1, outcome.length, stdout);
 */
uint32_t aigtools_simulate(uint32_t options, uint32_t max_var, const uint8_t *model, size_t model_length,
                           const uint8_t *stimulus, size_t stimulus_length,
                           uint8_t *output, size_t output_length, aigtools_outcome *outcome);

/*
 * Judges a witness file, of a bad state or of a justice property, for the circuit of an AIGER file, as
 * `aiger aigsim --witness`: AIGTOOLS_DONE, and outcome->number is the first step that shows the bad state, or at which
 * a loop begins that meets the property; or AIGTOOLS_NOT_CONFIRMED.
 *
 *     if (aigtools_witness(AIGTOOLS_LARGEST, model, model_length, witness, witness_length, &outcome) == AIGTOOLS_DONE)
 *         printf("confirmed %lu\n", (unsigned long)outcome.number);
 */
uint32_t aigtools_witness(uint32_t max_var, const uint8_t *model, size_t model_length,
                          const uint8_t *witness, size_t witness_length, aigtools_outcome *outcome);

/*
 * The same, and the text is the waveform of the run that the witness file claims, as `aiger aigsim --witness --vcd`.
 * Its first line has the verdict, too; of a lasso that is confirmed it has an input more, `loop`, which is 1 from the
 * step on at which the loop begins. With AIGTOOLS_DONE and with AIGTOOLS_NOT_CONFIRMED the text was written, and
 * outcome->length says how long it is. AIGTOOLS_TOO_SHORT tells no verdict.
 */
uint32_t aigtools_dump(uint32_t max_var, const uint8_t *model, size_t model_length,
                       const uint8_t *witness, size_t witness_length,
                       uint8_t *output, size_t output_length, aigtools_outcome *outcome);

/*
 * A circuit as arrays: `words`, section by section in the order of an ASCII file, with nothing between.
 *
 *     Section            Words of an entry
 *     inputs             1: its literal
 *     latches            3: its literal; its next state; its reset: 0, 1, or its literal if it is uninitialised
 *     outputs            1: its literal
 *     bad                1: its literal
 *     constraints        1: its literal
 *     justice_sizes      1: how many literals the property has
 *     justice_literals   1: the literal, property by property
 *     fairness           1: its literal
 *     gates              3: its literal; its left operand; its right operand
 *     symbols            4: what is named: 0 an input, 1 a latch, 2 an output, 3 a bad state, 4 a constraint, 5 a
 *                           justice property, 6 a fairness constraint; its position, from 0; at which byte its name
 *                           begins; how many bytes that has
 *     numbers            1: with AIGTOOLS_ORDERED alone: the new variable of each that the file defines, in the order
 *                           in which it does: inputs, latches, gates
 *
 * And `bytes`: the names end to end, in the order of the symbols, then the comment. So circuits are the same exactly if
 * their counts, words and bytes are. The functions at the end say how many there are, and where a section begins.
 */

/*
 * Reads an AIGER file, ASCII or binary, into arrays, as the circuit stands there. With AIGTOOLS_ORDERED it is the one
 * that aigtools_convert would write in binary: inputs are the variables from 1 on, latches follow, then gates, each
 * behind its operands, the larger of which is the left one. With AIGTOOLS_TOO_SHORT the counts are told too, and with
 * them how many bytes are needed. Pass likely sizes first: to ask for them takes a whole reading. Behind the circuit the
 * arrays are as they were.
 */
uint32_t aigtools_read(uint32_t options, uint32_t max_var, const uint8_t *input, size_t input_length,
                       uint32_t *words, size_t words_length, uint8_t *bytes, size_t bytes_length,
                       aigtools_counts *counts, aigtools_outcome *outcome);

/*
 * Writes the AIGER file of a circuit in arrays, binary or ASCII, as aigtools_convert writes that of a file. It takes no
 * numbers: words_length is aigtools_words(counts), and bytes_length is aigtools_bytes(counts). The entries are judged
 * as the lines of a file, and a wrong one is told by its first word (AIGTOOLS_WORD). Two inputs and their conjunction:
 *
 *     const uint32_t words[] = {2, 4, 6, 6, 4, 2};
 *     aigtools_counts counts = {0};
 *     counts.max_var = 3, counts.inputs = 2, counts.outputs = 1, counts.gates = 1;
 *     uint8_t text[64], names[1] = {0};
 *     aigtools_outcome outcome;
 *     aigtools_write(AIGTOOLS_ASCII, &counts, words, 6, names, 0, text, sizeof text, &outcome);
 *     fwrite(text, 1, outcome.length, stdout);
 */
uint32_t aigtools_write(uint32_t options, const aigtools_counts *counts,
                        const uint32_t *words, size_t words_length, const uint8_t *bytes, size_t bytes_length,
                        uint8_t *output, size_t output_length, aigtools_outcome *outcome);

/*
 * Evaluates one step of a circuit that is numbered in order: inputs are the variables from 1 on, latches follow, then
 * gates, each over lower literals, and no variable is left over. So it is if it was read with AIGTOOLS_ORDERED, or from
 * a binary file. Symbols and numbers are not looked at, and may be left out. A value is a byte: 0, 1, or 2 for x. The
 * caller sets those of inputs and latches, and the call all others.
 *
 *     Values             From
 *     the constant       0: it is 0
 *     inputs             1
 *     latches            1 + inputs: the state
 *     gates              1 + inputs + latches
 *     outputs            1 + max_var
 *     bad                behind the outputs
 *     constraints        behind the bad states
 *     next states        behind the constraints: one for each latch, which is its state in the step that follows
 *
 * So value v is that of variable v, up to max_var. The state of the next step is copied from the end:
 *
 *     size_t length = aigtools_values_length(&counts);
 *     uint8_t *state = values + 1 + counts.inputs;
 *     if (aigtools_step(&counts, words, words_length, values, length, &outcome) == AIGTOOLS_DONE)
 *         memcpy(state, values + length - counts.latches, counts.latches);
 */
uint32_t aigtools_step(const aigtools_counts *counts, const uint32_t *words, size_t words_length,
                       uint8_t *values, size_t values_length, aigtools_outcome *outcome);

/*
 * Puts the words for an outcome into the output, as the program reports it, without a file's name or a line feed:
 * "line 3: bad line". Returns how many bytes they have, at most 80; with less room nothing is written. It is 0 where
 * the status tells of no fault. This call takes no memory.
 */
size_t aigtools_message(const aigtools_outcome *outcome, uint8_t *output, size_t output_length);

/* The version of the library. */
uint32_t aigtools_version(void);

/* How many words a circuit has, without numbers. */
static inline size_t aigtools_words(const aigtools_counts *counts) {
    size_t count = counts->inputs;
    count += UINT64_C(3) * counts->latches;
    count += counts->outputs;
    count += counts->bad;
    count += counts->constraints;
    count += counts->justice;
    count += counts->justice_literals;
    count += counts->fairness;
    count += UINT64_C(3) * counts->gates;
    return count + UINT64_C(4) * counts->symbols;
}

/* How many bytes names and comment have. */
static inline size_t aigtools_bytes(const aigtools_counts *counts) {
    return counts->name_bytes + counts->comment_bytes;
}

/* How many variables are defined: so many numbers there are. */
static inline size_t aigtools_defined(const aigtools_counts *counts) {
    return UINT64_C(0) + counts->inputs + counts->latches + counts->gates;
}

/* How many values a step has. */
static inline size_t aigtools_values_length(const aigtools_counts *counts) {
    return UINT64_C(1) + counts->max_var + counts->outputs + counts->bad + counts->constraints + counts->latches;
}

/*
 * Where a section begins. To go over the gates:
 *
 *     const uint32_t *gate = aigtools_gates(&counts, words);
 *     for (uint32_t left = counts.gates; left != 0; left--, gate += 3)
 *         printf("%u = %u & %u\n", gate[0], gate[1], gate[2]);
 */
static inline const uint32_t *aigtools_inputs(const aigtools_counts *counts, const uint32_t *words) {
    (void)counts;
    return words;
}
static inline const uint32_t *aigtools_latches(const aigtools_counts *counts, const uint32_t *words) {
    return aigtools_inputs(counts, words) + counts->inputs;
}
static inline const uint32_t *aigtools_outputs(const aigtools_counts *counts, const uint32_t *words) {
    return aigtools_latches(counts, words) + UINT64_C(3) * counts->latches;
}
static inline const uint32_t *aigtools_bad(const aigtools_counts *counts, const uint32_t *words) {
    return aigtools_outputs(counts, words) + counts->outputs;
}
static inline const uint32_t *aigtools_constraints(const aigtools_counts *counts, const uint32_t *words) {
    return aigtools_bad(counts, words) + counts->bad;
}
static inline const uint32_t *aigtools_justice_sizes(const aigtools_counts *counts, const uint32_t *words) {
    return aigtools_constraints(counts, words) + counts->constraints;
}
static inline const uint32_t *aigtools_justice_literals(const aigtools_counts *counts, const uint32_t *words) {
    return aigtools_justice_sizes(counts, words) + counts->justice;
}
static inline const uint32_t *aigtools_fairness(const aigtools_counts *counts, const uint32_t *words) {
    return aigtools_justice_literals(counts, words) + counts->justice_literals;
}
static inline const uint32_t *aigtools_gates(const aigtools_counts *counts, const uint32_t *words) {
    return aigtools_fairness(counts, words) + counts->fairness;
}
static inline const uint32_t *aigtools_symbols(const aigtools_counts *counts, const uint32_t *words) {
    return aigtools_gates(counts, words) + UINT64_C(3) * counts->gates;
}
static inline const uint32_t *aigtools_numbers(const aigtools_counts *counts, const uint32_t *words) {
    return aigtools_symbols(counts, words) + UINT64_C(4) * counts->symbols;
}

#ifdef __cplusplus
}
#endif

#endif
