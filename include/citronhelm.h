/*
 * Citronhelm: rules of linear temporal logic checked on recorded signals. Every function below is proved to answer as the project's
 * definitions say, for every input (docs/CLAIMS.md).
 *
 * Files are given as bytes: a pointer and a length. A pointer may be of any value where its length is 0. No function keeps a pointer,
 * has a state of its own or asks for memory: what a run keeps from call to call are bytes of the caller's. Input bytes are never altered.
 *
 * Numbers in a file's values may have leading zeros, five digits in all at most, as in `cycles=00012` and `r3=and 00001 00002`. Numbers in
 * its keys (`r1=`, `c0=`, `z1=`) may not, nor may those of a circuit file, and the digits of `c` and `z` lines are no numbers. What is
 * written has no leading zeros.
 *
 * No function fails on any input. This presumes of the caller, and no proof can look at it:
 *  - that each pointer is valid for its length: so many bytes are there to be read, and to be written where it is an output;
 *  - that the output, or the run that a call alters, does not lie over an input;
 *  - that the stack has the room below the call that CITRONHELM_STACK_... gives. With less, a process whose stack ends in a guard
 *    page ends by a signal.
 *
 * Every function answers one number. Its highest bit is set where the call is refused; citronhelm_reason, citronhelm_file and
 * citronhelm_line then give the refusal's number, file and line. A refused call leaves the whole output as it was. Where a call is
 * answered, the output begins with what was written, and the bytes behind it stay as they were. All this holds for a run as well.
 *
 * Refusals:
 *    1  the file is longer than 65,536 bytes
 *    2  a line is absent, surplus or not of the form given for its place
 *    3  the format is not 1
 *    4  a count lies outside its range
 *    5  a signal number is 0 or above `signals`, or an operand is 0 or not below its row
 *    6  the loop's cycle is not below `cycles`
 *    7  rule and take differ in `signals`; in citronhelm_simulate, the number of inputs is not the circuit's
 *    8  a looped service has an open take, or an open service a looped one
 *    9  the sheet's rows or cycles differ from the normal form's or the take's; in citronhelm_simulate, the number of latches is not the
 *       circuit's
 *   10  the output is shorter than what is to be written
 *   11  a run has 256 cycles already, and one more is handed over
 * File: 1 rule, 2 take, 3 sheet; 1 circuit in citronhelm_simulate. Line: from 1; 0 for refusal 1. File and line are 0 for 7 to 11, for a
 * 2 of citronhelm_step or citronhelm_simulate that is not the file's (by that it is told from one that is), and for every refusal of
 * citronhelm_run_cycle and citronhelm_run_verdict.
 * Files are read in the order rule, take, sheet; the first fault is the one that is told.
 */
#ifndef CITRONHELM_H
#define CITRONHELM_H

#include <stddef.h>
#include <stdint.h>

#ifdef __cplusplus
extern "C" {
#endif

/* How long an output has to be at most. */
#define CITRONHELM_MOST_TEXT 64u        /* citronhelm_judge_text */
#define CITRONHELM_MOST_NORMAL 2845u    /* citronhelm_normal */
#define CITRONHELM_MOST_STEP 384u       /* citronhelm_step */
#define CITRONHELM_MOST_SHEET 33567u    /* citronhelm_make_sheet */
#define CITRONHELM_MOST_CIRCUIT 9789u   /* citronhelm_circuit */
#define CITRONHELM_MOST_SIMULATE 32768u /* citronhelm_simulate, on any circuit */

/* How many bytes a run has. */
#define CITRONHELM_RUN 1220u

/*
 * How much stack a call needs at most, in bytes below the call: measured and rounded up; the machine code takes no more on any input
 * (docs/MEASURED.md, "Stack"). What memcpy and memset of the C library take is in it, but not what the dynamic loader takes to bind
 * them at their first call, where a program is linked so: 3,184 bytes where it was measured.
 */
#define CITRONHELM_STACK_READ_RULE 2048u
#define CITRONHELM_STACK_READ_TAKE 7168u
#define CITRONHELM_STACK_READ_SHEET 13312u
#define CITRONHELM_STACK_BOUND 2048u
#define CITRONHELM_STACK_ROWS 4096u
#define CITRONHELM_STACK_NORMAL_LENGTH 5120u
#define CITRONHELM_STACK_NORMAL 7168u
#define CITRONHELM_STACK_JUDGE 52224u
#define CITRONHELM_STACK_JUDGE_LOOPED 52224u
#define CITRONHELM_STACK_JUDGE_OPEN 52224u
#define CITRONHELM_STACK_JUDGE_TEXT 47104u
#define CITRONHELM_STACK_STEP 4096u
#define CITRONHELM_STACK_SHEET_LENGTH 44032u
#define CITRONHELM_STACK_MAKE_SHEET 47104u
#define CITRONHELM_STACK_CHECK_SHEET 25600u
#define CITRONHELM_STACK_RUN_BEGIN 5120u
#define CITRONHELM_STACK_RUN_CYCLE 11264u
#define CITRONHELM_STACK_RUN_VERDICT 54272u
#define CITRONHELM_STACK_CIRCUIT 16384u
#define CITRONHELM_STACK_SIMULATE 313344u

/* Whether an answer is a refusal; its number, file and line. */
static inline int citronhelm_refused(uint64_t answer) { return (int)(answer >> 63); }
static inline unsigned citronhelm_reason(uint64_t answer) { return (unsigned)(answer & 255); }
static inline unsigned citronhelm_file(uint64_t answer) { return (unsigned)(answer >> 8 & 255); }
static inline uint32_t citronhelm_line(uint64_t answer) { return (uint32_t)(answer >> 16); }

/* Reads a rule, take or sheet file. Answers 0 where it is accepted. */
uint64_t citronhelm_read_rule(const uint8_t *rule, size_t rule_length);
uint64_t citronhelm_read_take(const uint8_t *take, size_t take_length);
uint64_t citronhelm_read_sheet(const uint8_t *sheet, size_t sheet_length);

/* A bound on the length of a rule's normal form as a file: 29 + 44 * (rows of the rule), never less than its length. */
uint64_t citronhelm_bound(const uint8_t *rule, size_t rule_length);

/* The number of rows in a rule's normal form, 1 to 128: that of the pendings and activators of citronhelm_step, and of a sheet's rows. */
uint64_t citronhelm_rows(const uint8_t *rule, size_t rule_length);

/*
 * The exact length of a rule's normal form as a file, of that of the negated rule where `negated` is not 0. Nothing is written. For
 * citronhelm_normal an output of that length does, and one that is a byte shorter is refused with 10. Refused as citronhelm_normal is, but
 * never with 10.
 */
uint64_t citronhelm_normal_length(const uint8_t *rule, size_t rule_length, uint8_t negated);

/*
 * Writes a rule's normal form as a rule file, that of the negated rule where `negated` is not 0. Answers its length, which is that of
 * citronhelm_normal_length. At most CITRONHELM_MOST_NORMAL bytes; for one rule at most citronhelm_bound.
 */
uint64_t citronhelm_normal(const uint8_t *rule, size_t rule_length, uint8_t negated, uint8_t *output, size_t output_length);

/* The verdict on a rule and a take. */
enum citronhelm_verdict {
    CITRONHELM_HOLDS = 1,  /* looped: its endless repetition satisfies the rule */
    CITRONHELM_BREAKS = 2, /* looped: it does not */
    CITRONHELM_KEPT = 3,   /* open: it shows that every continuation satisfies the rule (an informative prefix) */
    CITRONHELM_BROKEN = 4, /* open: it shows that none does */
    CITRONHELM_OPEN = 5    /* open: neither */
};
/* A take of either kind; a looped one, an open one being refused with 8; an open one, a looped one being refused with 8. */
uint64_t citronhelm_judge(const uint8_t *rule, size_t rule_length, const uint8_t *take, size_t take_length);
uint64_t citronhelm_judge_looped(const uint8_t *rule, size_t rule_length, const uint8_t *take, size_t take_length);
uint64_t citronhelm_judge_open(const uint8_t *rule, size_t rule_length, const uint8_t *take, size_t take_length);

/*
 * Writes what the program `judge` prints for the two files: five lines with the verdict, or the three lines of a refusal. It is a
 * print-out and no service: files that are refused are answered too, and the output then has the refusal's lines. Answers the
 * text's length; refused with 10 only. At most CITRONHELM_MOST_TEXT bytes.
 */
uint64_t citronhelm_judge_text(
    const uint8_t *rule, size_t rule_length, const uint8_t *take, size_t take_length, uint8_t *output, size_t output_length);

/*
 * One cycle of a rule's monitors. All inputs behind the rule are digits, the bytes '0' and '1': each normal-form row's pending one
 * cycle earlier (all '0' before the first cycle), each row's activator, each signal. Writes the digits of failed, then accept, then
 * pending, each by row, and answers their number, 3 * citronhelm_rows: the pendings for the next call are the last third.
 * Refusals behind the rule's own: 2 (another byte than '0' or '1'), 7 (number of signals), 9 (number of pendings or activators), 10.
 */
uint64_t citronhelm_step(
    const uint8_t *rule, size_t rule_length, const uint8_t *pendings, size_t pendings_length, const uint8_t *activators,
    size_t activators_length, const uint8_t *signals, size_t signals_length, uint8_t *output, size_t output_length);

/*
 * The same with one buffer that is kept from call to call: 3 * rows digits, all '0' before the first cycle, where rows is what
 * citronhelm_rows answers. Their last third are the pendings. Answers and leaves what citronhelm_step does with a copy of these for
 * `pendings` and with all the digits for `output`; so a refused call changes nothing, and can be followed by another. The copy takes
 * 128 bytes of stack beside CITRONHELM_STACK_STEP.
 *
 * For this the pendings are copied first. To hand citronhelm_step the last third of its own output for `pendings` is against what is
 * presumed above, and no proof covers it. As the library is compiled today each row's pending is read before it is written, and
 * all is as with a copy; a later library may do something else.
 */
static inline uint64_t citronhelm_step_in_place(
    const uint8_t *rule, size_t rule_length, const uint8_t *activators, size_t activators_length, const uint8_t *signals,
    size_t signals_length, uint8_t *digits, size_t rows)
{
    uint8_t pendings[CITRONHELM_MOST_STEP / 3];
    size_t k;
    if (rows > sizeof pendings) /* no rule has so many: refused, at the latest with 9, before an output is looked at */
        return citronhelm_step(
            rule, rule_length, digits + 2 * rows, rows, activators, activators_length, signals, signals_length, NULL, 0);
    for (k = 0; k < rows; k++)
        pendings[k] = digits[2 * rows + k];
    return citronhelm_step(
        rule, rule_length, pendings, rows, activators, activators_length, signals, signals_length, digits, 3 * rows);
}

/*
 * The exact length of the activator sheet of a rule and a take as a file, or 0 (`none`) where the rule does not hold or is not kept.
 * Nothing is written. For citronhelm_make_sheet an output of that length does, and where it is not 0, one that is a byte shorter is
 * refused with 10. Refused as citronhelm_make_sheet is, but never with 10.
 */
uint64_t citronhelm_sheet_length(const uint8_t *rule, size_t rule_length, const uint8_t *take, size_t take_length);

/*
 * Writes the activator sheet of a rule and a take as a sheet file: a 1 where the row of the normal form is true at that cycle
 * (strongly, for an open take). Answers its length, or 0 (`none`; nothing is written, any output does) where the rule does not hold
 * or is not kept: that of citronhelm_sheet_length. At most CITRONHELM_MOST_SHEET bytes.
 */
uint64_t citronhelm_make_sheet(
    const uint8_t *rule, size_t rule_length, const uint8_t *take, size_t take_length, uint8_t *output, size_t output_length);

/*
 * What a check of a sheet finds. citronhelm_finding takes it from an answer, citronhelm_row the row, from 1 (failed, starved, pending),
 * citronhelm_cycle the cycle, from 0 (failed).
 */
enum citronhelm_found {
    CITRONHELM_ROOT = 1,    /* the root is not active in cycle 0 */
    CITRONHELM_FAILED = 2,  /* a monitor fails: the earliest cycle, counted along the endless take, and the lowest row there */
    CITRONHELM_STARVED = 3, /* looped: a row's accept stops returning; the lowest row */
    CITRONHELM_PENDING = 4, /* open: a row is pending in the last cycle; the lowest row */
    CITRONHELM_PASSES = 5
};
static inline unsigned citronhelm_finding(uint64_t answer) { return (unsigned)(answer & 255); }
static inline unsigned citronhelm_row(uint64_t answer) { return (unsigned)(answer >> 8 & 255); }
static inline uint32_t citronhelm_cycle(uint64_t answer) { return (uint32_t)(answer >> 16); }
uint64_t citronhelm_check_sheet(
    const uint8_t *rule, size_t rule_length, const uint8_t *take, size_t take_length, const uint8_t *sheet, size_t sheet_length);

/*
 * A run judges a take while it is recorded: it is begun with a rule, is handed one cycle after another, and may be asked for the verdict
 * between any two. It is CITRONHELM_RUN bytes that the caller lends. They hold the rule and the cycles so far and no pointer: they may
 * be copied, stored, sent and gone on with elsewhere, and equal bytes are equal rules and cycles. How they do so stands in
 * docs/FORMATS.md, and is promised for this version of the library only.
 *
 * Bytes that beginning with some rule and then handing over some cycles never leaves are no state of a run: another number of bytes
 * than CITRONHELM_RUN, or bytes with a change that no calls make. citronhelm_run_cycle and citronhelm_run_verdict refuse them with 4
 * before anything else.
 */

/*
 * Begins a run with a rule: writes the state with no cycle and answers its length, CITRONHELM_RUN. Refusals behind the rule's own: 10.
 */
uint64_t citronhelm_run_begin(const uint8_t *rule, size_t rule_length, uint8_t *run, size_t run_length);

/*
 * Hands the next cycle to a run: its digits, the bytes '0' and '1', signal 1 first. Answers 0, and the run has one cycle more. Refused in
 * this order with 4 (no state of a run), 2 (another byte than '0' or '1'), 7 (another number of digits than signals), 11 (256 cycles
 * already): it is then no cycle, and the run goes on as it was.
 */
uint64_t citronhelm_run_cycle(uint8_t *run, size_t run_length, const uint8_t *digits, size_t digits_length);

/*
 * The verdict on the cycles so far: what citronhelm_judge_open answers for the rule and the take file of these cycles (CITRONHELM_KEPT,
 * CITRONHELM_BROKEN or CITRONHELM_OPEN). The run goes on as if nobody had asked. Refused with 4: no state of a run, or no cycle yet.
 */
uint64_t citronhelm_run_verdict(const uint8_t *run, size_t run_length);

/*
 * Writes a rule's monitors as a circuit, an ASCII AIGER file (docs/CIRCUIT.md says which gates and literals it has). Its inputs are the
 * signals, then each normal-form row's activator; there is one latch for each row, its pending one cycle earlier; its outputs are failed,
 * then accept, then pending, each by row. Answers its length; at most CITRONHELM_MOST_CIRCUIT bytes. Refusals behind the rule's own: 10.
 *
 * Simulated from latches at '0', its outputs are in each cycle the digits that citronhelm_step gives from a fresh start.
 */
uint64_t citronhelm_circuit(const uint8_t *rule, size_t rule_length, uint8_t *output, size_t output_length);

/*
 * One cycle of the circuit in an ASCII AIGER file. Inputs and latches are digits, the bytes '0' and '1', in the order of the file. Writes
 * the digits of the outputs, then of the next latches, and answers their number, which is that of outputs and latches together, at most
 * CITRONHELM_MOST_SIMULATE.
 *
 * The file has no symbols and no comments, numbers of at most five digits without leading zeros, a maximum index that is the number of
 * inputs, latches and gates together, and gates whose operands have lower literals; in whatever order its literals and its gates are.
 * Refusals behind its own (1 and 2, file 1): 2 (another byte than '0' or '1'), 7 (number of inputs), 9 (number of latches), 10.
 */
uint64_t citronhelm_simulate(
    const uint8_t *circuit, size_t circuit_length, const uint8_t *inputs, size_t inputs_length, const uint8_t *latches,
    size_t latches_length, uint8_t *output, size_t output_length);

#ifdef __cplusplus
}
#endif

#endif
