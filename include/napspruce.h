/* Napspruce: a proved depth rewriter for circuits of AND and XOR gates.
 *
 * A slice is an aligned pointer and a count of the elements behind it: bytes of a text, numbers of a table. A count of 0 may come with any pointer,
 * NULL too. A lent buffer, which is one that is not const, must overlap no other slice of the same call. Nothing is asked of the contents: each
 * call tests what it relies on, takes no memory but the stack (208 KB for a listing, the largest), and keeps nothing between calls.
 *
 * A text is lines of 19 bytes: three numbers from 0 to 999,999, each right-justified in six columns with blanks before it and no leading zero, and
 * byte 10. A table holds the same numbers, three a line. README.md, Files, says what the lines of circuits, rules and sites are.
 *
 * Right after its head a circuit may have starting lines, (4, input reference, level), in ascending reference, for inputs that arrive at a level
 * from 1 to 255; any other input starts at 0. All lines there that begin with 4 are starting lines, whatever else is in them; the head does not
 * count them. An input's starting level is its depth, and the level that a program loads it at.
 *
 * Each call gives one number. It is a refusal, which leaves every lent buffer as it was, or it holds the results, which the macros take out;
 * then a buffer has its results in front, and beyond them what it held before. A refusal is 1,000,000 + 10 x number + table. Its number:
 *
 *    1  a text is empty or not a multiple of 19 bytes, a table empty or not a multiple of 3 numbers; or the evaluator's input bytes are not
 *       as many as the inputs
 *    2  a lent buffer is shorter than needed
 *    3  a line is not written as above, or a number to be written exceeds 999,999
 *    4  a number of a head is outside its limits
 *    5  there are more or fewer lines than the heads say, beside a circuit's starting lines
 *    6  a gate's kind is not 1 (XOR) or 2 (AND), or a closing line is not 3, reference, 0
 *    7  a reference is not below its gate, or a closing one is beyond its side or circuit
 *    8  a hole, or a left gate but the last, is no operand of a later left gate
 *    9  the register limit is not 1 to 1,024
 *   10  the need, which is the most values held at once, exceeds the limit
 *   11  a starting line's reference is not an input or not above that of the line before, or its level is not 1 to 255; tested right after 5
 *   12  the limit of ways is not 1 to 65,535
 *
 * and its table: 1 circuit, 2 rules, 3 sites, or 0 where the fault lies in none of these: 2, 9, 10, 12, the evaluator's bytes, and a text or table
 * read or written by itself.
 */
#ifndef NAPSPRUCE_H
#define NAPSPRUCE_H

#include <stddef.h>
#include <stdint.h>

/* How many elements the lent buffers have at least: numbers of a circuit's table, verdicts, output bytes, numbers of a program, bytes of a
 * listing. */
#define NAPSPRUCE_TABLE 8451
#define NAPSPRUCE_VERDICTS 512
#define NAPSPRUCE_OUTPUTS 256
#define NAPSPRUCE_PROGRAM 11272
#define NAPSPRUCE_LISTING 63308

/* Whether a call was refused, and why; each takes a call's result, a uint64_t. */
#define NAPSPRUCE_IS_REFUSAL(r) ((r) / 1000 == 1000)
#define NAPSPRUCE_REFUSAL_NUMBER(r) ((unsigned)((r) % 1000 / 10))
#define NAPSPRUCE_REFUSAL_TABLE(r) ((unsigned)((r) % 10))

/* The results of napspruce_measure. */
#define NAPSPRUCE_DEPTH(r) ((uint32_t)((r) >> 32))
#define NAPSPRUCE_CRITICAL(r) ((uint32_t)(r))

/* The results of napspruce_find: the outcome, which is NAPSPRUCE_MASK_FOUND, a verdict from 1 to 3, NAPSPRUCE_NO_MASK or NAPSPRUCE_SPENT; the
 * mask; and the ways tried. */
#define NAPSPRUCE_OUTCOME(r) ((uint32_t)((r) >> 16 & 65535))
#define NAPSPRUCE_MASK(r) ((uint32_t)((r) & 65535))
#define NAPSPRUCE_WAYS(r) ((uint32_t)((r) >> 32))

#define NAPSPRUCE_MASK_FOUND 0
#define NAPSPRUCE_NO_MASK 4
#define NAPSPRUCE_SPENT 5

/* The results of napspruce_rewrite. */
#define NAPSPRUCE_OLD_DEPTH(r) ((uint32_t)((r) >> 48))
#define NAPSPRUCE_OLD_CRITICAL(r) ((uint32_t)((r) >> 36 & 4095))
#define NAPSPRUCE_NEW_DEPTH(r) ((uint32_t)((r) >> 24 & 4095))
#define NAPSPRUCE_NEW_CRITICAL(r) ((uint32_t)((r) >> 12 & 4095))
#define NAPSPRUCE_KEPT(r) ((uint32_t)((r) & 4095))

/* The results of napspruce_translate. */
#define NAPSPRUCE_NEED(r) ((uint32_t)((r) >> 32))
#define NAPSPRUCE_INSTRUCTIONS(r) ((uint32_t)(r))

#ifdef __cplusplus
extern "C" {
#endif

/* Reads a text into `table`, of 3 numbers a line at least. Gives 0; the lines are text_len / 19.
 * Refusals, in the order tested: 1, 3, 2, all with table 0. */
uint64_t napspruce_read(const uint8_t *text, size_t text_len, uint32_t *table, size_t table_len);

/* Writes a table into `text`, of 19 bytes a line at least. Gives 0; the lines are table_len / 3.
 * Refusals: 1, 3, 2, all with table 0. */
uint64_t napspruce_write(const uint32_t *table, size_t table_len, uint8_t *text, size_t text_len);

/* Evaluates a circuit on input bytes, one an input (0 is 0, any other value 1), into `outputs`, one byte, 0 or 1, an output;
 * NAPSPRUCE_OUTPUTS bytes at least. Gives the number of outputs.
 * Refusals: 1 of the circuit; 2; 4, 5, 11, 6, 7 of the circuit; 1 with table 0, for the input bytes. */
uint64_t napspruce_evaluate(const uint32_t *circuit, size_t circuit_len, const uint8_t *inputs, size_t inputs_len,
                            uint8_t *outputs, size_t outputs_len);

/* Gives the multiplicative depth D of a circuit, up to 2,303, and its critical count N: the number of live AND gates whose depth, with the most
 * AND gates that lie above them on a path to an output, makes D. An AND that has a constant, reference 0 or 1, on either side counts nowhere: it is
 * as deep as an XOR would be.
 * Refusals: 1, 4, 5, 11, 6, 7 of the circuit. */
uint64_t napspruce_measure(const uint32_t *circuit, size_t circuit_len);

/* Judges a rule by its number, from 1. Gives 1 if there is no such rule, 2 if it is not sound, that is if its sides differ for some
 * bits of its holes (all 1,024 cases are judged where there are ten holes, which is the most), else 0.
 * Refusals: 1, 4 to 8 of the rules. */
uint64_t napspruce_judge(const uint32_t *rules, size_t rules_len, uint32_t rule);

/* Matches a rule at a gate of the trimmed circuit, with the operands of left gate i, the first being 0, crossed where bit i of the mask, worth
 * 2 to the power i, is 1. Gives 1 if there is no such rule, 2 if it is not sound, 3 if the reference is not a gate, 4 if there is no match or
 * the mask has a bit beyond the left gates, else 0.
 * Refusals: 1 of the circuit, 1 of the rules; 4, 5, 11, 6, 7 of the circuit; 4 to 8 of the rules. */
uint64_t napspruce_match(const uint32_t *circuit, size_t circuit_len, const uint32_t *rules, size_t rules_len,
                         uint32_t rule, uint32_t gate, uint32_t mask);

/* Looks for the mask by which a rule matches at a gate of the trimmed circuit. Left gates are tried from the last to the first, each as it is
 * written, then crosswise; what is left of the rule is tried from there, if that gate's part of the match holds. Each such trial is one way,
 * also one that fails, and the search ends at its first match. `limit` is the most ways that it may have, from 1 to 65,535; a rule of n left
 * gates takes 2 to the power n + 1, less 2, at most, so that 65,535 is always enough. Gives one of
 *   NAPSPRUCE_MASK_FOUND, the smallest mask that matches, and the ways tried: napspruce_match gives 0 for that mask, 4 for every smaller one;
 *   1, 2 or 3 as napspruce_match does, whatever the mask, with mask 0 and 0 ways;
 *   NAPSPRUCE_NO_MASK, mask 0 and the ways tried: napspruce_match gives 4 for every mask;
 *   NAPSPRUCE_SPENT, mask 0 and the limit: the search has more ways than that.
 * Refusals: 1 of the circuit, 1 of the rules; 4, 5, 11, 6, 7 of the circuit; 4 to 8 of the rules; 12. */
uint64_t napspruce_find(const uint32_t *circuit, size_t circuit_len, const uint32_t *rules, size_t rules_len,
                        uint32_t rule, uint32_t gate, uint32_t limit);

/* Trims the circuit and rewrites it at the sites in order. Its table is then in `result`, with the numbers of its gates and outputs in
 * result[1] and result[2], and with the starting lines of `circuit` right after the head: only its gates may be more or fewer than those of
 * `circuit`, so that it has circuit_len - 3 x circuit[1] + 3 x result[1] numbers. And a byte a site is in `verdicts`: 1 to 4 as above, 5 more than
 * 2,048 gates with the right gates in the place of the site's, before what is dead then is trimmed, 6 the pair (D, N) would not be lower, 0 kept.
 * `result` and `work` have NAPSPRUCE_TABLE numbers at least, `verdicts` NAPSPRUCE_VERDICTS bytes; what `work` holds after a success is not told.
 * Gives the pair of the circuit handed over, the pair of the one handed back, and how many sites were kept.
 * Refusals: 1 of the circuit, the rules, the sites; 2; 4, 5, 11, 6, 7 of the circuit; 4 to 8 of the rules; 4 and 5 of the sites. */
uint64_t napspruce_rewrite(const uint32_t *circuit, size_t circuit_len, const uint32_t *rules, size_t rules_len,
                           const uint32_t *sites, size_t sites_len, uint32_t *result, size_t result_len,
                           uint32_t *work, size_t work_len, uint8_t *verdicts, size_t verdicts_len);

/* Trims the circuit and translates it to a program for a machine of `limit` registers, into `program`, of NAPSPRUCE_PROGRAM numbers at least, four
 * an instruction: (4, d, reference, 0) loads a constant or input into register d, an input at its starting level; (1, d, a, b) and (2, d, a, b) put
 * the XOR or AND of registers a and b into d, at the larger of their levels, AND one above it unless the last write into a or b was the load of a
 * constant; (3, a, 0, 0) emits register a. The highest level emitted is D. Gives the need and the number of instructions. Every limit that is not
 * below the need gives the same program: it writes exactly as many different registers as the need, and their numbers are all below the need, so
 * that memory for so many is enough. No program that does the same operations on the same references in the same order, loads no constant or input
 * again once an operation has used it, and emits the outputs' references only when all is loaded and computed gets by with fewer. A circuit has one
 * program: a holds the left operand, b the right; of two operands to be loaded the left one comes first, and what only outputs use is loaded in
 * their order; an operation frees the registers of operands that it is the last to use, the left one's first, and then its result takes one;
 * whatever is loaded or computed goes into the register that became free most recently and is still free, or else into the lowest that has held
 * nothing yet. So circuits that are equal when trimmed have equal programs. Two programs are equal if they have as many instructions and memcmp
 * finds no difference in these, 16 bytes each; what lies behind them in the buffers is no part of them.
 * Refusals: 1 of the circuit; 2; 4, 5, 11, 6, 7 of the circuit; 9; 10. */
uint64_t napspruce_translate(const uint32_t *circuit, size_t circuit_len, uint32_t limit, uint32_t *program, size_t program_len);

/* Rewrites as napspruce_rewrite does, from texts to a text: into `listing`, of NAPSPRUCE_LISTING bytes at least, the lines of the circuit handed
 * back, its starting lines among them; 5, old D, old N; 6, new D, new N; 7, sites, kept; and 8, site number, verdict for each site. Each text
 * is tested whole, whatever its length. Gives the listing's length.
 * Refusals: 1, then 3, of the circuit, the rules, the sites; 2; 4, 5, 11, 6, 7 of the circuit; 4 to 8 of the rules; 4 and 5 of the sites. */
uint64_t napspruce_listing(const uint8_t *circuit, size_t circuit_len, const uint8_t *rules, size_t rules_len,
                           const uint8_t *sites, size_t sites_len, uint8_t *listing, size_t listing_len);

#ifdef __cplusplus
}
#endif

#endif
