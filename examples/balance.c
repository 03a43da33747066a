/* Tries every call on a circuit, ((2 * 3) * 4) * 5 of four inputs, and the rule from ((v * w) * y) * z to (v * w) * (y * z) at its last gate:
 * by tables, then by texts; and then with an input that arrives at a level.
 *
 *   tools/library && cc -Iinclude examples/balance.c target/staticlib/libnapspruce.a -o target/balance && target/balance
 */
#include <stdio.h>
#include <stdlib.h>
#include <string.h>

#include "napspruce.h"

#define COUNT(array) (sizeof(array) / sizeof *(array))

static const uint32_t circuit[] = {
    4, 3, 1, /* inputs 2 to 5, gates 6 to 8, one output */
    2, 2, 3, /* 6 = 2 * 3 */
    2, 6, 4, /* 7 = 6 * 4 */
    2, 7, 5, /* 8 = 7 * 5 */
    3, 8, 0, /* the output is 8 */
};

static const uint32_t rules[] = {
    1, 0, 0,                            /* one rule */
    4, 3, 3,                            /* holes 2 to 5, gates 6 to 8 on the left, 6 to 8 on the right */
    2, 2, 3, 2, 6, 4, 2, 7, 5,          /* ((2 * 3) * 4) * 5 */
    2, 2, 3, 2, 4, 5, 2, 6, 7, 3, 8, 0, /* (2 * 3) * (4 * 5) */
};

static const uint32_t sites[] = {
    1, 0, 0, /* one site */
    1, 8, 0, /* rule 1 at gate 8, no operands crossed */
};

/* Gives a call's result, or ends the program with the refusal. */
static uint64_t accepted(const char *call, uint64_t result)
{
    if (NAPSPRUCE_IS_REFUSAL(result)) {
        fprintf(stderr, "%s: refused %u %u\n", call, NAPSPRUCE_REFUSAL_NUMBER(result), NAPSPRUCE_REFUSAL_TABLE(result));
        exit(1);
    }
    return result;
}

static void expect(const char *what, int holds)
{
    if (!holds) {
        fprintf(stderr, "%s: not as expected\n", what);
        exit(1);
    }
}

/* Writes a table as a text, and gives its length. */
static size_t write_text(const uint32_t *table, size_t count, uint8_t *text, size_t room)
{
    accepted("write", napspruce_write(table, count, text, room));
    return 19 * (count / 3);
}

/* How many numbers the rewritten circuit's table has: only its gates may be more or fewer than those of the circuit handed over. */
static size_t numbers_of(const uint32_t *rewritten, const uint32_t *given, size_t given_count)
{
    return given_count - 3 * given[1] + 3 * rewritten[1];
}

/* Both circuits give the same outputs on all inputs. */
static void compare(const uint32_t *rewritten, size_t count)
{
    for (unsigned bits = 0; bits < 16; bits++) {
        uint8_t inputs[4], before[NAPSPRUCE_OUTPUTS], after[NAPSPRUCE_OUTPUTS];
        for (unsigned i = 0; i < 4; i++)
            inputs[i] = bits >> i & 1;
        uint64_t outputs = accepted("evaluate", napspruce_evaluate(circuit, COUNT(circuit), inputs, 4, before, sizeof before));
        expect("outputs", outputs == 1 && before[0] == (bits == 15));
        expect("outputs again", outputs == accepted("evaluate", napspruce_evaluate(rewritten, count, inputs, 4, after, sizeof after)));
        expect("rewritten circuit", memcmp(before, after, outputs) == 0);
    }
}

/* The rule matches at the last gate as it is written, which takes a trial a left gate; examples/planner.c has a search that takes more. */
static void find(void)
{
    uint64_t r = accepted("find", napspruce_find(circuit, COUNT(circuit), rules, COUNT(rules), 1, 8, 3));
    expect("mask", NAPSPRUCE_OUTCOME(r) == NAPSPRUCE_MASK_FOUND && NAPSPRUCE_MASK(r) == 0);
    expect("three ways", NAPSPRUCE_WAYS(r) == 3);
    r = accepted("find", napspruce_find(circuit, COUNT(circuit), rules, COUNT(rules), 1, 8, 2));
    expect("two ways are spent", NAPSPRUCE_OUTCOME(r) == NAPSPRUCE_SPENT && NAPSPRUCE_WAYS(r) == 2);
    r = accepted("find", napspruce_find(circuit, COUNT(circuit), rules, COUNT(rules), 1, 7, 65535));
    expect("no mask at gate 7", NAPSPRUCE_OUTCOME(r) == NAPSPRUCE_NO_MASK);
    expect("no way is refused with 12", napspruce_find(circuit, COUNT(circuit), rules, COUNT(rules), 1, 8, 0) == 1000120);
}

/* The circuit for a machine of three registers; it needs so many, and uses no others on a larger machine. It has one program. */
static void translate(const uint32_t *table, size_t count)
{
    static const uint32_t only[] = {4, 0, 2, 0, 4, 1, 3, 0, 2, 1, 0, 1, 4, 0, 4, 0, 4, 2, 5, 0, 2, 2, 0, 2, 2, 2, 1, 2, 3, 2, 0, 0};
    static const uint32_t wider[] = {4, 4, 1, 2, 2, 3, 2, 4, 5, 1, 2, 3, 2, 6, 7, 3, 9, 0}; /* 8 = 2 XOR 3, which nothing uses */
    static uint32_t program[NAPSPRUCE_PROGRAM], larger[NAPSPRUCE_PROGRAM];
    uint64_t r = accepted("translate", napspruce_translate(table, count, 3, program, COUNT(program)));
    expect("need", NAPSPRUCE_NEED(r) == 3);
    expect("four loads, three operations, an emit", NAPSPRUCE_INSTRUCTIONS(r) == 8);
    expect("the one program of this circuit", memcmp(program, only, sizeof only) == 0);
    expect("the same numbers at the largest limit", napspruce_translate(table, count, 1024, larger, COUNT(larger)) == r);
    expect("and the same program", memcmp(program, larger, sizeof program) == 0);
    memset(larger, 0, sizeof larger);
    expect("the same with a gate that no output reaches", napspruce_translate(wider, COUNT(wider), 3, larger, COUNT(larger)) == r);
    expect("number by number", memcmp(program, larger, 4 * NAPSPRUCE_INSTRUCTIONS(r) * sizeof *program) == 0);
    expect("two registers are refused with 10", napspruce_translate(table, count, 2, program, COUNT(program)) == 1000100);
}

/* The same from texts to a text. The numbers read from the listing are those of the circuit, and then what else was told. */
static void list(const uint32_t *rewritten, size_t count, const uint32_t *told, size_t told_count)
{
    static uint8_t texts[3][19 * 16], listing[NAPSPRUCE_LISTING];
    static uint32_t numbers[NAPSPRUCE_LISTING / 19 * 3];
    size_t circuit_len = write_text(circuit, COUNT(circuit), texts[0], sizeof texts[0]);
    size_t rules_len = write_text(rules, COUNT(rules), texts[1], sizeof texts[1]);
    size_t sites_len = write_text(sites, COUNT(sites), texts[2], sizeof texts[2]);
    uint64_t length = accepted("listing", napspruce_listing(texts[0], circuit_len, texts[1], rules_len, texts[2], sites_len,
                                                            listing, sizeof listing));
    accepted("read", napspruce_read(listing, length, numbers, COUNT(numbers)));
    expect("lines", length / 19 * 3 == count + told_count);
    expect("circuit", memcmp(numbers, rewritten, count * sizeof *numbers) == 0);
    expect("pairs, counts and verdict", memcmp(numbers + count, told, told_count * sizeof *numbers) == 0);
    fwrite(listing, 1, length, stdout);
}

/* The same circuit, its input 2 arriving at level 3: depths begin there, and the rewritten circuit has the starting line as well. */
static void start_at_level(void)
{
    static uint32_t result[NAPSPRUCE_TABLE], work[NAPSPRUCE_TABLE];
    static uint8_t verdicts[NAPSPRUCE_VERDICTS];
    uint32_t late[COUNT(circuit) + 3] = {4, 3, 1, 4, 2, 3}; /* the head, and the starting line of input 2 */
    memcpy(late + 6, circuit + 3, sizeof circuit - 3 * sizeof *circuit);

    uint64_t pair = accepted("measure", napspruce_measure(late, COUNT(late)));
    expect("three ANDs above level 3", NAPSPRUCE_DEPTH(pair) == 6 && NAPSPRUCE_CRITICAL(pair) == 3);
    uint64_t r = accepted("rewrite", napspruce_rewrite(late, COUNT(late), rules, COUNT(rules), sites, COUNT(sites),
                                                       result, COUNT(result), work, COUNT(work), verdicts, COUNT(verdicts)));
    expect("two ANDs above level 3", NAPSPRUCE_NEW_DEPTH(r) == 5 && NAPSPRUCE_NEW_CRITICAL(r) == 2 && verdicts[0] == 0);
    expect("the starting line stays", memcmp(result + 3, late + 3, 3 * sizeof *late) == 0);
    pair = accepted("measure", napspruce_measure(result, numbers_of(result, late, COUNT(late))));
    expect("new pair", NAPSPRUCE_DEPTH(pair) == 5 && NAPSPRUCE_CRITICAL(pair) == 2);

    late[5] = 256;
    expect("a level above 255 is refused with 11, table 1", napspruce_measure(late, COUNT(late)) == 1000111);
    late[5] = 3;
    late[4] = 6;
    expect("a gate's reference is refused with 11, table 1", napspruce_measure(late, COUNT(late)) == 1000111);
}

int main(void)
{
    static uint32_t result[NAPSPRUCE_TABLE], work[NAPSPRUCE_TABLE];
    static uint8_t verdicts[NAPSPRUCE_VERDICTS];

    uint64_t pair = accepted("measure", napspruce_measure(circuit, COUNT(circuit)));
    expect("judge", accepted("judge", napspruce_judge(rules, COUNT(rules), 1)) == 0);
    expect("match", accepted("match", napspruce_match(circuit, COUNT(circuit), rules, COUNT(rules), 1, 8, 0)) == 0);
    find();

    uint64_t r = accepted("rewrite", napspruce_rewrite(circuit, COUNT(circuit), rules, COUNT(rules), sites, COUNT(sites),
                                                       result, COUNT(result), work, COUNT(work), verdicts, COUNT(verdicts)));
    size_t count = numbers_of(result, circuit, COUNT(circuit));
    expect("old pair", NAPSPRUCE_OLD_DEPTH(r) == NAPSPRUCE_DEPTH(pair) && NAPSPRUCE_OLD_CRITICAL(r) == NAPSPRUCE_CRITICAL(pair));
    compare(result, count);
    translate(result, count);

    const uint32_t told[] = {
        5, NAPSPRUCE_OLD_DEPTH(r), NAPSPRUCE_OLD_CRITICAL(r),
        6, NAPSPRUCE_NEW_DEPTH(r), NAPSPRUCE_NEW_CRITICAL(r),
        7, sites[0], NAPSPRUCE_KEPT(r),
        8, 1, verdicts[0],
    };
    list(result, count, told, COUNT(told));
    start_at_level();

    uint64_t refusal = napspruce_measure(circuit, COUNT(circuit) - 3);
    expect("a line less is refused with 5, table 1", NAPSPRUCE_IS_REFUSAL(refusal) && refusal == 1000051);
    return 0;
}
