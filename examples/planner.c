/* A planner's question: at which gates of a circuit does a rule match, and with which mask? The circuit is 5 * (4 * (2 * 3)), the rule leads from
 * ((v * w) * y) * z to (v * w) * (y * z). Prints what each gate gets, and the sites that were found as a text for napspruce_listing.
 *
 *   tools/library && cc -Iinclude examples/planner.c target/staticlib/libnapspruce.a -o target/planner && target/planner
 */
#include <stdio.h>

#include "napspruce.h"

#define COUNT(array) (sizeof(array) / sizeof *(array))
#define GATES 3
#define LIMIT 1000 /* ways that a question may cost */

static const uint32_t circuit[] = {
    4, GATES, 1, /* inputs 2 to 5, gates 6 to 8, one output */
    2, 2, 3,     /* 6 = 2 * 3 */
    2, 4, 6,     /* 7 = 4 * 6 */
    2, 5, 7,     /* 8 = 5 * 7 */
    3, 8, 0,     /* the output is 8 */
};

static const uint32_t rules[] = {
    1, 0, 0,                            /* one rule */
    4, 3, 3,                            /* holes 2 to 5, gates 6 to 8 on the left, 6 to 8 on the right */
    2, 2, 3, 2, 6, 4, 2, 7, 5,          /* ((2 * 3) * 4) * 5 */
    2, 2, 3, 2, 4, 5, 2, 6, 7, 3, 8, 0, /* (2 * 3) * (4 * 5) */
};

int main(void)
{
    uint32_t sites[3 * (1 + GATES)] = {0};
    for (uint32_t gate = 6; gate < 6 + GATES; gate++) {
        uint64_t r = napspruce_find(circuit, COUNT(circuit), rules, COUNT(rules), 1, gate, LIMIT);
        if (NAPSPRUCE_IS_REFUSAL(r)) {
            fprintf(stderr, "refused: %u, table %u\n", NAPSPRUCE_REFUSAL_NUMBER(r), NAPSPRUCE_REFUSAL_TABLE(r));
            return 1;
        }
        printf("gate %u: outcome %u, mask %u, %u ways\n", (unsigned)gate, (unsigned)NAPSPRUCE_OUTCOME(r), (unsigned)NAPSPRUCE_MASK(r),
               (unsigned)NAPSPRUCE_WAYS(r));
        if (NAPSPRUCE_OUTCOME(r) == NAPSPRUCE_MASK_FOUND) {
            uint32_t *site = sites + 3 * ++sites[0];
            site[0] = 1;
            site[1] = gate;
            site[2] = NAPSPRUCE_MASK(r);
        }
    }

    uint8_t text[19 * (1 + GATES)];
    size_t lines = 1 + sites[0];
    if (napspruce_write(sites, 3 * lines, text, sizeof text) != 0)
        return 1;
    fwrite(text, 1, 19 * lines, stdout);
    return 0;
}
