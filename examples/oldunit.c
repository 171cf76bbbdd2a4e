/* What an old unit without the fused step costs an office, on the factor of examples/diameter.c: cc -Iinclude examples/oldunit.c target/staticlib/libexports.a -o target/oldunit */
#include <stdio.h>
#include "gusnalip.h"

int main(void)
{
    const unsigned long first = 1ul << 23, all = 1ul << 23;
    uint64_t factor[GUSNALIP_FACTOR_WORDS], tally[GUSNALIP_TALLY_WORDS];
    unsigned long x, right = 0, wrong = 0, open = 0;
    uint32_t answer;

    /* 1/pi, known between two ends (README: writing a frame). */
    answer = gusnalip_set_up(GUSNALIP_PLUS, 24, -2, 0x517CC1B727220A94, 0x517CC1B727220A95, factor, GUSNALIP_FACTOR_WORDS);
    if (answer != GUSNALIP_ACCEPTED)
        return printf("the factor is refused with %u\n", answer), 1;
    /* One call takes 65,536 significands; tallies of adjoining ranges add up. */
    for (x = first; x < first + all; x += GUSNALIP_TALLY_LONGEST) {
        answer = gusnalip_tally(factor, GUSNALIP_FACTOR_WORDS, x, x + GUSNALIP_TALLY_LONGEST - 1, tally, GUSNALIP_TALLY_WORDS);
        if (answer != GUSNALIP_ACCEPTED)
            return printf("the tally is refused with %u\n", answer), 1;
        right += tally[0];
        wrong += tally[1];
        open += tally[2];
    }
    printf("1/pi: of %lu significands %lu right, %lu wrong, %lu open on a one-step unit\n", all, right, wrong, open);
    return 0;
}
