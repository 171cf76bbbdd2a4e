/* A crew's kit of factors, swept before it goes out; a number takes so many of them: cc -Iinclude examples/kit.c target/staticlib/libexports.a -o target/kit */
#include <stdio.h>
#include <stdlib.h>
#include "gusnalip.h"

int main(int argc, char **argv)
{
    static const struct {
        uint32_t minus, precision;
        int32_t scale;
        uint64_t lower, upper;
    } factors[] = {
        /* 1/pi, from a girth to a diameter; -0.012, a height loss (README: writing a frame). */
        {GUSNALIP_PLUS, 24, -2, 0x517CC1B727220A94, 0x517CC1B727220A95},
        {GUSNALIP_MINUS, 24, -7, 0x624DD2F1A9FBE76C, 0x624DD2F1A9FBE76D},
        /* The cosine of 8 degrees, from a distance along a slope to the distance on the map. */
        {GUSNALIP_PLUS, 24, -1, 0x7EC11AA4C251E64F, 0x7EC11AA4C251E650},
        /* A trainer's 23/18 at 4 bits. */
        {GUSNALIP_PLUS, 4, 0, 0x51C71C71C71C71C7, 0x51C71C71C71C71C8},
    };
    const int have = sizeof factors / sizeof factors[0];
    int number = argc > 1 ? atoi(argv[1]) : have, calls = 0, i;
    uint64_t kit[GUSNALIP_KIT_WORDS] = {0}, state[GUSNALIP_KIT_STATE_WORDS], counts[GUSNALIP_COUNT_WORDS], entries = 0;
    uint32_t list[2], answer;

    if (number > have)
        return printf("there are %d factors\n", have), 1;
    kit[0] = number;
    for (i = 0; i < number; i++) {
        answer = gusnalip_set_up(factors[i].minus, factors[i].precision, factors[i].scale, factors[i].lower, factors[i].upper,
                                 &kit[1 + i * GUSNALIP_FACTOR_WORDS], GUSNALIP_FACTOR_WORDS);
        if (answer != GUSNALIP_ACCEPTED)
            return printf("factor %d is refused with %u\n", i, answer), 1;
    }
    answer = gusnalip_new_kit_sweep(kit, GUSNALIP_KIT_WORDS, state, GUSNALIP_KIT_STATE_WORDS);
    if (answer != GUSNALIP_ACCEPTED)
        return printf("the kit is refused with %u\n", answer), 1;
    /* The list has room for one entry, and is emptied after every call. */
    do {
        answer = gusnalip_kit_sweep(state, GUSNALIP_KIT_STATE_WORDS, 1000, list, 2, 0, counts, GUSNALIP_COUNT_WORDS);
        if (answer != GUSNALIP_ACCEPTED)
            return printf("the call is refused with %u\n", answer), 1;
        calls++;
        if (counts[2]) {
            printf("place %u: significand %u %s\n", list[0], list[1] / 2, list[1] % 2 ? "open" : "wrong");
            entries++;
        }
        answer = gusnalip_kit_clean(state, GUSNALIP_KIT_STATE_WORDS, entries);
    } while (answer == GUSNALIP_UNFINISHED);
    printf("a kit of %d, swept in %d call%s: %s\n", number, calls, calls == 1 ? "" : "s", answer == GUSNALIP_CLEAN ? "clean" : "not clean");
    return 0;
}
