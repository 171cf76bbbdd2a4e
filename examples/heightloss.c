/* A measured height in metres to the height that a leaning stem loses, by a factor below zero: cc -Iinclude examples/heightloss.c target/staticlib/libexports.a -o target/heightloss */
#include <stdio.h>
#include <stdlib.h>
#include <string.h>
#include "gusnalip.h"

int main(int argc, char **argv)
{
    uint64_t factor[GUSNALIP_FACTOR_WORDS];
    char *end = "";
    float height = argc > 1 ? strtof(argv[1], &end) : 25.0f, loss;
    uint32_t reading, product[GUSNALIP_READING_WORDS], answer;

    if (*end || (argc > 1 && end == argv[1]))
        return printf("%s is no number\n", argv[1]), 1;
    /* -0.012, that is 1.2 cm lost for each metre: 0.012 * 2^7 = 1.536 lies between the two ends (README: writing a frame). */
    answer = gusnalip_set_up(GUSNALIP_MINUS, 24, -7, 0x624DD2F1A9FBE76C, 0x624DD2F1A9FBE76D, factor, GUSNALIP_FACTOR_WORDS);
    if (answer != GUSNALIP_ACCEPTED)
        return printf("the factor is refused with %u\n", answer), 1;
    memcpy(&reading, &height, sizeof reading);
    answer = gusnalip_read(factor, GUSNALIP_FACTOR_WORDS, reading, product, GUSNALIP_READING_WORDS);
    if (answer > GUSNALIP_WRONG)
        return printf("the reading is refused with %u\n", answer), 1;
    memcpy(&loss, &product[0], sizeof loss);
    printf("%.9g m measured, %.9g m height loss, %s, last rounding %s\n", height, loss,
           answer == GUSNALIP_RIGHT ? "right" : answer == GUSNALIP_OPEN ? "open" : "wrong",
           product[1] == GUSNALIP_BELOW ? "down" : product[1] == GUSNALIP_ABOVE ? "up" : "exact");
    return 0;
}
