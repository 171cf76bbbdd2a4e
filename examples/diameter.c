/* A girth in metres to a diameter, as a handheld has it: cc -Iinclude examples/diameter.c target/staticlib/libexports.a -o target/diameter */
#include <stdio.h>
#include <stdlib.h>
#include <string.h>
#include "gusnalip.h"

int main(int argc, char **argv)
{
    uint64_t factor[GUSNALIP_FACTOR_WORDS];
    char *end = "";
    float girth = argc > 1 ? strtof(argv[1], &end) : 1.57f, diameter;
    uint32_t reading, product[GUSNALIP_READING_WORDS], answer;

    if (*end || (argc > 1 && end == argv[1]))
        return printf("%s is no number\n", argv[1]), 1;
    /* 1/pi, known between two ends (README: writing a frame). */
    answer = gusnalip_set_up(GUSNALIP_PLUS, 24, -2, 0x517CC1B727220A94, 0x517CC1B727220A95, factor, GUSNALIP_FACTOR_WORDS);
    if (answer != GUSNALIP_ACCEPTED)
        return printf("the factor is refused with %u\n", answer), 1;
    memcpy(&reading, &girth, sizeof reading);
    answer = gusnalip_read(factor, GUSNALIP_FACTOR_WORDS, reading, product, GUSNALIP_READING_WORDS);
    if (answer > GUSNALIP_WRONG)
        return printf("the reading is refused with %u\n", answer), 1;
    memcpy(&diameter, &product[0], sizeof diameter);
    printf("%.9g m girth, %.9g m diameter, %s, last rounding %s\n", girth, diameter,
           answer == GUSNALIP_RIGHT ? "right" : answer == GUSNALIP_OPEN ? "open" : "wrong",
           product[1] == GUSNALIP_BELOW ? "down" : product[1] == GUSNALIP_ABOVE ? "up" : "exact");
    return 0;
}
