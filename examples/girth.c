/* A diameter in metres back to the girth, by the factor of examples/diameter.c: cc -Iinclude examples/girth.c target/staticlib/libexports.a -o target/girth */
#include <stdio.h>
#include <stdlib.h>
#include <string.h>
#include "gusnalip.h"

int main(int argc, char **argv)
{
    uint64_t factor[GUSNALIP_FACTOR_WORDS];
    char *end = NULL;
    float diameter = argc > 1 ? strtof(argv[1], &end) : 0.5f, girth;
    uint32_t reading, quotient[GUSNALIP_READING_WORDS], answer;

    if (argc > 1 && (*end || end == argv[1]))
        return printf("%s is no number\n", argv[1]), 1;
    /* 1/pi, known between two ends (README: writing a frame). */
    answer = gusnalip_set_up(GUSNALIP_PLUS, 24, -2, 0x517CC1B727220A94, 0x517CC1B727220A95, factor, GUSNALIP_FACTOR_WORDS);
    if (answer != GUSNALIP_ACCEPTED)
        return printf("the factor is refused with %u\n", answer), 1;
    memcpy(&reading, &diameter, sizeof reading);
    answer = gusnalip_divide_reading(factor, GUSNALIP_FACTOR_WORDS, reading, quotient, GUSNALIP_READING_WORDS);
    if (answer != GUSNALIP_ACCEPTED)
        return printf("the reading is refused with %u\n", answer), 1;
    memcpy(&girth, &quotient[0], sizeof girth);
    printf("%.9g m diameter, %.9g m girth\n", diameter, girth);
    return 0;
}
