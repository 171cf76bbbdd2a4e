/* A caller of the engine, in C that is C++ too: the gate compiles it as both, and runs it. It says where an answer is not the one due, and ends with a status that is not 0. */
#include "gusnalip.h"
#include <stdio.h>

static int wrong = 0;

static void due(const char *what, uint64_t answer, uint64_t expected) {
    if (answer != expected) {
        printf("%s: %llx, and not %llx\n", what, (unsigned long long)answer, (unsigned long long)expected);
        wrong = 1;
    }
}

int main(void) {
    const uint64_t three_halves = (uint64_t)3 << 61;
    const uint64_t below_19_16 = 0x4BFFFC0000000000u;
    const uint64_t below_23_18 = 0x51C71C71C71C71C7u;
    const uint64_t below_4_3 = 0x5555555555555555u;
    const uint64_t below_4_over_pi = 0x517CC1B727220A94u;
    const uint64_t below_pi_over_2 = 0x6487ED5110B4611Au;
    const uint64_t last_end = 0x7FFFFFFFFFFFFFFFu;
    const uint64_t minus_one = 0xFFFFFFFFFFFFFFFFu;
    uint64_t factor[GUSNALIP_FACTOR_WORDS];
    uint64_t product[GUSNALIP_PRODUCT_WORDS];
    uint64_t quotient[GUSNALIP_QUOTIENT_WORDS];
    uint32_t reading[GUSNALIP_READING_WORDS];
    uint64_t tally[GUSNALIP_TALLY_WORDS];
    uint64_t state[GUSNALIP_STATE_WORDS];
    uint64_t counts[GUSNALIP_COUNT_WORDS];
    uint32_t list[2] = {7, 7};
    uint64_t kit[GUSNALIP_KIT_WORDS];
    uint64_t kit_state[GUSNALIP_KIT_STATE_WORDS];
    uint32_t entries[8] = {7, 7, 7, 7, 7, 7, 7, 7};
    int i;

    /* 3/2 at 4 bits, and at 24 for readings. */
    due("precision 3", gusnalip_set_up(GUSNALIP_PLUS, 3, 0, three_halves, three_halves, factor, GUSNALIP_FACTOR_WORDS), 11);
    due("3/2", gusnalip_set_up(GUSNALIP_PLUS, 4, 0, three_halves, three_halves, factor, GUSNALIP_FACTOR_WORDS), GUSNALIP_ACCEPTED);
    due("3/2 times 9", gusnalip_multiply(factor, GUSNALIP_FACTOR_WORDS, 9, product, GUSNALIP_PRODUCT_WORDS), GUSNALIP_RIGHT);
    due("its significand", product[0], 14);
    due("its binade", product[1], 0);
    due("its direction, a tie that went up", product[2], GUSNALIP_ABOVE);
    due("its sign", product[3], GUSNALIP_PLUS);
    due("no room", gusnalip_multiply(factor, GUSNALIP_FACTOR_WORDS, 14, product, GUSNALIP_PRODUCT_WORDS - 1), GUSNALIP_TOO_SHORT);
    factor[6] += (uint64_t)1 << 32;
    due("damage", gusnalip_multiply(factor, GUSNALIP_FACTOR_WORDS, 14, product, GUSNALIP_PRODUCT_WORDS), GUSNALIP_DAMAGED);
    due("the significand as it was", product[0], 14);
    due("the direction as it was", product[2], GUSNALIP_ABOVE);
    due("3/2 at 24 bits", gusnalip_set_up(GUSNALIP_PLUS, 24, -1, three_halves, three_halves, factor, GUSNALIP_FACTOR_WORDS), GUSNALIP_ACCEPTED);
    due("3/4 times 1", gusnalip_read(factor, GUSNALIP_FACTOR_WORDS, 0x3F800000, reading, GUSNALIP_READING_WORDS), GUSNALIP_RIGHT);
    due("its bits", reading[0], 0x3F400000);
    due("its direction", reading[1], GUSNALIP_EQUAL);
    due("3/4 times minus zero", gusnalip_read(factor, GUSNALIP_FACTOR_WORDS, 0x80000000, reading, GUSNALIP_READING_WORDS), GUSNALIP_RIGHT);
    due("its bits, the low part being zero", reading[0], 0x80000000);
    due("3/4 times plus zero", gusnalip_read(factor, GUSNALIP_FACTOR_WORDS, 0, reading, GUSNALIP_READING_WORDS), GUSNALIP_RIGHT);
    due("its bits, the low part being zero", reading[0], 0);

    /* Dividing: by 3/2 at 4 bits; by 2, the high part of the last fraction; by 3/4 at 24 bits, and by 1/pi: from the diameter 1/2 to the girth pi/2. */
    due("3/2 again", gusnalip_set_up(GUSNALIP_PLUS, 4, 0, three_halves, three_halves, factor, GUSNALIP_FACTOR_WORDS), GUSNALIP_ACCEPTED);
    due("15 by 3/2", gusnalip_divide(factor, GUSNALIP_FACTOR_WORDS, 15, quotient, GUSNALIP_QUOTIENT_WORDS), GUSNALIP_ACCEPTED);
    due("its significand", quotient[0], 10);
    due("its binade", quotient[1], 0);
    due("its direction", quotient[2], GUSNALIP_EQUAL);
    due("its sign", quotient[3], GUSNALIP_PLUS);
    due("14 by 3/2", gusnalip_divide(factor, GUSNALIP_FACTOR_WORDS, 14, quotient, GUSNALIP_QUOTIENT_WORDS), GUSNALIP_ACCEPTED);
    due("its significand", quotient[0], 9);
    due("its direction", quotient[2], GUSNALIP_BELOW);
    due("8 by 3/2", gusnalip_divide(factor, GUSNALIP_FACTOR_WORDS, 8, quotient, GUSNALIP_QUOTIENT_WORDS), GUSNALIP_ACCEPTED);
    due("its significand", quotient[0], 11);
    due("its binade", quotient[1], minus_one);
    due("its direction", quotient[2], GUSNALIP_ABOVE);
    due("no room", gusnalip_divide(factor, GUSNALIP_FACTOR_WORDS, 12, quotient, GUSNALIP_QUOTIENT_WORDS - 1), GUSNALIP_TOO_SHORT);
    due("16 by 3/2", gusnalip_divide(factor, GUSNALIP_FACTOR_WORDS, 16, quotient, GUSNALIP_QUOTIENT_WORDS), 17);
    due("a reading at 4 bits", gusnalip_divide_reading(factor, GUSNALIP_FACTOR_WORDS, 0x7F800000, reading, GUSNALIP_READING_WORDS), 20);
    factor[4] += 1;
    due("damage", gusnalip_divide(factor, GUSNALIP_FACTOR_WORDS, 16, quotient, GUSNALIP_QUOTIENT_WORDS), GUSNALIP_DAMAGED);
    due("the significand as it was", quotient[0], 11);
    due("the binade as it was", quotient[1], minus_one);
    due("the direction as it was", quotient[2], GUSNALIP_ABOVE);
    due("nearly 2", gusnalip_set_up(GUSNALIP_PLUS, 4, 0, last_end, last_end, factor, GUSNALIP_FACTOR_WORDS), GUSNALIP_ACCEPTED);
    due("9 by 2", gusnalip_divide(factor, GUSNALIP_FACTOR_WORDS, 9, quotient, GUSNALIP_QUOTIENT_WORDS), GUSNALIP_ACCEPTED);
    due("its significand", quotient[0], 9);
    due("its binade", quotient[1], minus_one);
    due("3/4", gusnalip_set_up(GUSNALIP_PLUS, 24, -1, three_halves, three_halves, factor, GUSNALIP_FACTOR_WORDS), GUSNALIP_ACCEPTED);
    due("1 by 3/4", gusnalip_divide_reading(factor, GUSNALIP_FACTOR_WORDS, 0x3F800000, reading, GUSNALIP_READING_WORDS), GUSNALIP_ACCEPTED);
    due("its bits", reading[0], 0x3FAAAAAB);
    due("its direction", reading[1], GUSNALIP_ABOVE);
    due("-1 by 3/4", gusnalip_divide_reading(factor, GUSNALIP_FACTOR_WORDS, 0xBF800000, reading, GUSNALIP_READING_WORDS), GUSNALIP_ACCEPTED);
    due("its bits", reading[0], 0xBFAAAAAB);
    due("its direction, mirrored", reading[1], GUSNALIP_BELOW);
    due("no room", gusnalip_divide_reading(factor, GUSNALIP_FACTOR_WORDS, 0, reading, GUSNALIP_READING_WORDS - 1), GUSNALIP_TOO_SHORT);
    due("the last reading by 3/4", gusnalip_divide_reading(factor, GUSNALIP_FACTOR_WORDS, 0x7F7FFFFF, reading, GUSNALIP_READING_WORDS), 23);
    due("infinity", gusnalip_divide_reading(factor, GUSNALIP_FACTOR_WORDS, 0x7F800000, reading, GUSNALIP_READING_WORDS), 21);
    due("a subnormal reading", gusnalip_divide_reading(factor, GUSNALIP_FACTOR_WORDS, 1, reading, GUSNALIP_READING_WORDS), 22);
    due("the bits as they were", reading[0], 0xBFAAAAAB);
    due("the direction as it was", reading[1], GUSNALIP_BELOW);
    due("minus zero by 3/4", gusnalip_divide_reading(factor, GUSNALIP_FACTOR_WORDS, 0x80000000, reading, GUSNALIP_READING_WORDS), GUSNALIP_ACCEPTED);
    due("its bits, the low part being zero", reading[0], 0x80000000);
    due("its direction, a zero", reading[1], GUSNALIP_EQUAL);
    due("plus zero by 3/4", gusnalip_divide_reading(factor, GUSNALIP_FACTOR_WORDS, 0, reading, GUSNALIP_READING_WORDS), GUSNALIP_ACCEPTED);
    due("its bits, the low part being zero", reading[0], 0);
    due("1/pi", gusnalip_set_up(GUSNALIP_PLUS, 24, -2, below_4_over_pi, below_4_over_pi + 1, factor, GUSNALIP_FACTOR_WORDS), GUSNALIP_ACCEPTED);
    due("1/2 by 1/pi", gusnalip_divide_reading(factor, GUSNALIP_FACTOR_WORDS, 0x3F000000, reading, GUSNALIP_READING_WORDS), GUSNALIP_ACCEPTED);
    due("its bits", reading[0], 0x3FC90FDB);
    due("its direction", reading[1], GUSNALIP_BELOW);
    factor[9] += (uint64_t)1 << 32;
    due("damage", gusnalip_divide_reading(factor, GUSNALIP_FACTOR_WORDS, 0x7F800000, reading, GUSNALIP_READING_WORDS), GUSNALIP_DAMAGED);

    /* The one-step device: 19/16 - 2^-20 at 4 bits, its high part being 9/8. 8 is right, 15 is wrong, and so are 4 of each in all. */
    due("19/16 - 2^-20 for one step", gusnalip_set_up(GUSNALIP_PLUS, 4, 0, below_19_16, below_19_16, factor, GUSNALIP_FACTOR_WORDS), GUSNALIP_ACCEPTED);
    due("8 in one step", gusnalip_multiply_once(factor, GUSNALIP_FACTOR_WORDS, 8, product, GUSNALIP_PRODUCT_WORDS), GUSNALIP_RIGHT);
    due("its significand", product[0], 9);
    due("its binade", product[1], 0);
    due("its direction", product[2], GUSNALIP_EQUAL);
    due("14 in one step", gusnalip_multiply_once(factor, GUSNALIP_FACTOR_WORDS, 14, product, GUSNALIP_PRODUCT_WORDS), GUSNALIP_RIGHT);
    due("its significand", product[0], 8);
    due("its binade", product[1], 1);
    due("its direction, carried into the next binade", product[2], GUSNALIP_ABOVE);
    due("15 in one step", gusnalip_multiply_once(factor, GUSNALIP_FACTOR_WORDS, 15, product, GUSNALIP_PRODUCT_WORDS), GUSNALIP_WRONG);
    due("its significand", product[0], 8);
    due("its binade", product[1], 1);
    due("its direction", product[2], GUSNALIP_BELOW);
    due("no room", gusnalip_multiply_once(factor, GUSNALIP_FACTOR_WORDS, 8, product, GUSNALIP_PRODUCT_WORDS - 1), GUSNALIP_TOO_SHORT);
    due("16 in one step", gusnalip_multiply_once(factor, GUSNALIP_FACTOR_WORDS, 16, product, GUSNALIP_PRODUCT_WORDS), 17);
    due("the significand as it was", product[0], 8);
    due("the direction as it was", product[2], GUSNALIP_BELOW);
    due("a reading at 4 bits", gusnalip_read_once(factor, GUSNALIP_FACTOR_WORDS, 0x7F800000, reading, GUSNALIP_READING_WORDS), 20);
    due("the tally of all", gusnalip_tally(factor, GUSNALIP_FACTOR_WORDS, 8, 15, tally, GUSNALIP_TALLY_WORDS), GUSNALIP_ACCEPTED);
    due("right ones", tally[0], 4);
    due("wrong ones", tally[1], 4);
    due("open ones", tally[2], 0);
    due("the tally of 8 alone", gusnalip_tally(factor, GUSNALIP_FACTOR_WORDS, 8, 8, tally, GUSNALIP_TALLY_WORDS), GUSNALIP_ACCEPTED);
    due("right ones", tally[0], 1);
    due("wrong ones", tally[1], 0);
    due("no room", gusnalip_tally(factor, GUSNALIP_FACTOR_WORDS, 8, 15, tally, 2), GUSNALIP_TOO_SHORT);
    due("a tally past the last", gusnalip_tally(factor, GUSNALIP_FACTOR_WORDS, 8, 16, tally, GUSNALIP_TALLY_WORDS), 17);
    due("a tally backwards", gusnalip_tally(factor, GUSNALIP_FACTOR_WORDS, 15, 8, tally, GUSNALIP_TALLY_WORDS), 17);
    due("the right ones as they were", tally[0], 1);
    factor[4] += 1;
    due("damage", gusnalip_tally(factor, GUSNALIP_FACTOR_WORDS, 15, 8, tally, GUSNALIP_TALLY_WORDS), GUSNALIP_DAMAGED);
    due("damage", gusnalip_multiply_once(factor, GUSNALIP_FACTOR_WORDS, 16, product, GUSNALIP_PRODUCT_WORDS), GUSNALIP_DAMAGED);
    due("23/18", gusnalip_set_up(GUSNALIP_PLUS, 4, 0, below_23_18, below_23_18 + 1, factor, GUSNALIP_FACTOR_WORDS), GUSNALIP_ACCEPTED);
    due("its tally", gusnalip_tally(factor, GUSNALIP_FACTOR_WORDS, 8, 15, tally, GUSNALIP_TALLY_WORDS), GUSNALIP_ACCEPTED);
    due("right ones", tally[0], 5);
    due("wrong ones", tally[1], 2);
    due("open ones", tally[2], 1);

    /* 1/pi for readings; one tally takes 65,536 significands, and not one more. */
    due("1/pi for one step", gusnalip_set_up(GUSNALIP_PLUS, 24, -2, below_4_over_pi, below_4_over_pi + 1, factor, GUSNALIP_FACTOR_WORDS), GUSNALIP_ACCEPTED);
    due("-1 in one step", gusnalip_read_once(factor, GUSNALIP_FACTOR_WORDS, 0xBF800000, reading, GUSNALIP_READING_WORDS), GUSNALIP_RIGHT);
    due("its bits", reading[0], 0xBEA2F983);
    due("its direction, the high part itself", reading[1], GUSNALIP_EQUAL);
    due("no room", gusnalip_read_once(factor, GUSNALIP_FACTOR_WORDS, 0, reading, GUSNALIP_READING_WORDS - 1), GUSNALIP_TOO_SHORT);
    due("infinity", gusnalip_read_once(factor, GUSNALIP_FACTOR_WORDS, 0x7F800000, reading, GUSNALIP_READING_WORDS), 21);
    due("a subnormal reading", gusnalip_read_once(factor, GUSNALIP_FACTOR_WORDS, 1, reading, GUSNALIP_READING_WORDS), 22);
    due("the least reading", gusnalip_read_once(factor, GUSNALIP_FACTOR_WORDS, 0x00800000, reading, GUSNALIP_READING_WORDS), 23);
    due("the bits as they were", reading[0], 0xBEA2F983);
    due("minus zero in one step", gusnalip_read_once(factor, GUSNALIP_FACTOR_WORDS, 0x80000000, reading, GUSNALIP_READING_WORDS), GUSNALIP_RIGHT);
    due("its bits, the low part being positive", reading[0], 0x80000000);
    due("plus zero in one step", gusnalip_read_once(factor, GUSNALIP_FACTOR_WORDS, 0, reading, GUSNALIP_READING_WORDS), GUSNALIP_RIGHT);
    due("its bits, the low part being positive", reading[0], 0);
    due("4,096", gusnalip_tally(factor, GUSNALIP_FACTOR_WORDS, 8388608, 8392703, tally, GUSNALIP_TALLY_WORDS), GUSNALIP_ACCEPTED);
    due("right ones", tally[0], 2331);
    due("wrong ones", tally[1], 1765);
    due("open ones", tally[2], 0);
    due("65,536", gusnalip_tally(factor, GUSNALIP_FACTOR_WORDS, 8388608, 8454143, tally, GUSNALIP_TALLY_WORDS), GUSNALIP_ACCEPTED);
    due("all of them", tally[0] + tally[1] + tally[2], GUSNALIP_TALLY_LONGEST);
    due("65,537", gusnalip_tally(factor, GUSNALIP_FACTOR_WORDS, 8388608, 8454144, tally, GUSNALIP_TALLY_WORDS), 41);
    due("more, from outside", gusnalip_tally(factor, GUSNALIP_FACTOR_WORDS, 8388607, 16777215, tally, GUSNALIP_TALLY_WORDS), 17);
    factor[9] += (uint64_t)1 << 32;
    due("damage", gusnalip_read_once(factor, GUSNALIP_FACTOR_WORDS, 0x7F800000, reading, GUSNALIP_READING_WORDS), GUSNALIP_DAMAGED);

    /* pi, whose low part is negative: a zero keeps its sign there too, where the sum of the two steps' zeros would lose it. */
    due("pi", gusnalip_set_up(GUSNALIP_PLUS, 24, 1, below_pi_over_2, below_pi_over_2 + 1, factor, GUSNALIP_FACTOR_WORDS), GUSNALIP_ACCEPTED);
    due("its low part is negative", factor[5] >> 63, 1);
    due("pi times minus zero", gusnalip_read(factor, GUSNALIP_FACTOR_WORDS, 0x80000000, reading, GUSNALIP_READING_WORDS), GUSNALIP_RIGHT);
    due("its bits, the low part being negative", reading[0], 0x80000000);
    due("pi times minus zero in one step", gusnalip_read_once(factor, GUSNALIP_FACTOR_WORDS, 0x80000000, reading, GUSNALIP_READING_WORDS), GUSNALIP_RIGHT);
    due("its bits, the low part being negative", reading[0], 0x80000000);
    due("minus zero by pi", gusnalip_divide_reading(factor, GUSNALIP_FACTOR_WORDS, 0x80000000, reading, GUSNALIP_READING_WORDS), GUSNALIP_ACCEPTED);
    due("its bits, the low part being negative", reading[0], 0x80000000);
    due("pi times plus zero", gusnalip_read(factor, GUSNALIP_FACTOR_WORDS, 0, reading, GUSNALIP_READING_WORDS), GUSNALIP_RIGHT);
    due("its bits, the low part being negative", reading[0], 0);
    due("pi times plus zero in one step", gusnalip_read_once(factor, GUSNALIP_FACTOR_WORDS, 0, reading, GUSNALIP_READING_WORDS), GUSNALIP_RIGHT);
    due("its bits, the low part being negative", reading[0], 0);
    due("plus zero by pi", gusnalip_divide_reading(factor, GUSNALIP_FACTOR_WORDS, 0, reading, GUSNALIP_READING_WORDS), GUSNALIP_ACCEPTED);
    due("its bits, the low part being negative", reading[0], 0);

    /* On which side the last rounding fell: 4/3 at 4 bits, and 1.57 times 1/pi, which comes down in two steps and goes up to the same in one. */
    due("4/3", gusnalip_set_up(GUSNALIP_PLUS, 4, 0, below_4_3, below_4_3 + 1, factor, GUSNALIP_FACTOR_WORDS), GUSNALIP_ACCEPTED);
    due("4/3 times 8", gusnalip_multiply(factor, GUSNALIP_FACTOR_WORDS, 8, product, GUSNALIP_PRODUCT_WORDS), GUSNALIP_RIGHT);
    due("its direction", product[2], GUSNALIP_ABOVE);
    due("4/3 times 9", gusnalip_multiply(factor, GUSNALIP_FACTOR_WORDS, 9, product, GUSNALIP_PRODUCT_WORDS), GUSNALIP_RIGHT);
    due("its direction", product[2], GUSNALIP_EQUAL);
    due("4/3 times 10", gusnalip_multiply(factor, GUSNALIP_FACTOR_WORDS, 10, product, GUSNALIP_PRODUCT_WORDS), GUSNALIP_RIGHT);
    due("its direction", product[2], GUSNALIP_BELOW);
    due("1/pi for directions", gusnalip_set_up(GUSNALIP_PLUS, 24, -2, below_4_over_pi, below_4_over_pi + 1, factor, GUSNALIP_FACTOR_WORDS), GUSNALIP_ACCEPTED);
    due("1.57", gusnalip_read(factor, GUSNALIP_FACTOR_WORDS, 0x3FC8F5C3, reading, GUSNALIP_READING_WORDS), GUSNALIP_RIGHT);
    due("its bits", reading[0], 0x3EFFDEC7);
    due("its direction", reading[1], GUSNALIP_BELOW);
    due("-1.57", gusnalip_read(factor, GUSNALIP_FACTOR_WORDS, 0xBFC8F5C3, reading, GUSNALIP_READING_WORDS), GUSNALIP_RIGHT);
    due("its bits", reading[0], 0xBEFFDEC7);
    due("its direction, mirrored", reading[1], GUSNALIP_ABOVE);
    due("no room", gusnalip_read(factor, GUSNALIP_FACTOR_WORDS, 0x3FC8F5C3, reading, GUSNALIP_READING_WORDS - 1), GUSNALIP_TOO_SHORT);
    due("infinity", gusnalip_read(factor, GUSNALIP_FACTOR_WORDS, 0x7F800000, reading, GUSNALIP_READING_WORDS), 21);
    due("the bits as they were", reading[0], 0xBEFFDEC7);
    due("the direction as it was", reading[1], GUSNALIP_ABOVE);
    due("minus zero", gusnalip_read(factor, GUSNALIP_FACTOR_WORDS, 0x80000000, reading, GUSNALIP_READING_WORDS), GUSNALIP_RIGHT);
    due("its direction, a zero", reading[1], GUSNALIP_EQUAL);
    due("1.57 in one step", gusnalip_read_once(factor, GUSNALIP_FACTOR_WORDS, 0x3FC8F5C3, reading, GUSNALIP_READING_WORDS), GUSNALIP_RIGHT);
    due("its bits", reading[0], 0x3EFFDEC7);
    due("its direction", reading[1], GUSNALIP_ABOVE);
    due("-1.57 in one step", gusnalip_read_once(factor, GUSNALIP_FACTOR_WORDS, 0xBFC8F5C3, reading, GUSNALIP_READING_WORDS), GUSNALIP_RIGHT);
    due("its bits", reading[0], 0xBEFFDEC7);
    due("its direction, mirrored", reading[1], GUSNALIP_BELOW);

    /* 19/16 - 2^-20 at 4 bits: its one suspect, 8, is wrong. */
    due("19/16 - 2^-20", gusnalip_set_up(GUSNALIP_PLUS, 4, 0, below_19_16, below_19_16, factor, GUSNALIP_FACTOR_WORDS), GUSNALIP_ACCEPTED);
    due("a new sweep", gusnalip_new_sweep(factor, GUSNALIP_FACTOR_WORDS, 8, 15, state, GUSNALIP_STATE_WORDS), GUSNALIP_ACCEPTED);
    due("a call", gusnalip_sweep(state, GUSNALIP_STATE_WORDS, 100, list, 2, 1, counts, GUSNALIP_COUNT_WORDS), GUSNALIP_ACCEPTED);
    due("its trials", counts[0], 1);
    due("its place", counts[2], 2);
    due("the list before the free place", list[0], 7);
    due("the word of 8", list[1], 16);
    due("finished", state[13], 1);
    due("a further call", gusnalip_sweep(state, GUSNALIP_STATE_WORDS, 100, list, 2, 1, counts, GUSNALIP_COUNT_WORDS), 33);

    /* Below zero: -3/2 at 4 bits, set up with a minus that is not 1. Words of the size, signs and directions mirrored. */
    due("precision 3 below zero", gusnalip_set_up(2, 3, 0, three_halves, three_halves, factor, GUSNALIP_FACTOR_WORDS), 11);
    due("no room", gusnalip_set_up(2, 4, 0, three_halves, three_halves, factor, GUSNALIP_FACTOR_WORDS - 1), GUSNALIP_TOO_SHORT);
    due("-3/2", gusnalip_set_up(2, 4, 0, three_halves, three_halves, factor, GUSNALIP_FACTOR_WORDS), GUSNALIP_ACCEPTED);
    due("its sign", factor[0], GUSNALIP_MINUS);
    due("its precision", factor[1], 4);
    due("its lower end", factor[2], three_halves);
    due("its high significand", factor[4], 12);
    due("its high float, which is positive", factor[7], 0x3FC00000);
    due("-3/2 times 9", gusnalip_multiply(factor, GUSNALIP_FACTOR_WORDS, 9, product, GUSNALIP_PRODUCT_WORDS), GUSNALIP_RIGHT);
    due("its significand", product[0], 14);
    due("its binade", product[1], 0);
    due("its direction, a tie that went down", product[2], GUSNALIP_BELOW);
    due("its sign", product[3], GUSNALIP_MINUS);
    due("-3/2 times 14 in one step", gusnalip_multiply_once(factor, GUSNALIP_FACTOR_WORDS, 14, product, GUSNALIP_PRODUCT_WORDS), GUSNALIP_RIGHT);
    due("its significand", product[0], 10);
    due("its binade", product[1], 1);
    due("its direction, a tie that went up", product[2], GUSNALIP_ABOVE);
    due("its sign", product[3], GUSNALIP_MINUS);
    due("8 by -3/2", gusnalip_divide(factor, GUSNALIP_FACTOR_WORDS, 8, quotient, GUSNALIP_QUOTIENT_WORDS), GUSNALIP_ACCEPTED);
    due("its significand", quotient[0], 11);
    due("its binade", quotient[1], minus_one);
    due("its direction", quotient[2], GUSNALIP_BELOW);
    due("its sign", quotient[3], GUSNALIP_MINUS);
    due("12 by -3/2", gusnalip_divide(factor, GUSNALIP_FACTOR_WORDS, 12, quotient, GUSNALIP_QUOTIENT_WORDS), GUSNALIP_ACCEPTED);
    due("its direction", quotient[2], GUSNALIP_EQUAL);
    due("its sign", quotient[3], GUSNALIP_MINUS);
    due("16 by -3/2", gusnalip_divide(factor, GUSNALIP_FACTOR_WORDS, 16, quotient, GUSNALIP_QUOTIENT_WORDS), 17);
    due("no room", gusnalip_divide(factor, GUSNALIP_FACTOR_WORDS, 8, quotient, GUSNALIP_QUOTIENT_WORDS - 1), GUSNALIP_TOO_SHORT);
    due("a word too few", gusnalip_divide(factor, GUSNALIP_FACTOR_WORDS - 1, 8, quotient, GUSNALIP_QUOTIENT_WORDS), GUSNALIP_TOO_SHORT);
    due("the significand as it was", quotient[0], 8);
    due("a reading at 4 bits", gusnalip_read(factor, GUSNALIP_FACTOR_WORDS, 0x80000000, reading, GUSNALIP_READING_WORDS), 20);

    /* Any word that is not 0 is a minus, and none is damage. */
    factor[0] = (uint64_t)1 << 63;
    due("-3/2 times 9, another minus", gusnalip_multiply(factor, GUSNALIP_FACTOR_WORDS, 9, product, GUSNALIP_PRODUCT_WORDS), GUSNALIP_RIGHT);
    due("its direction", product[2], GUSNALIP_BELOW);
    due("its sign", product[3], GUSNALIP_MINUS);
    factor[0] = GUSNALIP_PLUS;
    due("3/2 times 9, the minus taken away", gusnalip_multiply(factor, GUSNALIP_FACTOR_WORDS, 9, product, GUSNALIP_PRODUCT_WORDS), GUSNALIP_RIGHT);
    due("its direction", product[2], GUSNALIP_ABOVE);
    due("its sign", product[3], GUSNALIP_PLUS);
    /* The words as they stood before there was a sign. */
    for (i = 1; i < GUSNALIP_FACTOR_WORDS; i++)
        factor[i - 1] = factor[i];
    due("words without a sign", gusnalip_multiply(factor, GUSNALIP_FACTOR_WORDS, 9, product, GUSNALIP_PRODUCT_WORDS), GUSNALIP_DAMAGED);

    /* -(19/16 - 2^-20): tally and sweep are those of the size; the sign in a state is written back as 1 by a call that is accepted. */
    due("-(19/16 - 2^-20)", gusnalip_set_up(GUSNALIP_MINUS, 4, 0, below_19_16, below_19_16, factor, GUSNALIP_FACTOR_WORDS), GUSNALIP_ACCEPTED);
    due("its tally", gusnalip_tally(factor, GUSNALIP_FACTOR_WORDS, 8, 15, tally, GUSNALIP_TALLY_WORDS), GUSNALIP_ACCEPTED);
    due("right ones", tally[0], 4);
    due("wrong ones", tally[1], 4);
    factor[0] = 2;
    due("a new sweep below zero", gusnalip_new_sweep(factor, GUSNALIP_FACTOR_WORDS, 8, 15, state, GUSNALIP_STATE_WORDS), GUSNALIP_ACCEPTED);
    due("its sign", state[0], GUSNALIP_MINUS);
    due("its first", state[10], 8);
    due("no room", gusnalip_new_sweep(factor, GUSNALIP_FACTOR_WORDS, 8, 15, state, GUSNALIP_STATE_WORDS - 1), GUSNALIP_TOO_SHORT);
    state[0] = minus_one;
    list[1] = 7;
    due("cap 0", gusnalip_sweep(state, GUSNALIP_STATE_WORDS, 0, list, 2, 1, counts, GUSNALIP_COUNT_WORDS), 18);
    due("the sign as it was", state[0], minus_one);
    due("a word too few", gusnalip_sweep(state, GUSNALIP_STATE_WORDS - 1, 100, list, 2, 1, counts, GUSNALIP_COUNT_WORDS), GUSNALIP_TOO_SHORT);
    due("a call below zero", gusnalip_sweep(state, GUSNALIP_STATE_WORDS, 100, list, 2, 1, counts, GUSNALIP_COUNT_WORDS), GUSNALIP_ACCEPTED);
    due("its trials", counts[0], 1);
    due("the word of 8", list[1], 16);
    due("the sign", state[0], GUSNALIP_MINUS);
    due("finished", state[13], 1);

    /* -1/pi on readings, and zeros of both signs; -pi, whose size has a negative low part. */
    due("-1/pi", gusnalip_set_up(GUSNALIP_MINUS, 24, -2, below_4_over_pi, below_4_over_pi + 1, factor, GUSNALIP_FACTOR_WORDS), GUSNALIP_ACCEPTED);
    due("1.57", gusnalip_read(factor, GUSNALIP_FACTOR_WORDS, 0x3FC8F5C3, reading, GUSNALIP_READING_WORDS), GUSNALIP_RIGHT);
    due("its bits", reading[0], 0xBEFFDEC7);
    due("its direction, mirrored", reading[1], GUSNALIP_ABOVE);
    due("-1.57", gusnalip_read(factor, GUSNALIP_FACTOR_WORDS, 0xBFC8F5C3, reading, GUSNALIP_READING_WORDS), GUSNALIP_RIGHT);
    due("its bits", reading[0], 0x3EFFDEC7);
    due("its direction, mirrored twice", reading[1], GUSNALIP_BELOW);
    due("1.57 in one step", gusnalip_read_once(factor, GUSNALIP_FACTOR_WORDS, 0x3FC8F5C3, reading, GUSNALIP_READING_WORDS), GUSNALIP_RIGHT);
    due("its bits", reading[0], 0xBEFFDEC7);
    due("its direction, mirrored", reading[1], GUSNALIP_BELOW);
    due("1/2 by -1/pi", gusnalip_divide_reading(factor, GUSNALIP_FACTOR_WORDS, 0x3F000000, reading, GUSNALIP_READING_WORDS), GUSNALIP_ACCEPTED);
    due("its bits", reading[0], 0xBFC90FDB);
    due("its direction, mirrored", reading[1], GUSNALIP_ABOVE);
    due("infinity", gusnalip_read(factor, GUSNALIP_FACTOR_WORDS, 0x7F800000, reading, GUSNALIP_READING_WORDS), 21);
    due("the least reading", gusnalip_read_once(factor, GUSNALIP_FACTOR_WORDS, 0x00800000, reading, GUSNALIP_READING_WORDS), 23);
    due("the last reading", gusnalip_divide_reading(factor, GUSNALIP_FACTOR_WORDS, 0x7F7FFFFF, reading, GUSNALIP_READING_WORDS), 23);
    due("the bits as they were", reading[0], 0xBFC90FDB);
    for (i = 0; i < 2; i++) {
        due("plus zero", gusnalip_read(factor, GUSNALIP_FACTOR_WORDS, 0, reading, GUSNALIP_READING_WORDS), GUSNALIP_RIGHT);
        due("its bits", reading[0], 0x80000000);
        due("its direction, a zero", reading[1], GUSNALIP_EQUAL);
        due("minus zero", gusnalip_read(factor, GUSNALIP_FACTOR_WORDS, 0x80000000, reading, GUSNALIP_READING_WORDS), GUSNALIP_RIGHT);
        due("its bits", reading[0], 0);
        due("plus zero in one step", gusnalip_read_once(factor, GUSNALIP_FACTOR_WORDS, 0, reading, GUSNALIP_READING_WORDS), GUSNALIP_RIGHT);
        due("its bits", reading[0], 0x80000000);
        due("minus zero in one step", gusnalip_read_once(factor, GUSNALIP_FACTOR_WORDS, 0x80000000, reading, GUSNALIP_READING_WORDS), GUSNALIP_RIGHT);
        due("its bits", reading[0], 0);
        due("plus zero divided", gusnalip_divide_reading(factor, GUSNALIP_FACTOR_WORDS, 0, reading, GUSNALIP_READING_WORDS), GUSNALIP_ACCEPTED);
        due("its bits", reading[0], 0x80000000);
        due("minus zero divided", gusnalip_divide_reading(factor, GUSNALIP_FACTOR_WORDS, 0x80000000, reading, GUSNALIP_READING_WORDS), GUSNALIP_ACCEPTED);
        due("its bits", reading[0], 0);
        due("its direction, a zero", reading[1], GUSNALIP_EQUAL);
        due("-pi", gusnalip_set_up(GUSNALIP_MINUS, 24, 1, below_pi_over_2, below_pi_over_2 + 1, factor, GUSNALIP_FACTOR_WORDS), GUSNALIP_ACCEPTED);
        due("its low part is that of the size", factor[5] >> 63, 1);
    }

    /* A kit: 3/2, 19/16 - 2^-20 and 23/18 at 4 bits, and 3/2 again past the number, where it means nothing. */
    for (i = 0; i < GUSNALIP_KIT_WORDS; i++)
        kit[i] = minus_one;
    due("3/2 for a kit", gusnalip_set_up(GUSNALIP_PLUS, 4, 0, three_halves, three_halves, &kit[1], GUSNALIP_FACTOR_WORDS), GUSNALIP_ACCEPTED);
    due("19/16 - 2^-20 for a kit", gusnalip_set_up(GUSNALIP_PLUS, 4, 0, below_19_16, below_19_16, &kit[11], GUSNALIP_FACTOR_WORDS), GUSNALIP_ACCEPTED);
    due("23/18 for a kit", gusnalip_set_up(GUSNALIP_PLUS, 4, 0, below_23_18, below_23_18 + 1, &kit[21], GUSNALIP_FACTOR_WORDS), GUSNALIP_ACCEPTED);
    due("3/2 past the number", gusnalip_set_up(GUSNALIP_PLUS, 4, 0, three_halves, three_halves, &kit[31], GUSNALIP_FACTOR_WORDS), GUSNALIP_ACCEPTED);
    kit[0] = 0;
    due("no factor", gusnalip_form_kit(kit, GUSNALIP_KIT_WORDS), 42);
    kit[0] = GUSNALIP_KIT_PLACES + 1;
    due("97 factors", gusnalip_form_kit(kit, GUSNALIP_KIT_WORDS), 42);
    kit[0] = 4;
    due("3/2 twice", gusnalip_form_kit(kit, GUSNALIP_KIT_WORDS), 43);
    kit[31] = GUSNALIP_MINUS;
    due("3/2 and -3/2", gusnalip_form_kit(kit, GUSNALIP_KIT_WORDS), GUSNALIP_ACCEPTED);
    kit[31] = GUSNALIP_PLUS;
    kit[27] += 1;
    due("damage before two alike", gusnalip_form_kit(kit, GUSNALIP_KIT_WORDS), GUSNALIP_DAMAGED);
    due("no new sweep of it", gusnalip_new_kit_sweep(kit, GUSNALIP_KIT_WORDS, kit_state, GUSNALIP_KIT_STATE_WORDS), GUSNALIP_DAMAGED);
    kit[27] -= 1;
    kit[0] = 3;
    due("a kit", gusnalip_form_kit(kit, GUSNALIP_KIT_WORDS), GUSNALIP_ACCEPTED);
    due("a word too few", gusnalip_form_kit(kit, GUSNALIP_KIT_WORDS - 1), GUSNALIP_TOO_SHORT);
    due("no room", gusnalip_new_kit_sweep(kit, GUSNALIP_KIT_WORDS, kit_state, GUSNALIP_KIT_STATE_WORDS - 1), GUSNALIP_TOO_SHORT);
    due("a new kit sweep", gusnalip_new_kit_sweep(kit, GUSNALIP_KIT_WORDS, kit_state, GUSNALIP_KIT_STATE_WORDS), GUSNALIP_ACCEPTED);
    for (i = 0; i < GUSNALIP_KIT_WORDS; i++)
        due("the kit in it", kit_state[i], kit[i]);
    due("its place", kit_state[961], 0);
    due("its next significand", kit_state[962], 8);
    due("not finished", kit_state[963], 0);
    due("what it tells", gusnalip_kit_clean(kit_state, GUSNALIP_KIT_STATE_WORDS, 0), GUSNALIP_UNFINISHED);

    /* Three places: room for one entry, and one that is left. */
    due("one free place", gusnalip_kit_sweep(kit_state, GUSNALIP_KIT_STATE_WORDS, 100, entries, 3, 2, counts, GUSNALIP_COUNT_WORDS), 44);
    due("a place past the end", gusnalip_kit_sweep(kit_state, GUSNALIP_KIT_STATE_WORDS, 100, entries, 3, 4, counts, GUSNALIP_COUNT_WORDS), 44);
    due("cap 0", gusnalip_kit_sweep(kit_state, GUSNALIP_KIT_STATE_WORDS, 0, entries, 3, 4, counts, GUSNALIP_COUNT_WORDS), 18);
    due("no counts", gusnalip_kit_sweep(kit_state, GUSNALIP_KIT_STATE_WORDS, 100, entries, 3, 0, counts, 2), GUSNALIP_TOO_SHORT);
    due("a call", gusnalip_kit_sweep(kit_state, GUSNALIP_KIT_STATE_WORDS, 100, entries, 3, 0, counts, GUSNALIP_COUNT_WORDS), GUSNALIP_ACCEPTED);
    due("its trials", counts[0], 3);
    due("its rounds", counts[1], 1);
    due("its place", counts[2], 2);
    due("the entry's factor", entries[0], 1);
    due("the word of 8", entries[1], 16);
    due("the odd place", entries[2], 7);
    due("it stands at 23/18", kit_state[961], 2);
    due("and at 9", kit_state[962], 9);
    due("not finished", kit_state[963], 0);
    due("the rest, behind it", gusnalip_kit_sweep(kit_state, GUSNALIP_KIT_STATE_WORDS, 100, entries, 8, 2, counts, GUSNALIP_COUNT_WORDS), GUSNALIP_ACCEPTED);
    due("its trials", counts[0], 1);
    due("its rounds", counts[1], 2);
    due("its place", counts[2], 4);
    due("the entry's factor", entries[2], 2);
    due("the word of 9, which is open", entries[3], 19);
    due("the place behind it", entries[4], 7);
    due("it stands at the last factor", kit_state[961], 2);
    due("and at its last significand", kit_state[962], 15);
    due("finished", kit_state[963], 1);
    due("a further call", gusnalip_kit_sweep(kit_state, GUSNALIP_KIT_STATE_WORDS, 0, entries, 8, 8, counts, GUSNALIP_COUNT_WORDS), 33);
    due("by two entries", gusnalip_kit_clean(kit_state, GUSNALIP_KIT_STATE_WORDS, 2), GUSNALIP_NOT_CLEAN);
    due("a word too few", gusnalip_kit_clean(kit_state, GUSNALIP_KIT_STATE_WORDS - 1, 2), GUSNALIP_TOO_SHORT);
    kit_state[961] = 3;
    due("a place with no factor", gusnalip_kit_sweep(kit_state, GUSNALIP_KIT_STATE_WORDS, 0, entries, 8, 8, counts, GUSNALIP_COUNT_WORDS), 32);
    due("what it tells", gusnalip_kit_clean(kit_state, GUSNALIP_KIT_STATE_WORDS, 2), 32);
    kit[0] = 1;
    due("3/2 alone", gusnalip_new_kit_sweep(kit, GUSNALIP_KIT_WORDS, kit_state, GUSNALIP_KIT_STATE_WORDS), GUSNALIP_ACCEPTED);
    due("its sweep", gusnalip_kit_sweep(kit_state, GUSNALIP_KIT_STATE_WORDS, 100, entries, 8, 0, counts, GUSNALIP_COUNT_WORDS), GUSNALIP_ACCEPTED);
    due("its place", counts[2], 0);
    due("by no entry", gusnalip_kit_clean(kit_state, GUSNALIP_KIT_STATE_WORDS, 0), GUSNALIP_CLEAN);
    return wrong;
}
