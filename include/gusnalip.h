/* The engine's exported functions, for C and C++: link target/staticlib/libexports.a, which `tools/build exports` makes (x86-64 Linux).
 * examples/calls.c calls each of them.
 *
 * A list is a pointer and the number of its words. Lists given to one call must not overlap. A list that is too short is answered with
 * GUSNALIP_TOO_SHORT (the list of a sweep may have any length, 0 too: it is refused with 19, and that of a kit sweep with 44). Every other
 * answer and every word written is fixed by the function's contract (crates/exports), for any input. Every refusal writes nothing,
 * GUSNALIP_TOO_SHORT included.
 *
 * A factor is GUSNALIP_FACTOR_WORDS words: sign, precision, lower end, upper end, high significand, low significand (two's complement), its
 * places, high and low part as bits of binary32 numbers, scale (two's complement of 32 bits). The sign is written as GUSNALIP_PLUS or
 * GUSNALIP_MINUS, also into a state by a sweep call that is accepted, and any word that is not 0 is read as a minus. All else is that of the
 * size: a factor below zero has the ends and parts of the one above, and its high part is stored as a positive number. The words for
 * precision, places, floats and scale are written with an upper half of 0; one with another upper half is damage, and refused with 31. So
 * are words that were written when factors had no sign, where they are not too few: their lower end stands in the place of the precision. A
 * sweep's state is GUSNALIP_STATE_WORDS words: a factor, then the first, last and next significand, and 0 or any other word for not finished
 * or finished. Further words of either are not looked at.
 *
 * A kit is GUSNALIP_KIT_WORDS words: the number of its factors, then GUSNALIP_KIT_PLACES places of GUSNALIP_FACTOR_WORDS words each, filled
 * from the front. Places past the number hold anything and mean nothing: no check looks at them, and no answer depends on them. A kit sweep's
 * state is GUSNALIP_KIT_STATE_WORDS words: a kit, then the factor's place from 0, the next significand, and 0 or any other word for not
 * finished or finished. Further words of either are not looked at.
 *
 * A reading of zero gives a zero, multiplied on either device (marked right) or divided: minus zero where one of reading and factor has a
 * minus and the other has not, else plus zero, whatever sign the low part has.
 *
 * Products and quotients, those of readings too, are written with the direction of their last rounding: GUSNALIP_BELOW, GUSNALIP_EQUAL or
 * GUSNALIP_ABOVE, as the rounded number lies below, on or above what was rounded, sign included: a minus of the reading mirrors it, and so
 * does one of the factor, and a zero is equal. In two steps Ch * x + u1 is rounded last, not C * x: equal says that this rounding was exact,
 * and not that the product is RN(C * x), which is what the mark tells. In one step it is Ch * x, and divided x / Ch. A refusal has no
 * direction. Marks, tallies and sweeps of a factor below zero are those of its size.
 *
 * gusnalip_read asks for the machine's default rounding mode, round to nearest (FE_TONEAREST): with another one that the caller has set,
 * readings whose products lie near a midpoint can come out differently. Nothing else depends on it: quotients and one-step products, those
 * of readings too, are worked out in whole numbers. */
#ifndef GUSNALIP_H
#define GUSNALIP_H

#include <stddef.h>
#include <stdint.h>

#define GUSNALIP_FACTOR_WORDS 10
#define GUSNALIP_PRODUCT_WORDS 4
#define GUSNALIP_QUOTIENT_WORDS 4
#define GUSNALIP_READING_WORDS 2
#define GUSNALIP_TALLY_WORDS 3
#define GUSNALIP_STATE_WORDS 14
#define GUSNALIP_COUNT_WORDS 3
#define GUSNALIP_KIT_PLACES 96
#define GUSNALIP_KIT_WORDS 961
#define GUSNALIP_KIT_STATE_WORDS 964

#define GUSNALIP_ACCEPTED 0
#define GUSNALIP_RIGHT 1
#define GUSNALIP_OPEN 2
#define GUSNALIP_WRONG 3
#define GUSNALIP_BELOW 1
#define GUSNALIP_EQUAL 2
#define GUSNALIP_ABOVE 3
#define GUSNALIP_PLUS 0
#define GUSNALIP_MINUS 1
#define GUSNALIP_CLEAN 1
#define GUSNALIP_NOT_CLEAN 2
#define GUSNALIP_UNFINISHED 3
#define GUSNALIP_DAMAGED 31
#define GUSNALIP_TOO_SHORT 255

/* So many significands are taken by one tally; more are refused with 41. */
#define GUSNALIP_TALLY_LONGEST 65536

#ifdef __cplusplus
extern "C" {
#endif

/* Sets a factor up, above zero where minus is 0 and below it where it is anything else, the ends being those of its size: 0 and the
 * factor's words, or a refusal 11 to 16. */
uint32_t gusnalip_set_up(uint32_t minus, uint32_t precision, int32_t scale, uint64_t lower, uint64_t upper, uint64_t *out, size_t out_length);

/* Multiplies a significand: a mark, with the product's significand in out[0], its binade in out[1], its direction in out[2] and its sign,
 * which is the factor's, in out[3] (GUSNALIP_PLUS or GUSNALIP_MINUS), or the refusal 31 or 17. */
uint32_t gusnalip_multiply(const uint64_t *factor, size_t factor_length, uint64_t x, uint64_t *out, size_t out_length);

/* Multiplies a reading given by its bits: a mark, with the bits of the product in out[0] and its direction in out[1], or a refusal 31, 20
 * to 23. */
uint32_t gusnalip_read(const uint64_t *factor, size_t factor_length, uint32_t reading, uint32_t *out, size_t out_length);

/* Divides a significand by the factor's high part, which the scale does not change: 0, with the quotient's significand in out[0], its
 * binade in out[1] (two's complement of 64 bits: -1 is all ones), its direction in out[2] and its sign in out[3], or the refusal 31 or 17. */
uint32_t gusnalip_divide(const uint64_t *factor, size_t factor_length, uint64_t x, uint64_t *out, size_t out_length);

/* Divides a reading given by its bits by the factor's high part times 2^scale: 0, with the bits of the quotient in out[0] and its direction
 * in out[1], or a refusal 31, 20 to 23. */
uint32_t gusnalip_divide_reading(const uint64_t *factor, size_t factor_length, uint32_t reading, uint32_t *out, size_t out_length);

/* The one-step device, a handheld without the fused step: its product is that by the factor's high part alone, rounded once. Answers are
 * those of gusnalip_multiply and gusnalip_read, mark and direction being this device's. */
uint32_t gusnalip_multiply_once(const uint64_t *factor, size_t factor_length, uint64_t x, uint64_t *out, size_t out_length);
uint32_t gusnalip_read_once(const uint64_t *factor, size_t factor_length, uint32_t reading, uint32_t *out, size_t out_length);

/* Counts the significands from first to last, both included, by their marks for the one-step device: 0, with how many are right in out[0],
 * wrong in out[1] and open in out[2], or the refusal 31, 17 or 41. Tallies of adjoining ranges add up to that of the whole. */
uint32_t gusnalip_tally(const uint64_t *factor, size_t factor_length, uint64_t first, uint64_t last, uint64_t *out, size_t out_length);

/* Begins a sweep: 0 and the state's words, or the refusal 31 or 17. */
uint32_t gusnalip_new_sweep(const uint64_t *factor, size_t factor_length, uint64_t first, uint64_t last, uint64_t *out, size_t out_length);

/* Goes on with a sweep: 0, with the state handed back in the state's words, all of them, the listed words in the list from its first free
 * place on, and trials, rounds and the next first free place in counts; or a refusal 31, 32, 33, 18 or 19, and nothing is written. */
uint32_t gusnalip_sweep(uint64_t *state, size_t state_length, uint64_t cap, uint32_t *list, size_t list_length, size_t free, uint64_t *counts,
                        size_t counts_length);

/* Forms a kit: 0, or the first of the refusals 42 (no factor, or more than there are places), 31 (of any factor counted) and 43 (two of those
 * counted alike in sign, precision, scale and both ends). */
uint32_t gusnalip_form_kit(const uint64_t *kit, size_t kit_length);

/* Begins a kit sweep: 0 and the state's words, those of the kit as they were given, or the refusal 42, 31 or 43. */
uint32_t gusnalip_new_kit_sweep(const uint64_t *kit, size_t kit_length, uint64_t *out, size_t out_length);

/* Goes on with a kit sweep, through the factors in their order and all significands of each, with one cap and one list for the call. An entry
 * takes two words of the list: the factor's place, then the word that a sweep lists. The call stops before a suspect when the cap is reached or
 * fewer than two places are free. 0, with place, next significand and finished mark written into the state, and nothing else of it, the entries
 * in the list from its first free place on, and in counts trials and rounds, added up over the factors searched in, and the next first free
 * place; or a refusal 42, 31, 43, 32, 33, 18 or 44 (fewer than two free places), and nothing is written. */
uint32_t gusnalip_kit_sweep(uint64_t *state, size_t state_length, uint64_t cap, uint32_t *list, size_t list_length, size_t free, uint64_t *counts,
                            size_t counts_length);

/* What a state tells of its kit, with how many entries all calls since the new state wrote, nothing else having altered it: GUSNALIP_CLEAN (every
 * significand of every factor is right), GUSNALIP_NOT_CLEAN, or GUSNALIP_UNFINISHED where the sweep is not finished; or a refusal 42, 31, 43 or
 * 32. */
uint32_t gusnalip_kit_clean(const uint64_t *state, size_t state_length, uint64_t entries);

#ifdef __cplusplus
}
#endif

#endif
