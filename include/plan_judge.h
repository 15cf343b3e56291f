/* The plan judge for C: the exported functions of the proved crate judge_c, a static library (rt lib there).
 *
 * Every function takes numbers and slices only and has no condition on what a slice holds. A slice is passed as a
 * pointer and then its length in elements. Its memory must be there for the length given, and a pointer is never null:
 * for an empty slice pass any address that is right for the element's type. The two rooms must not overlap each other,
 * nor the text or the candidate.
 *
 * Every answer is one 64-bit number of two halves: the upper 32 bits (above) and the lower 32 bits (below).
 *
 * Nothing is allocated. A judging needs stack: at most 128 KB for texts of at most 2,000 bytes, at most 512 KB for any.
 * What is not proved is said in docs/CONTRACTS.md, 'What is not proved'.
 */
#ifndef PLAN_JUDGE_H
#define PLAN_JUDGE_H

#include <stddef.h>
#include <stdint.h>

#ifdef __cplusplus
extern "C" {
#endif

/* The least sizes of the two rooms: bytes of the timetable room, places of the cycle room. */
#define PLAN_ROOM_BYTES 24592
#define PLAN_CYCLE_PLACES 1024

/* The two halves of an answer. */
#define PLAN_ABOVE(answer) ((uint32_t)((answer) >> 32))
#define PLAN_BELOW(answer) ((uint32_t)((answer) & 0xffffffffu))

/* Judges a candidate against a plan text. The lines of text end in byte 10 alone or in 13 10, every one as the first;
 * the one line of cand ends in either, whatever those of text end in. A line end of the other kind is refused at its
 * first byte, by 3 in text, by 7 in cand.
 * Accepted: 0 above, the timetable's length in bytes below; the timetable stands in the first bytes of room.
 * Refused: the refusal's number above, its place below; after 10 the list of the cycle's atoms stands in the first
 * places of cycle. Nothing else in either room is changed.
 *
 * The refusals in their order, and their places; bytes are counted from 0:
 *   1   a room is too short                           the size needed
 *   2   the text is too long                          60,000, the most bytes it may have
 *   3   it breaks the grammar                         the byte of text, or its length
 *   4   it has something that is not carried          the byte of text
 *   5   a number in it is beyond its bounds           its first byte
 *   61  a term or element number is defined twice     the first byte of the line that has it again
 *   62  one is used that no earlier line defines      the first byte of the field that uses it, the leftmost
 *   63  an atom has a second theory statement         the line's first byte
 *   64  a theory atom is no difference                the line's first byte
 *   7   the candidate is malformed                    the byte of cand, or its length
 *   8   a rule is broken: the first in the text       the line's first byte
 *   9   an atom is unfounded                          the smallest such atom
 *   10  there is a negative cycle                     the count of its atoms
 *   11  a time is too large; it is never given        the term number
 * 3 to 5 come by reading order; 61 to 64 at the first line that has one of them, in this order within it.
 *
 * A timetable is numbers of 32 bits, each as four bytes, the lowest first. At which byte stands what:
 *   0        n, the count of names
 *   4        m, the count of atoms
 *   8        16, where the names begin
 *   12       16 + 8n, where the atoms begin
 *   16       for each name its term number (0 to 1,023) and its time (0 to 1,023,000,000), term numbers ascending
 *   16 + 8n  the atoms of the candidate (1 to 4,096), ascending; they end at the length, 16 + 8n + 4m */
uint64_t plan_judge(const uint8_t *text, size_t text_length,
                    const uint8_t *cand, size_t cand_length,
                    uint8_t *room, size_t room_length,
                    uint32_t *cycle, size_t cycle_length);

/* The same answer, with the stack that any text needs for every text. plan_judge calls it for texts of more than 2,000
 * bytes; it is a function of its own so that a short text gets by with less. */
uint64_t plan_judge_long(const uint8_t *text, size_t text_length,
                         const uint8_t *cand, size_t cand_length,
                         uint8_t *room, size_t room_length,
                         uint32_t *cycle, size_t cycle_length);

/* The time of a term number in a timetable. Pass exactly the length that plan_judge gave: with another, as that of the
 * whole room, the slice is no timetable.
 * Found: 0 above, the time below. Else 20 above and 0 below (the slice is no timetable), or 21 above and the term
 * number below (it is not in the timetable). */
uint64_t plan_time(const uint8_t *table, size_t table_length, uint32_t term);

/* The faulty part for a refusal: its start above, its length in bytes below; 0 if there is nothing to show. A part that
 * is longer than 2^32 - 1 gives 2^32 - 1.
 * For the numbers 3, 4, 5, 61, 62, 63, 64 and 8 it is a part of text, for 7 a part of cand; for every other number, 6
 * too, and for a place beyond the end, there is nothing.
 * The part runs to before the next byte 10 or to the end. Where the first byte 10 of that text or cand has a 13 right
 * before it, the part stops before a 13 10 as well, and at the 10 after that 13 there is nothing. */
uint64_t plan_shown(const uint8_t *text, size_t text_length,
                    const uint8_t *cand, size_t cand_length,
                    uint32_t number, uint32_t place);

#ifdef __cplusplus
}
#endif

#endif
