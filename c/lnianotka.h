/* Lnianotka for C and for all that calls C: link the archive that c/archive writes (x86-64).
 *
 * Every function takes any bytes and comes back. What it promises is proved; what a caller owes is what the types of the
 * proved functions say: a pointer is never null, not even where its length is 0, and no byte of what is written to is a byte
 * of the input. A call takes some 150 kilobytes of stack, one for a trail of 512 boxes some 250, one that joins some 270.
 * Nothing is kept between calls. */
#ifndef LNIANOTKA_H
#define LNIANOTKA_H

#include <stddef.h>
#include <stdint.h>

#ifdef __cplusplus
extern "C" {
#endif

/* The longest inputs that are read; a longer one is refused. */
size_t lnianotka_judge_input(void);
size_t lnianotka_trail_input(void);
size_t lnianotka_cut_input(void);
size_t lnianotka_join_input(void);

/* Room enough for every answer of the judge, of the census, of the trail, of the cutter, and of the join. The census reads what the judge
 * reads. */
size_t lnianotka_judge_answer(void);
size_t lnianotka_census_answer(void);
size_t lnianotka_trail_answer(void);
size_t lnianotka_cut_answer(void);
size_t lnianotka_join_answer(void);

/* The number of the first refusal, 1 to 10, that applies to a network record, with its place in `*place`; both are 0 where the
 * network is sound. */
uint8_t lnianotka_check(const uint8_t *network, size_t length, size_t *place);

/* The line that the judging program prints when it reads `input`: a network record and then a route list record. It begins with
 * 'p' on a pass, with 'f' on a finding and with 'r' on a refusal. Answers the line's length. The line stands at the start
 * of `out` where it fits in `room` bytes, and the bytes behind it keep their values; where it does not fit, all of them do. */
size_t lnianotka_judge(const uint8_t *input, size_t length, uint8_t *out, size_t room);

/* What the counting program prints when it reads `input`, which is the judge's: the judge's line, and behind a pass what it carried, with a
 * line `silent ID` for every own box that holds no route though nobody asked for it. Answers and writes as lnianotka_judge does. */
size_t lnianotka_census(const uint8_t *input, size_t length, uint8_t *out, size_t room);

/* What the tracing program prints when it reads `input`: a network record, two bytes for the id of a box, and then a route list record. For
 * each box of the trail back from that one a line `ID ROUTE`, which begins with a digit; the judge's line, with 'f' or 'r', where the list
 * fails, one of the records is refused, or no own box has the id. Answers and writes as lnianotka_judge does. */
size_t lnianotka_trail(const uint8_t *input, size_t length, uint8_t *out, size_t room);

/* What the cutting program writes when it reads `input`: a network record, one byte for the fragment asked, and then a
 * sheet record. A fragment begins with a zero byte, a refused line with 'r'. Answers and writes as lnianotka_judge does. */
size_t lnianotka_cut(const uint8_t *input, size_t length, uint8_t *out, size_t room);

/* What the joining program writes when it reads `input`: a network record and then another. The network that the two make begins with
 * a zero byte, a refused line with 'r'. Answers and writes as lnianotka_judge does. */
size_t lnianotka_join(const uint8_t *input, size_t length, uint8_t *out, size_t room);

#ifdef __cplusplus
}
#endif

#endif
