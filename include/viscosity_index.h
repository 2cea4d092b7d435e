/*
 * The viscosity index of ASTM D2270 from an oil's kinematic viscosities at 40 °C (u) and at 100 °C (y), each a whole number of
 * thousandths of a mm²/s: for one pair, and for a sheet of up to 2,000 pairs, which can be written from its pairs; and its span where both
 * are known within limits. The viscosity-gravity constant of an oil from its density and one of its viscosities. And a tray of up to 64
 * samples, each with a number, its pair and its answer, and the summary of a tray.
 *
 * What a caller may rely on, for any numbers and any bytes:
 * - Every function returns, and answers one of the numbers below. There is nothing to test beforehand or to free, and nothing to initialise but a
 *   new tray, to zeros.
 * - They read and write only the memory lent to them, remember nothing between calls, and may run at the same time on different memory. What a
 *   tray holds, and the summary that it keeps, stand in the memory lent for it and nowhere else.
 * - A buffer of bytes may have any alignment; a row of a constant or of a span is aligned as any array of int32_t, a row of pairs, a tray and
 *   the pair of a sample as any array of uint32_t, a summary as any array of int64_t. The memories lent to one call must not overlap. Where a
 *   length or count is 0, nothing is read through the pointer.
 * - The same question always gets the same answer; a pair in a record as in a sheet, and in a tray that calls have filled.
 * - A refused sheet, the buffer of a refused writing, a record that is not 16 bytes, a row of a constant that is not 3 numbers or of a span
 *   that is not 2, the row of a refused constant or of refused limits, and all memory lent to a refused call with a tray are left as they were.
 *   vi_pair and vi_sheet fill the record of a refused pair as any other, with the pair's number and zeros; a refused pair does not stop its
 *   sheet.
 *
 * Numbers in bytes are least significant first.
 */
#ifndef VISCOSITY_INDEX_H
#define VISCOSITY_INDEX_H

#include <stddef.h>
#include <stdint.h>

/* The limits of u and y, in thousandths of a mm²/s. */
#define VI_Y_LEAST 2000u          /* 2 mm²/s */
#define VI_Y_GREATEST 500000u     /* 500 mm²/s */
#define VI_U_LEAST 0u             /* but u must be greater than y */
#define VI_U_GREATEST 1000000000u /* 1,000,000 mm²/s */

/* The number of a pair. The questions are asked in this order; the first that is answered no gives its number. */
#define VI_ANSWERED 0u       /* every question is answered yes */
#define VI_Y_BELOW_LEAST 1u  /* Is y at least 2,000? */
#define VI_Y_ABOVE_MOST 2u   /* Is y at most 500,000? */
#define VI_U_ABOVE_MOST 3u   /* Is u at most 1,000,000,000? */
#define VI_U_NOT_ABOVE_Y 4u  /* Is u greater than y? */
#define VI_RECORD_NOT_16 5u  /* asked first by vi_pair: Is the record just 16 bytes? Calls with a tray have VI_TRAY_NOT_LENT. */

/* The number of a span, likewise; VI_ANSWERED where every question is answered yes. After 41 and 42 come the pair's own questions: 1 of y1, 2 of y2,
   3 of u2, and 4 of u1 against y2. */
#define VI_SPAN_NOT_2 5u         /* asked first: Is the row just 2 numbers? */
#define VI_LOWER_ABOVE_UPPER 41u /* Is u1 at most u2, and y1 at most y2? */
#define VI_LIMITS_TOO_WIDE 42u   /* Is y2 - y1 at most VI_SPAN_WIDEST? */
#define VI_SPAN_WIDEST 200u      /* 0.2 mm²/s */

/* The row of a span: two numbers with sign, at these places. */
#define VI_SPAN_SIZE 2u     /* numbers, not bytes */
#define VI_SPAN_LEAST 0u    /* the least index over all y at u2 */
#define VI_SPAN_GREATEST 1u /* the greatest index over all y at u1 */

/* The number of a sheet, likewise. Sums are taken as whole numbers and do not wrap. */
#define VI_ACCEPTED 0u       /* every question is answered yes */
#define VI_SHEET_SHORT 11u   /* Has the buffer 16 bytes or more? */
#define VI_SHEET_TOTAL 12u   /* Does the total equal the buffer's length? */
#define VI_SHEET_COUNT 13u   /* Is n at most 2,000? */
#define VI_SHEET_PAIRS 14u   /* Does the pair block begin at 16 or later and end (offset + 8n) within the total? */
#define VI_SHEET_RESULTS 15u /* The same for the result block (offset + 16n)? */
#define VI_SHEET_SHARED 16u  /* Do the blocks share no byte? */

/* The number of a writing, likewise. n is the count of pairs in the row, half of that of its numbers. */
#define VI_WRITTEN 0u           /* every question is answered yes */
#define VI_ROW_ODD 51u          /* Has the row an even count of numbers? */
#define VI_ROW_TOO_LONG 52u     /* Has it at most 2,000 pairs? */
#define VI_BUFFER_NOT_SHEET 53u /* Has the buffer just 16 + 24n bytes, VI_SHEET_SIZE(n)? */

/* The limits of the constant's density at 15 °C, in 0.0001 g/ml, and of its viscosity at 40 °C or 100 °C, in thousandths of a mm²/s. */
#define VI_DENSITY_LEAST 5000u              /* 0.5 g/ml */
#define VI_DENSITY_GREATEST 15000u          /* 1.5 g/ml */
#define VI_CONSTANT_40_LEAST 5501u          /* 5.501 mm²/s */
#define VI_CONSTANT_40_GREATEST 1000000000u /* 1,000,000 mm²/s */
#define VI_CONSTANT_100_LEAST 801u          /* 0.801 mm²/s */
#define VI_CONSTANT_100_GREATEST 500000u    /* 500 mm²/s */

/* The number of a constant, likewise; VI_ANSWERED where every question is answered yes. */
#define VI_CONSTANT_NOT_3 5u       /* asked first: Is the row just 3 numbers? */
#define VI_VISCOSITY_OUTSIDE 21u   /* Is the viscosity within the range of its temperature? */
#define VI_DENSITY_OUTSIDE 22u     /* Is the density from 5,000 to 15,000? */
#define VI_DIVISOR_NOT_ABOVE_0 23u /* Is the formula's divisor above zero at both fractions? No oil within the limits meets this number. */

/* The row of a constant: three numbers with sign, at these places. */
#define VI_CONSTANT_SIZE 3u  /* numbers, not bytes */
#define VI_CONSTANT_K 0u     /* k, the constant in thousandths, from -905 to 2592: the formula lies from k - 0.51 to k + 0.51 thousandths */
#define VI_CONSTANT_LOWER 1u /* with the logarithm taken as lower / VI_Q, which is at or below it, and as upper / VI_Q, which is at or above */
#define VI_CONSTANT_UPPER 2u /* it. lower and upper are at most 64 apart. VI_Q has no sign: divide by (double)VI_Q. */

/* The number of a call with a tray, likewise; VI_ANSWERED where every question is answered yes. */
#define VI_TRAY_NOT_LENT 5u    /* asked first: Has each of the lent memories just its size? */
#define VI_NUMBER_HELD 31u     /* asked by vi_tray_put, after the pair's own questions, 1 to 4: Is the number not held yet? */
#define VI_TRAY_FULL 32u       /* asked by vi_tray_put after that: Is a place free? No only with 64 samples held. */
#define VI_NUMBER_NOT_HELD 33u /* asked by vi_tray_take: Is the number held? */

/* A sheet's header: four 32-bit numbers, at these offsets. The blocks stand in either order, with other bytes between. */
#define VI_HEADER_SIZE 16u    /* bytes */
#define VI_HEADER_COUNT 0u    /* n, the count of pairs */
#define VI_HEADER_PAIRS 4u    /* the offset of the pair block */
#define VI_HEADER_RESULTS 8u  /* the offset of the result block */
#define VI_HEADER_TOTAL 12u   /* the total length, in bytes */
#define VI_MOST_PAIRS 2000u   /* the greatest n */

/* The bytes of a sheet of n pairs as vi_write_sheet writes it, with nothing between its blocks. */
#define VI_SHEET_SIZE(n) (VI_HEADER_SIZE + (VI_PAIR_SIZE + VI_RECORD_SIZE) * (n))

/* A pair: two 32-bit numbers, at these offsets. Pair i stands at the pair offset + 8i. */
#define VI_PAIR_SIZE 8u /* bytes */
#define VI_PAIR_U 0u    /* u */
#define VI_PAIR_Y 4u    /* y */

/* A record, the result of a pair, by offsets. Record i stands at the result offset + 16i. What does not apply is zero. */
#define VI_RECORD_SIZE 16u   /* bytes */
#define VI_RECORD_NUMBER 0u  /* one byte: the pair's number, 0 if it is answered */
#define VI_RECORD_METHOD 1u  /* one byte: the method; the two bytes after it are zero */
#define VI_RECORD_INDEX 4u   /* 32 bits with sign, two's complement: the index */
#define VI_RECORD_LOWER 8u   /* 32 bits: p, by procedure B */
#define VI_RECORD_UPPER 12u  /* 32 bits: P, by procedure B */

/* The methods. L and H are the viscosities at 40 °C of the standard's two reference oils that have this y; U is u in their units. */
#define VI_METHOD_REFUSED 0u   /* the pair is refused by the question of its number */
#define VI_METHOD_A 1u         /* u at or above H: the index is 100 (L - U) / (L - H) to the nearest, exactly a half to the even number */
#define VI_METHOD_B_SETTLED 2u /* u below H: the standard's exact value is from k - 0.5 to k + 0.5, k the index */
#define VI_METHOD_B_NEAR 3u    /* u below H: it is from k - 0.51 to k - 0.49, too close to a half to say more */

/* p / Q and P / Q enclose the standard's N, and a constant's two fractions the logarithm in its formula; whole-number powers show it. The index by B is at
   most 10,000. */
#define VI_Q 16777216u
#define VI_INDEX_B_GREATEST 10000

/* A tray: 64 places of 8 numbers each, one behind the other, and behind them the summary that it keeps of its samples. Place i begins at number
   VI_PLACE_SIZE * i. All zeros is the empty tray. Any numbers are some tray. A tray may be stored and loaded again, or lent from other memory at each
   call.
   Before change request #105 a tray had 512 numbers, the places alone: compile what calls with a tray again. A tray of that size gets VI_TRAY_NOT_LENT. Do
   not lengthen a stored one with zeros: it would say that no sample is held. Put its samples into a new tray.
   Before change request #106 exactly a half by A went to the greater number. A sample keeps the index that it was put in with. */
#define VI_TRAY_SIZE 521u  /* numbers of 32 bits, not bytes: 2,084 bytes */
#define VI_TRAY_PLACES 64u /* a sample each */
#define VI_TRAY_KEPT 512u  /* where the kept summary begins */

/* A place, by its numbers. It is free where its method is 0, whatever else stands in it. */
#define VI_PLACE_SIZE 8u   /* numbers, not bytes; the last is 0 in a sample that was put in */
#define VI_PLACE_METHOD 0u /* 0 free, 1 by A, 2 by B settled, 3 and any other by B near */
#define VI_PLACE_NUMBER 1u /* the number of the sample, any number of 32 bits; 0 and 4,294,967,295 are numbers like the others */
#define VI_PLACE_U 2u      /* its u */
#define VI_PLACE_Y 3u      /* its y */
#define VI_PLACE_INDEX 4u  /* the index: by A two's complement, by B without sign, and at most VI_INDEX_B_GREATEST where it was put in */
#define VI_PLACE_LOWER 5u  /* p, by procedure B; 0 in a sample by A that was put in */
#define VI_PLACE_UPPER 6u  /* P, likewise */

/* The kept summary, by its numbers. Each put and each take that is answered brings it up to date. An index and the sum are 64 bits in two's complement
   and take two numbers, the lower 32 bits first. Where the three counts are 0, it is the summary of no sample, whatever the other six are; these calls
   leave nine zeros then. */
#define VI_KEPT_SIZE 9u    /* numbers, not bytes */
#define VI_KEPT_LOWEST 0u  /* and 1: the lowest index */
#define VI_KEPT_HIGHEST 2u /* and 3: the highest index */
#define VI_KEPT_SUM 4u     /* and 5: the sum of indices */
#define VI_KEPT_A 6u       /* how many are by A */
#define VI_KEPT_SETTLED 7u /* by B, settled */
#define VI_KEPT_NEAR 8u    /* by B, near */

/* The pair of a sample that is taken out: two numbers, at these places. */
#define VI_SAMPLE_PAIR_SIZE 2u /* numbers, not bytes */
#define VI_SAMPLE_PAIR_U 0u    /* u */
#define VI_SAMPLE_PAIR_Y 1u    /* y */

/* The summary of a tray: seven numbers of 64 bits with sign, at these places. With no sample held, or where a tray that somebody else wrote counts none,
   all seven are 0. */
#define VI_SUMMARY_SIZE 7u    /* numbers, not bytes */
#define VI_SUMMARY_HELD 0u    /* how many samples are held; 0 says that the tray is empty */
#define VI_SUMMARY_LOWEST 1u  /* the lowest index */
#define VI_SUMMARY_HIGHEST 2u /* the highest index */
#define VI_SUMMARY_SUM 3u     /* the sum of indices, which may need more than 32 bits */
#define VI_SUMMARY_A 4u       /* how many are by A */
#define VI_SUMMARY_SETTLED 5u /* by B, settled */
#define VI_SUMMARY_NEAR 6u    /* by B, near */

#ifdef __cplusplus
extern "C" {
#endif

/*
 * The answer to one pair. `record` points to `length` bytes. If length is not VI_RECORD_SIZE, answers VI_RECORD_NOT_16 and leaves them as
 * they are. Otherwise fills the record, all 16 bytes of it, and answers the pair's number, VI_ANSWERED or one of 1 to 4.
 */
uint32_t vi_pair(uint32_t u, uint32_t y, uint8_t *record, size_t length);

/*
 * The span of the index where u is known from u1 to u2 and y from y1 to y2. `row` points to `count` numbers (not bytes). If count is not
 * VI_SPAN_SIZE, answers VI_SPAN_NOT_2 and leaves them as they are. If the limits are refused, answers 41, 42 or one of 1 to 4 and leaves them too.
 * Otherwise fills the row and answers VI_ANSWERED: the least index over all whole y from y1 to y2 at u2, and the greatest over all of them at u1.
 * No pair inside the limits has an index below the one or above the other. Each is the index that vi_pair gives to some pair inside, but that need
 * not be one at y1 or at y2: with u 2,201 the index is 4,805 at y 2,164 and at y 2,195, and 4,806 between.
 */
uint32_t vi_span(uint32_t u1, uint32_t u2, uint32_t y1, uint32_t y2, int32_t *row, size_t count);

/*
 * Works a sheet of `length` bytes. Answers VI_ACCEPTED, and then the result block holds the record of each pair, in the order of the
 * pairs, and every other byte is as it was; or one of 11 to 16, and then every byte is as it was.
 */
uint32_t vi_sheet(uint8_t *sheet, size_t length);

/*
 * Writes a sheet of pairs. `row` points to `count` numbers (not bytes), u then y of each pair, `buffer` to `length` bytes. Answers VI_WRITTEN, and then
 * the buffer is a sheet that vi_sheet accepts: the header, the pairs from offset 16 on, and straight after them the result block, all zeros. What the
 * buffer held before does not matter. Otherwise answers one of 51 to 53 and leaves every byte as it was. The numbers of a pair are any numbers of 32
 * bits: whether they are those of an oil is asked when the sheet is worked.
 * Two written sheets have the same bytes exactly when they have the same pairs, in the same order.
 */
uint32_t vi_write_sheet(const uint32_t *row, size_t count, uint8_t *buffer, size_t length);

/*
 * The viscosity-gravity constant of an oil, by formulas 1 and 2 of INSO 21904:2016 (after ASTM D2501), with G the density at 15 °C in g/ml, V and
 * V' the viscosities at 40 °C and 100 °C in mm²/s, and log to the base 10:
 *     vi_constant_40    (G - 0.0664 - 0.1154 log(V - 5.5)) / (0.94 - 0.109 log(V - 5.5))
 *     vi_constant_100   (G - 0.108 - 0.1255 log(V' - 0.8)) / (0.90 - 0.097 log(V' - 0.8))
 * `viscosity` is in thousandths of a mm²/s, `density` in 0.0001 g/ml. `row` points to `count` numbers (not bytes). If count is not
 * VI_CONSTANT_SIZE, answers VI_CONSTANT_NOT_3 and leaves them as they are. If the oil is refused, answers 21, 22 or 23 and leaves them too.
 * Otherwise fills the row and answers VI_ANSWERED.
 */
uint32_t vi_constant_40(uint32_t viscosity, uint32_t density, int32_t *row, size_t count);
uint32_t vi_constant_100(uint32_t viscosity, uint32_t density, int32_t *row, size_t count);

/*
 * Puts a sample into a tray. `tray` points to `tray_count` numbers, `record` to `length` bytes. Unless these are VI_TRAY_SIZE and VI_RECORD_SIZE,
 * answers VI_TRAY_NOT_LENT. Then the pair's questions are asked, 1 to 4, then 31 and 32. A refused call changes nothing, in the tray or in the
 * record. Otherwise the first free place of the tray holds the sample, the kept summary has it too, the record is the pair's answer, as vi_pair fills
 * it, and VI_ANSWERED is answered.
 * `number` is any number of 32 bits. It was a uint8_t before change request #104, here and in vi_tray_take: compile what calls them again. From an
 * empty tray on, calls with numbers up to 255 get the answers they got. Hand over a type without sign: a char that is below zero, which became a number
 * up to 255, now becomes one above 4,294,967,000.
 */
uint32_t vi_tray_put(uint32_t *tray, size_t tray_count, uint32_t number, uint32_t u, uint32_t y, uint8_t *record, size_t length);

/*
 * Takes a sample out of a tray. `pair` points to `pair_count` numbers (not bytes). Unless the sizes are VI_TRAY_SIZE, VI_SAMPLE_PAIR_SIZE and
 * VI_RECORD_SIZE, answers VI_TRAY_NOT_LENT; where the number is not held, 33. A refused call changes nothing. Otherwise the pair is u and y, the
 * record is the answer held with them, the place is free (its first number is 0, its other numbers are as they were), the kept summary is without the
 * sample, and VI_ANSWERED is answered. Where several places hold one number, which no list of calls from an empty tray leads to, it is the first of
 * them.
 * Where the lowest or the highest index leaves, the call goes over all places once more to find the summary of those that stay: another sample may
 * have the same index.
 */
uint32_t vi_tray_take(uint32_t *tray, size_t tray_count, uint32_t number, uint32_t *pair, size_t pair_count, uint8_t *record, size_t length);

/*
 * The summary of a tray, which is only read. `row` points to `row_count` numbers (not bytes). Unless the sizes are VI_TRAY_SIZE and
 * VI_SUMMARY_SIZE, answers VI_TRAY_NOT_LENT and leaves the row as it is. Otherwise fills the row and answers VI_ANSWERED.
 * The row is what the tray keeps: the call reads the last nine numbers and no place, and costs the same with 1 sample held as with 64. If these calls
 * alone wrote the tray, from zeros on, that is the summary of the samples held, after each put and take.
 * If somebody else wrote any of its numbers, puts and takes still go by the places alone and answer as always, and a summary still answers what is
 * kept, which may be another than that of the samples. Where what is kept is the summary of the samples, it stays so. Otherwise a put adds its sample to
 * what is kept, and a take takes its own off, where a count that is 0 stays 0. But a take finds the summary anew from the places where the three counts
 * are 0, and where the index of its sample is at or beyond the lowest or the highest kept; and so does any put or take where what is kept has an index
 * below -4,294,967,297 or above 4,294,967,296, a sum below -281,474,976,710,657 or above 281,474,976,710,656, or a count above 65,536.
 */
uint32_t vi_tray_summary(const uint32_t *tray, size_t tray_count, int64_t *row, size_t row_count);

#ifdef __cplusplus
}
#endif

#endif
