/* The aiming bench as a library for C and Rust: IEEE 754 functions on floats, and a sheet of points, directions and planes on which commands run.

   `rt lib` in crates/capi proves the functions and writes them to crates/capi/out/libcapi.a. A program needs this header and that file, and no other library but C's own.

   In every call the caller sees to it
   - that a pointer is not NULL, not even beside a count of 0, and that there are as many numbers or bytes behind it as the count beside it says;
   - that what a function may write to overlaps nothing else that is lent in the same call;
   - that the processor rounds to nearest and does not flush subnormal numbers to zero, as it does where a program has not changed that.
   Any numbers and bytes are allowed. No function keeps anything between calls outside the memory that it is lent, so threads may call at the same time, each with memory of its own. */
#ifndef BENCH_H
#define BENCH_H

#include <stddef.h>
#include <stdint.h>

#ifdef __cplusplus
extern "C" {
#endif

/* ---- Functions on numbers. A result that is a NaN may be any NaN. */

/* The square root of x, rounded to the nearest float. */
float bench_sqrt(float x);

/* Whether this root is exact: 1 where its square is x, without rounding, else 0. The root of either zero is exact; infinity, NaNs and all below zero have no exact root. */
uint32_t bench_sqrt_is_exact(float x);

/* a times b plus c, rounded once. */
float bench_mul_add(float a, float b, float c);

/* x rounded to a whole number: toward zero, down, and to the nearest, ties to even. */
float bench_trunc(float x);
float bench_floor(float x);
float bench_round(float x);

/* The exact remainder of a by b, of the quotient cut toward zero, with the sign of a: what C's fmodf and Rust's % give. */
float bench_rem(float a, float b);

/* ---- A sheet, its commands and their answers.

   A sheet has 64 rows, numbered from 0 to 63. A row is empty, or it holds a point or a direction, three floats, or a plane, a direction that is its normal and a float, its offset: a point p lies in it where
   normal.p is the offset. A fresh sheet is empty. A command reads rows, may write one or two, and is answered.
   A sheet remembers the last 64 commands among 0 to 24, 34 and 36 that were done and not taken back; refused ones and the others are not remembered.

   A command is seven numbers: its own number, the row t that it writes, the rows a and b that it reads, and the values u, v and w, which are the bits of floats (0x3f800000 is 1). Fields that a
   command does not use may hold any number. a and b below stand for what these rows hold before anything is written.

      0  t         empties t                             17  t a       floor of a, component by component
      1  t u v w   the point (u, v, w)                   18  t a       a rounded, ties to even
      2  t a       direction of a                        19  t a b     Euclidean quotient of a by b
      3  t a b     a + b                                 20  t a b     Euclidean remainder of a by b
      4  t a b     a - b                                 21  t a       a vector orthogonal to a
      5  t a b     cross product of a and b              22  t a b     direction of a reflected at the normal b
      6  t a b     lesser components of a and b          23  t a b u   direction of a refracted at the normal b by u
      7  t a b     greater components of a and b         24  t a       two directions orthogonal to a, into t and t + 1
      8  t a u     a times u                             25  a b       dot product of a and b
      9  t a b u v w   a times b plus (u, v, w),         26  a         length of a
                       rounded once                      27  a b       distance of a and b
     10  t a u v   a with its length between u and v     28  a b       angle between a and b
     11  t a b     a projected onto b                    29  a         position (0 to 2) of the least component of a
     12  t a b     a rejected from b                     30  a         position (0 to 2) of the greatest component of a
     13  t a b u   from a to b by the share u            31  a b       bits 1, 2 and 4 where x, y and z of a are at most b's
     14  t a b u   from a towards b by u                 32  a         shows a
     15  t a b     midpoint of a and b                   33            takes back the latest command that is remembered
     16  t a       a cut toward zero
     34  t a b     the plane through point a with direction b as its normal; its offset is b.a
     35  a b       how far point a is over plane b: a's dot product with the normal, less the offset
     36  t a b u   the point where the line from point a along direction b, to either side, meets the plane in the row whose number is u itself (3 for row 3, not the bits of a float):
                   a + b * ((offset - n.a) / (n.b)), n the normal, rounded after each operation
     37  a         the offset of plane a

   The rows that 2 to 21 and 25 to 31 read are points or directions, those of 22 to 24 directions, and that of 32 is not empty.
   Commands 2 and 22 to 24 make t a direction, 1, 3 to 21 and 36 a point, 34 a plane. After 33 all rows are as they were before the command that it takes back, both rows of 24 among them; that command
   is no longer remembered, and nothing can be redone.

   An answer is six numbers: refusal, row, kind and three values. The refusal is 0 where the command was done, and then row and values are, by the kind,

     0  a row that is empty, t of command 0 or in 33 that of the command taken back; the values are 0
     1  a row that is a point, t, in command 32 a, or in 33 row t of the command taken back, as it is now; the values are the bits of its floats
     2  a row that is a direction, likewise
     3  row 0; the first value is the bits of a float (commands 25 to 28, 35 and 37), the others are 0
     4  row 0; the first value is a whole number (commands 29 to 31), the others are 0
     5  as 3, in place of it in 26 and 27 where the root is exact: its square is the sum of squares under it, which may itself have been rounded
     6  a row that is a plane, t of command 34, in 32 a, or in 33 row t of the command taken back, as it is now; the values are the bits of its normal's floats

   Where the refusal is not 0, no row has changed, the same commands are remembered, and the other five numbers are 0. Of these it is the first that holds, in the order 2, 3, 11, 4, 5, 8, 7, 12, 6:

     2  the command's number is above 37
     3  a row that the command uses is above 63, that of u in 36 among them, or t is 63 in 24
    11  in 33 no command is remembered
     4  a row that it reads is empty, or not of a kind that it reads: see above
     5  a value that it uses is not finite; in 10 not 0 <= u <= v; in 23 u is not from 0.25 to 4
     8  in 23 all is reflected and nothing refracted
     7  in 2 all three numbers of row a are 0 or -0; in 11 and 12 with a point b, 1/(b.b) is not finite; in 28 a squared length is 0
    12  in 36 n.b is 0 or -0 as it is computed
     6  the point, the number or the offset is not finite

   A line or a list is refused by 1 where its form is wrong, and a call by 9 where it is lent too little: each function says what happens then. */

/* The numbers of a command and of an answer; the bytes of a command line without its line feed, and of an answer line with it. */
#define BENCH_COMMAND 7
#define BENCH_ANSWER 6
#define BENCH_LINE 45
#define BENCH_ANSWER_LINE 43

/* Runs a list of commands, one after another, on a fresh sheet of its own, and writes their answers, one behind another, to the first of the `lent` numbers; those behind them are left as they were.
   `count` is how many numbers the list has, seven for each command. Gives 0 where the list was run, whether or not commands in it are refused.
   Gives 9 where `lent` is less than six for each whole command of the list, and else 1 where `count` is not a multiple of seven; then nothing is run and nothing is written. */
uint32_t bench_run(const uint32_t *commands, size_t count, uint32_t *answers, size_t lent);

/* ---- A sheet that a program keeps.

   It lies in the first bench_words() of the `words` words that the program lends to each call; those behind it are always left as they were. What a sheet's words hold is the library's matter, but for this:
   zeros are a fresh sheet, a copy of the words is a copy of the sheet with what it remembers, and a command that is refused or is one of 25 to 32, 35 and 37 leaves every word as it was. */

/* How many words a sheet has. */
size_t bench_words(void);

/* Makes the first bench_words() words a fresh sheet, by setting them to 0, and gives 0.
   Gives 9 where `words` is less than that, and then no word is changed. */
uint32_t bench_fresh(uint32_t *sheet, size_t words);

/* Runs one command on the sheet, writes its answer to the first six of the `lent` numbers, leaves those behind them, and gives the answer's refusal.
   Gives 9 where `lent` is less than six, and then nothing is run and nothing is written. Where the numbers for the answer suffice and `words` is less than bench_words(), it gives 9 too,
   and the answer that it writes is refusal 9 with zeros; no word of the sheet is changed. */
uint32_t bench_step(uint32_t *sheet, size_t words, uint32_t number, uint32_t t, uint32_t a, uint32_t b, uint32_t u, uint32_t v, uint32_t w, uint32_t *answer, size_t lent);

/* Runs the command of one line on the sheet, writes its answer line, 42 bytes and a line feed, over the first 43 of the `lent` bytes, leaves those behind them, and gives the answer's refusal.
   The line is `length` bytes without a line feed: 45 for a command. Its number, t, a and b stand in three columns each and u, v and w in eleven, in decimal, after blanks and up to the
   field's right edge, without leading zeros.
   The answer line has refusal, row and kind in three columns each and the values in eleven, written likewise. No byte 0 is written behind it.
   Gives 9 where `lent` is less than 43, and then nothing is run and nothing is written. Otherwise gives 1 where the line has not 45 bytes, a field is ill formed or a value is above 4294967295,
   and else 9 where `words` is less than bench_words(); then the answer line shows that refusal with zeros, and no word of the sheet is changed. */
uint32_t bench_respond(uint32_t *sheet, size_t words, const uint8_t *line, size_t length, uint8_t *answer, size_t lent);

/* Runs a list of commands on the sheet as bench_run does on a fresh one: the first command gets the sheet as it is, each later one as the one before left it.
   Gives 0 where the list was run. Gives 9 where `words` is less than bench_words() or `lent` is less than six for each whole command, and else 1 where `count` is not a multiple of seven;
   then nothing is run, nothing is written and no word of the sheet is changed. */
uint32_t bench_run_on(uint32_t *sheet, size_t words, const uint32_t *commands, size_t count, uint32_t *answers, size_t lent);

#ifdef __cplusplus
}
#endif

#endif
