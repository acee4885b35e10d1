/*
 * Nomyugereka: the rule tables and the logs of tape decks, for programs in C and C++.
 *
 * A log is a string of bytes, each of them a letter: plain, an open or a close. A rule table, a visibly pushdown
 * automaton as bytes, says which logs a deck can write. A log is accepted if a run of the table on it leads from an
 * initial to a final state with nothing on the stack before and after.
 *
 * The usual way: check a table as it was drawn, trim it, keep the trimmed one. For each log: begin, one letter after
 * the other, finish. On a trimmed table the reader stops at the first letter after which no accepted log is possible
 * any more. On a table that was not trimmed it may go on in a branch that leads nowhere.
 *
 * What the caller sees to:
 * - A pointer is valid for as many elements as the length beside it says, and aligned for its type.
 * - With length 0 the pointer may be NULL. The two results of nomyugereka_balance have no length: never NULL.
 * - What a call may write overlaps nothing else that it is given, and nobody else uses it during the call.
 * - The memory has been given some value before, as static arrays are: calls copy what they later overwrite.
 * Any value will do: each call checks what it is given and refuses what is bad.
 *
 * Calls keep no state of their own. Several threads may call at once, and read the same table and the same log. Of
 * other libraries only memcpy and memset are needed.
 *
 * That each call ends, answers and leaves memory as told here is proved of the code of the library. What is tested:
 * NULL, that 256 KB of stack are enough for each call, and that this header fits the library.
 */
#ifndef NOMYUGEREKA_H
#define NOMYUGEREKA_H

#include <stddef.h>
#include <stdint.h>

#ifdef __cplusplus
extern "C" {
#endif

/*
 * A table as bytes. Numbers of two bytes have the higher one first.
 *   2 bytes   L, how many bytes follow these two: 6 + m + n + 4t
 *   1 byte    the version, 1
 *   3 bytes   n, m, g: how many states, letters and stack marks there are
 *   2 bytes   t, how many moves there are
 *   m bytes   the kind of each letter: 0 is plain, 1 an open, 2 a close
 *   n bytes   what each state is: 0 neither, 1 initial, 2 final, 3 both
 *   4t bytes  for each move: from which state, by which letter, with which mark, to which state
 * States, letters and marks are numbered from 0. Each move is greater than the one before it, compared byte by byte.
 * In a plain move the mark is 0 and means nothing; that holds without any marks too.
 */
#define NOMYUGEREKA_STATES 64         /* most states in a table */
#define NOMYUGEREKA_LETTERS 32        /* most letters in a table */
#define NOMYUGEREKA_MARKS 64          /* most stack marks in a table */
#define NOMYUGEREKA_MOVES 1024        /* most moves in a table */
#define NOMYUGEREKA_TABLE_BYTES 4200  /* bytes of the largest table: room enough for every written or trimmed one */

#define NOMYUGEREKA_LOG_LETTERS 16777215  /* letters of the longest log that is read */
#define NOMYUGEREKA_SHOWN_LETTERS 4096    /* letters of the longest log that nomyugereka_shortest writes */
#define NOMYUGEREKA_DEPTH 32              /* most opens that a reader holds unclosed */

/* Numbers of 16 bits to lend as scratch. Further ones are not touched. */
#define NOMYUGEREKA_SCRATCH_NUMBERS 16384

/*
 * Bytes to lend as a reader's state: 2,148 words of 64 bits, each with its lowest byte first. They may stand at any
 * address. Further bytes are not touched. Between calls a state may be copied, stored and sent elsewhere.
 *   word 0       how many letters were taken, at most 16,777,215
 *   word 1       the depth: how many opens are not closed yet, at most 32
 *   word 2       1 in a stopped reader, 0 in a running one
 *   then         a block of 65 words for every depth from 0 to 32
 *   a block      the letter that opened it (0 at depth 0), then 64 rows; bit k of row j is set for the pair (j, k)
 * A pair (j, k) says that since the block began a run led from state j to state k. Blocks deeper than the depth are 0.
 */
#define NOMYUGEREKA_STATE_BYTES 17184

/* An answer is kind * 2^32 + value. The value is 0 where the kind gives it no meaning. */
#define NOMYUGEREKA_REFUSED 0     /* value: the number of the refusal, see below */
#define NOMYUGEREKA_GOING 1       /* the reader is running */
#define NOMYUGEREKA_ACCEPTED 2    /* the log is accepted */
#define NOMYUGEREKA_UNFINISHED 3  /* the reader is running, but what it took is not an accepted log */
#define NOMYUGEREKA_STOP 4        /* value: the place, which is how many letters were taken before the stop */
#define NOMYUGEREKA_WRITTEN 5     /* value: how many bytes were written, 0 for a log without letters */
#define NOMYUGEREKA_NO_LOG 6      /* the table accepts no log */
#define NOMYUGEREKA_GOOD 7        /* the table is good; of nomyugereka_balance: both results are written */

static inline uint32_t nomyugereka_kind(uint64_t answer) { return (uint32_t)(answer >> 32); }
static inline uint32_t nomyugereka_value(uint64_t answer) { return (uint32_t)(answer & 0xFFFFFFFFu); }

/*
 * Refusals. Where several apply, the one given is the first in the order that the call lists. The numbers 1 to 6 are
 * about the table; every call tries them first, in this order.
 */
#define NOMYUGEREKA_REFUSAL_LENGTH 1   /* the table has less than 8 bytes, or not exactly L + 2 */
#define NOMYUGEREKA_REFUSAL_VERSION 2  /* its version is another than 1 */
#define NOMYUGEREKA_REFUSAL_LIMIT 3    /* it has too many states, letters, marks or moves */
#define NOMYUGEREKA_REFUSAL_SIZE 4     /* its L is not 6 + m + n + 4t */
#define NOMYUGEREKA_REFUSAL_LIST 5     /* a letter's kind is above 2, or the byte of a state above 3 */
#define NOMYUGEREKA_REFUSAL_MOVE 6     /* a move names what is not there, is plain with a mark, or does not rise */
#define NOMYUGEREKA_REFUSAL_LENT 7     /* scratch has too few numbers, or a reader's state too few bytes */
#define NOMYUGEREKA_REFUSAL_LARGE 8    /* trimmed, the table would have too many states, marks or moves */
#define NOMYUGEREKA_REFUSAL_ROOM 9     /* the output is too short for what is to be written */
#define NOMYUGEREKA_REFUSAL_LONG 10    /* logs are accepted, and all of them have more than 4,096 letters */
#define NOMYUGEREKA_REFUSAL_LETTER 11  /* the table does not have this letter */
#define NOMYUGEREKA_REFUSAL_LETTERS 12 /* the log would get longer, or is longer, than 16,777,215 letters */
#define NOMYUGEREKA_REFUSAL_DEPTH 13   /* an open letter comes when 32 are unclosed */
#define NOMYUGEREKA_REFUSAL_STATE 14   /* the bytes are not a reader's state on this table */

/*
 * Is this a table?
 * Answers:   GOOD
 * Refusals:  1 to 6
 */
uint64_t nomyugereka_check(const uint8_t *table, size_t table_len);

/*
 * Writes a table back: the same bytes.
 * Answers:   WRITTEN, with the table's length
 * Refusals:  1 to 6, 9
 * out:       begins with the table after WRITTEN, and keeps the bytes behind it; as before after a refusal
 */
uint64_t nomyugereka_write(const uint8_t *table, size_t table_len, uint8_t *out, size_t out_len);

/*
 * Writes the trimmed table. It accepts the logs that the original accepts, run for run, has the same letters, and from
 * whatever its runs reach an accepting run can still be completed. It may be larger than the original. If the original
 * accepts nothing, only the letters are left: no state, no mark, no move.
 * Answers:   WRITTEN, with the trimmed table's length
 * Refusals:  1 to 6, 7 (scratch), 8, 9
 * scratch:   as before after 1 to 7; after all else the first 16,384 numbers are 0
 * out:       begins with the trimmed table after WRITTEN, and keeps the bytes behind it; as before after a refusal
 */
uint64_t nomyugereka_trim(const uint8_t *table, size_t table_len, uint16_t *scratch, size_t scratch_len, uint8_t *out,
                          size_t out_len);

/*
 * Writes an accepted log than which none is shorter. If several are that short it may be any of them.
 * Answers:   NO_LOG; WRITTEN, with the number of letters (0 if the empty log is accepted; no room is needed then)
 * Refusals:  1 to 6, 7 (scratch), then NO_LOG is answered if it applies, then 10, 9
 * scratch:   as before after 1 to 7; after all else the first 16,384 numbers are 0
 * out:       begins with the log after WRITTEN, and keeps the bytes behind it; as before after NO_LOG and refusals
 */
uint64_t nomyugereka_shortest(const uint8_t *table, size_t table_len, uint16_t *scratch, size_t scratch_len,
                              uint8_t *out, size_t out_len);

/*
 * Begins a reader. What the state held before does not matter.
 * Answers:   GOING; STOP with place 0 if no state of the table is initial, and then the reader is stopped
 * Refusals:  1 to 6, 7 (state)
 * state:     the first 17,184 bytes are written after GOING and STOP; as before after a refusal
 */
uint64_t nomyugereka_begin(const uint8_t *table, size_t table_len, uint8_t *state, size_t state_len);

/*
 * Gives the reader one letter. A reader that is stopped answers each letter with the STOP it gave first, even one that
 * the table does not have. A running one stops if no pair is left after the letter, or at a close at depth 0.
 * Answers:   GOING, the letter is taken; STOP, with the letters taken before it counted as the place
 * Refusals:  1 to 6, 7 (state), 14, then STOP is answered if it is stopped already, then 11, 12, 13, then the step
 *            12 comes for any letter of the table after 16,777,215 letters, even where the step would stop
 *            13 comes for any open letter at depth 32, even if no move takes it
 *            14 looks at all blocks, of a stopped reader too: a leading word too large; a block's letter that this
 *            table does not have or that is not an open (at depth 0: not 0); a pair with a state that this table does
 *            not have; anything but 0 in blocks deeper than the depth. A running state without any pair is legal.
 * state:     the next one after GOING; after the first STOP only word 2 differs; as before after all else. So a refused
 *            letter is not taken, and another one may be given.
 * A state may be carried to another table, which then judges it. What is said of trimmed tables holds for a reader
 * that is kept on one table.
 */
uint64_t nomyugereka_letter(const uint8_t *table, size_t table_len, uint8_t *state, size_t state_len, uint8_t letter);

/*
 * Asks whether the letters taken are an accepted log. The reader may go on afterwards.
 * Answers:   ACCEPTED if it is running at depth 0 and holds a pair from an initial to a final state; UNFINISHED if it
 *            is running otherwise; STOP with its place if it is stopped
 * Refusals:  1 to 6, 7 (state), 14 as for a letter
 * state:     as before
 */
uint64_t nomyugereka_finish(const uint8_t *table, size_t table_len, uint8_t *state, size_t state_len);

/*
 * Reads a whole log: begins, gives each letter, finishes. The first STOP or refusal on the way is the answer. What the
 * state held before does not matter. The empty log is ACCEPTED if an initial state is final too.
 * Answers:   ACCEPTED; UNFINISHED; STOP with its place (0 without an initial state, whatever the letters are)
 * Refusals:  1 to 6, 7 (state), 12 if log_len is above 16,777,215, and then, at the first letter that meets one, 11, 13
 * state:     as before after 1 to 7 and 12; after all else, 11 and 13 too, its first 17,184 bytes are 0
 */
uint64_t nomyugereka_read_log(const uint8_t *table, size_t table_len, const uint8_t *log, size_t log_len,
                              uint8_t *state, size_t state_len);

/*
 * Counts opens less closes: over the whole log, and the least that some beginning of it has. The empty beginning has 0,
 * so *lowest is at most 0. Both are between -16,777,215 and 16,777,215. The moves of the table do not matter.
 * Answers:   GOOD
 * Refusals:  1 to 6, 12 if log_len is above 16,777,215, 11
 * *balance, *lowest:  both written after GOOD; as before after a refusal
 */
uint64_t nomyugereka_balance(const uint8_t *table, size_t table_len, const uint8_t *log, size_t log_len,
                             int32_t *balance, int32_t *lowest);

#ifdef __cplusplus
}
#endif

#endif
