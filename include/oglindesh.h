/* The proved Itanium visibility judge and search, for C.
 *
 * Link target/staticlib/libcapi.a, which `tools/library` writes; nothing else is needed. examples/k1.c shows every call.
 * docs/FORMAT.md says how a record is written, and has the questions and the rules by their numbers.
 *
 * In every call:
 * - A pointer and the length after it are of one array of bytes. The pointer is not NULL, also where the length is 0.
 * - A record, its sections and an order are only read. A buffer or a table is lent for the call; it overlaps no other array of
 *   the call.
 * - A number from OGLINDESH_REFUSED + 1 on says that a question refuses the call: it is OGLINDESH_REFUSED + the number of the
 *   first question answered 'no'. Then no lent byte has changed. (oglindesh_first has OGLINDESH_EMPTY_PART for all of these.)
 * - Nothing is kept between calls, so calls on different arrays may be made at the same time.
 * - Nothing is taken from the heap. What a call needs of the stack does not depend on what it is given; measured and rounded up:
 *   oglindesh_check 16 KB, oglindesh_judge 20 KB, oglindesh_search 64 KB, oglindesh_chains 48 KB, oglindesh_write 16 KB,
 *   oglindesh_solvers_copy 16 KB, oglindesh_compare 16 KB, oglindesh_first 16 KB.
 */
#ifndef OGLINDESH_H
#define OGLINDESH_H

#include <stddef.h>
#include <stdint.h>

#ifdef __cplusplus
extern "C" {
#endif

/* The version of what is declared here. MAJOR goes up where a caller has to change: a call, an answer's number, a question or the
 * layout of a record is another. MINOR goes up where something is added; while MAJOR is 0, for both. */
#define OGLINDESH_VERSION_MAJOR 0
#define OGLINDESH_VERSION_MINOR 8
#define OGLINDESH_VERSION "0.8"

/* What a refused call returns, less the number of the question. */
#define OGLINDESH_REFUSED 256u

/* What a refused call returns, and the question that was answered 'no'. Of the record: */
#define OGLINDESH_REFUSED_CUT_SHORT (OGLINDESH_REFUSED + 1u)             /* does the item end within the bytes? */
#define OGLINDESH_REFUSED_PROCESSOR_COUNT (OGLINDESH_REFUSED + 2u)       /* are there 1 to 8 processors? */
#define OGLINDESH_REFUSED_LINE_COUNT (OGLINDESH_REFUSED + 3u)            /* are there 1 to 8 lines? */
#define OGLINDESH_REFUSED_UNKNOWN_ATTRIBUTE (OGLINDESH_REFUSED + 4u)     /* is the attribute 0, 1, 2, 17, 33 or 49? */
#define OGLINDESH_REFUSED_TOO_MANY_INSTRUCTIONS (OGLINDESH_REFUSED + 5u) /* are there at most 40 with this count added? */
#define OGLINDESH_REFUSED_UNKNOWN_KIND (OGLINDESH_REFUSED + 6u)          /* is the kind 0 to 6? */
#define OGLINDESH_REFUSED_WRONG_SIZE (OGLINDESH_REFUSED + 7u)            /* is it 1, 2, 4, 8, of a load or store 16 (mf: 0)? */
#define OGLINDESH_REFUSED_WRONG_ADDRESS (OGLINDESH_REFUSED + 8u)         /* is it in the lines, a multiple of the size (mf: 0)? */
#define OGLINDESH_REFUSED_DATA_PAST_SIZE (OGLINDESH_REFUSED + 9u)        /* are data bytes past the size zero? */
/* No call returns OGLINDESH_REFUSED + 10: since 0.2 a record with no instruction passes, and the number stays unused. */
#define OGLINDESH_REFUSED_TOO_MANY_OPERATIONS (OGLINDESH_REFUSED + 11u)  /* is N at most 128? */
#define OGLINDESH_REFUSED_TOO_MANY_PAIRS (OGLINDESH_REFUSED + 12u)       /* are there at most 40 pairs? */
#define OGLINDESH_REFUSED_WRONG_PAIR (OGLINDESH_REFUSED + 13u)           /* ascending, one program, no mf, not both (only) stores? */
#define OGLINDESH_REFUSED_PAIRS_NOT_ASCENDING (OGLINDESH_REFUSED + 14u)  /* is the pair above the one before it? */
#define OGLINDESH_REFUSED_BYTES_LEFT (OGLINDESH_REFUSED + 15u)           /* does the record end here? */
#define OGLINDESH_REFUSED_SEMAPHORE_NOT_WB (OGLINDESH_REFUSED + 26u)     /* is a semaphore's line WB? asked after question 8 */
#define OGLINDESH_REFUSED_LINES_DIFFER (OGLINDESH_REFUSED + 27u)         /* have both lines of 16 bytes one attribute? after 8 */
/* Of an offered order: */
#define OGLINDESH_REFUSED_ORDER_LENGTH (OGLINDESH_REFUSED + 16u) /* is its length N? */
#define OGLINDESH_REFUSED_ORDER_ENTRY (OGLINDESH_REFUSED + 17u)  /* is each entry below N and different from those before it? */
/* Of a search: */
#define OGLINDESH_REFUSED_SHORT_BUFFER (OGLINDESH_REFUSED + 18u)       /* has the buffer N bytes or more? */
#define OGLINDESH_REFUSED_SAVED_LENGTH (OGLINDESH_REFUSED + 19u)       /* is the saved length at most N? */
#define OGLINDESH_REFUSED_SAVED_ENTRY (OGLINDESH_REFUSED + 20u)        /* is each below N and different from those before it? */
#define OGLINDESH_REFUSED_SAVED_INCONSISTENT (OGLINDESH_REFUSED + 21u) /* is the saved position consistent? */
/* Of a chain table: */
#define OGLINDESH_REFUSED_SHORT_TABLE (OGLINDESH_REFUSED + 22u) /* has it N * N bytes or more? */
/* Of the sections that a record is written out of, and of the buffer that it, or a record's copy, is written to: */
#define OGLINDESH_REFUSED_PARTIAL_ENTRY (OGLINDESH_REFUSED + 23u)   /* is each section a whole number of entries? */
#define OGLINDESH_REFUSED_WRONG_PROCESSOR (OGLINDESH_REFUSED + 24u) /* is each below the number of processors? */
#define OGLINDESH_REFUSED_SHORT_OUTPUT (OGLINDESH_REFUSED + 25u)    /* has the buffer the record's length or more? */

/* No record is longer: 8 lines, 40 instructions of 19 bytes (such as loads of 16) on 8 processors, 40 pairs, and the counts. A
 * buffer of this many bytes has room for every record that is written, and for every copy. */
#define OGLINDESH_MAX_RECORD 923

/* No record has more operations, so a buffer of this many bytes serves every search. */
#define OGLINDESH_MAX_OPERATIONS 128

/* The answer of a check. */
#define OGLINDESH_PASSES 0u /* the record passes questions 1 to 15, 26 and 27 */

/* Whether a record is one.
 *   PASSES    it passes questions 1 to 15, 26 and 27
 *   256 + q   question q refuses it, 1 to 15, 26 or 27
 */
uint32_t oglindesh_check(const uint8_t *record, size_t length);

/* The answer of a judge that is no rule. */
#define OGLINDESH_LEGAL 0u /* the order breaks no rule */

/* Judges an order of all N operations of a record, one byte an operation number.
 *   LEGAL     the order breaks no rule
 *   1 to 16   the lowest rule that it breaks
 *   256 + q   question q refuses it: 1 to 15, 26 and 27 the record, 16 and 17 the order
 */
uint32_t oglindesh_judge(const uint8_t *record, size_t length, const uint8_t *order, size_t entries);

/* The answers of a search. */
#define OGLINDESH_UNFINISHED 0u /* the allowance is used up and more is to be searched: go on from the position left */
#define OGLINDESH_ALLOWED 1u    /* the position left is the first legal order */
#define OGLINDESH_FORBIDDEN 2u  /* no legal order comes after the position given; from the empty one: there is none */

struct oglindesh_search_reply {
    uint32_t answer; /* one of the three, or 256 + q: 1 to 15, 26 and 27 the record, 18 to 21 the buffer and the position */
    uint32_t steps;  /* consistent prefixes that this call walked over; 0 where it is refused */
    size_t length;   /* of the position left, whose entries stand at the front of the buffer */
};

/* Searches on from the position of the first `saved` bytes of the buffer, with at most `allowance` steps. Begin with `saved` 0,
 * and go on with the length of the last reply, the same record and the buffer as it was left. However a search is cut into
 * calls, it comes to the same answer, order and sum of steps.
 *
 * The buffer has N bytes or more. Bytes behind the position left stay as they are; after FORBIDDEN and where the call is
 * refused, all do, and the length is the one given. With no instruction N is 0: every buffer has room, an empty one too, and
 * every search that begins with `saved` 0 is ALLOWED after 0 steps.
 */
struct oglindesh_search_reply oglindesh_search(const uint8_t *record, size_t length, uint8_t *buffer, size_t room, size_t saved,
                                               uint32_t allowance);

/* The answer of a chain table, and of a call that writes a record or its copy. */
#define OGLINDESH_DONE 0u /* it is written */

/* Writes the chain table of a record's N operations, N rows of N bytes: the byte at a * N + b becomes 1 where one or more links
 * (a 'before' that rules 1 to 8, 13 and 15 demand without an 'if') lead from operation a to operation b, else 0. Bytes behind
 * stay. Where it is 1, a stands before b in every order that is judged legal. Where a and b differ and it is 0, the links alone
 * let b stand before a; another rule may forbid it.
 *   DONE      it is written
 *   256 + q   question q refuses it: 1 to 15, 26 and 27 the record, 22 the table's length
 */
uint32_t oglindesh_chains(const uint8_t *record, size_t length, uint8_t *table, size_t room);

struct oglindesh_reply {
    uint32_t answer; /* DONE, or 256 + q */
    size_t length;   /* of the record or the copy, which stands at the front of the buffer; 0 where the call is refused */
};

/* Writes a record out of its number of processors and three sections without counts, for those who prepare them apart.
 *   lines         nine bytes each, as in the record
 *   instructions  twelve bytes each: the number of its processor, from 0, then the eleven of the record. Twenty bytes where the
 *                 record has nineteen: of kinds 5 and 6 at any size, of kinds 0 to 3 at size 16. Every other kind has twelve
 *   pairs         two bytes each, as in the record
 * Instructions may stand in any order: they are grouped by processor, and those of one processor keep their order. The numbers
 * of the pairs are those that the instructions have after the grouping. Pairs are not sorted: they have to ascend (14).
 *
 * The questions are asked in this order: 23 of the sections, 24 of the processor numbers, those of the record that would be
 * written, 25 of the buffer. More entries than a count can say are too many (3, 5 or 12). Bytes behind the record stay; where the
 * call is refused, all do. The answer is one of:
 *   DONE      the record is written, and passes
 *   256 + q   question q refuses it: 23 or 24 the sections, 2 to 14, 26 or 27 the record, 25 the buffer's length
 */
struct oglindesh_reply oglindesh_write(uint8_t processors, const uint8_t *lines, size_t lines_length,
                                       const uint8_t *instructions, size_t instructions_length, const uint8_t *pairs,
                                       size_t pairs_length, uint8_t *buffer, size_t room);

/* Writes the solvers' copy of a record: the record without what was seen.
 *   kinds 0, 1   all data bytes are zero, of size 16 those of both halves
 *   kinds 5, 6   the first eight data bytes, what the semaphore saw, are zero; the other eight, what it wrote, stay
 * All other bytes are those of the record, what stores wrote among them, and the copy is as long. So records that differ only in
 * what was seen have the same copy. It passes questions 1 to 15, 26 and 27, but need not be an allowed execution.
 *
 * The questions of the record are asked first, then 25 of the buffer, which is another array than the record's. Bytes behind the
 * copy stay; where the call is refused, all do. The answer is one of:
 *   DONE      the copy is written; its length is the record's
 *   256 + q   question q refuses it: 1 to 15, 26 or 27 the record, 25 the buffer's length
 */
struct oglindesh_reply oglindesh_solvers_copy(const uint8_t *record, size_t length, uint8_t *buffer, size_t room);

/* The answers of a comparison. */
#define OGLINDESH_EQUAL 0u       /* some renumbering of processors turns one record into the other */
#define OGLINDESH_LEFT_FIRST 1u  /* they are not equal, and the left one stands first */
#define OGLINDESH_RIGHT_FIRST 2u /* they are not equal, and the right one does */

/* Compares two records, whatever numbers their processors have. A renumbering of the processors carries their
 * programs and pairs along: the instructions are numbered anew, and the pairs sorted. Of a line that no access touches attribute
 * and initial bytes do not count; an mf touches none, an access of 16 bytes two. How many lines there are does count.
 *
 * Records that are equal are all allowed or all forbidden; a search of each may find another order, after other steps. The order
 * of records that are not is that of their smallest forms: of all records that the renumberings make of one, untouched lines taken
 * as zero, the smallest byte by byte. The two records may lie in one array, and may be the same.
 *   EQUAL         they are equal
 *   LEFT_FIRST    they are not, and the left one stands first
 *   RIGHT_FIRST   they are not, and the right one stands first
 *   256 + q       question q refuses the left record, or where that passes the right one: 1 to 15, 26 or 27
 */
uint32_t oglindesh_compare(const uint8_t *left, size_t left_length, const uint8_t *right, size_t right_length);

/* What is handed back of two records. */
#define OGLINDESH_EMPTY_PART 0u   /* the first 0 bytes of the left record */
#define OGLINDESH_LEFT_RECORD 1u  /* the left record */
#define OGLINDESH_RIGHT_RECORD 2u /* the right record */

/* Hands back whichever of two records stands first in the order of oglindesh_compare, the left one where they are equal.
 *   LEFT_RECORD    it stands first, or they are equal
 *   RIGHT_RECORD   it stands first
 *   EMPTY_PART     a question refuses one of the records; oglindesh_compare says which question
 */
uint32_t oglindesh_first(const uint8_t *left, size_t left_length, const uint8_t *right, size_t right_length);

#ifdef __cplusplus
}
#endif

#endif
