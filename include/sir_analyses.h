/* Questions about an image of the intermediate form: order, predecessors, uses, liveness, allocations, records, a chart of
 * the lifetimes; and the pages of an image from its records.
 *
 * Each function but sir_write takes the image as a pointer and a length in bytes, the ids asked about where the question has
 * any, and a result slice as a pointer and a length in bytes. sir_write takes records where the others take an image, and no
 * ids. No function keeps a pointer.
 *
 * On success the number is 0, `length` counts the bytes of the answer, and the answer stands at the front of the result
 * slice as little-endian 32-bit words, that of sir_write as pages of such words, that of sir_chart as text; bytes past it stay
 * as they were. A refusal gives its number and length 0, and the result slice keeps its bytes. Of several refusals that apply
 * the first in the sequence of `enum sir_refusal` is given; sir_write alone has a sequence of its own, which stands where it is
 * declared.
 *
 * The caller owes: memory of the stated length at each pointer, readable for the image or the records and writable for the
 * result, both for the time of the call; a result slice that does not overlap the image or the records; a null pointer only
 * with length 0. Ids, lengths and the bytes of the image or the records may be any.
 *
 * A function `sir_all_..` puts a question about one id for all ids: it gives the answers for ids 0, 1, .. in turn, each after
 * its length in words, which is one word. There is no id that could be unknown, so 13 is not given. Every other question
 * about ids is refused with 13 where one of them does not exist; sir_open alone also knows 15, which comes after 13 and
 * before 14.
 *
 * Lifetimes hold within a function: a walk follows successor edges from a function's entry and takes a call as one step,
 * so where two unmarked allocations do not cross (sir_crossing), no run of a function awaits reads of both at once, and the
 * two may share a place in that function's frame, provided that neither is open at the operation that makes the other
 * (sir_open): that operation may clear the buffer's bytes, also where the buffer's intervals begin later or are none.
 * Nothing follows for a caller and its callee, whose buffers are never both in one walk: a buffer that lives across a call
 * and a buffer of the callee must not share memory, whatever their intervals say.
 *
 * The functions may be called from several threads at once. Each needs less than 1 MiB of stack.
 */
#ifndef SIR_ANALYSES_H
#define SIR_ANALYSES_H

#include <stddef.h>
#include <stdint.h>

#ifdef __cplusplus
extern "C" {
#endif

/* Goes up by one where a function, or what one of them takes or gives, is added or changed. */
#define SIR_ANALYSES_VERSION 7

/* Why a call is refused, in the sequence in which the rules are asked of an image. */
enum sir_refusal {
    /* length 0, not a multiple of 512, or above 59,904 bytes */
    SIR_REFUSED_LENGTH = 1,
    /* some page number wrong */
    SIR_REFUSED_PAGE_NUMBER = 2,
    /* some page check wrong */
    SIR_REFUSED_PAGE_CHECK = 3,
    /* edition not 1 */
    SIR_REFUSED_EDITION = 4,
    /* a count above its limit, or no function, or no block */
    SIR_REFUSED_COUNT = 5,
    /* page count not the least that holds the words, or padding not zero; lent records of a wrong length */
    SIR_REFUSED_PAGE_COUNT = 6,
    /* operation code or control kind unknown, or an unused field not zero */
    SIR_REFUSED_UNKNOWN = 7,
    /* a range with start above end or end above its list, an id not below its count, or static id 4294967295 */
    SIR_REFUSED_RANGE = 8,
    /* operand counts wrong for the code */
    SIR_REFUSED_OPERAND_COUNT = 9,
    /* a block with successors whose output count differs from some successor's input count */
    SIR_REFUSED_OUTPUT_COUNT = 10,
    /* one local twice among a block's inputs */
    SIR_REFUSED_REPEATED_INPUT = 11,
    /* two allocations met in visited blocks with one base local */
    SIR_REFUSED_SHARED_BASE = 12,
    /* id asked for not below its count */
    SIR_REFUSED_UNKNOWN_ID = 13,
    /* an operation that the named block does not hold */
    SIR_REFUSED_NOT_IN_BLOCK = 15,
    /* result slice shorter than the answer */
    SIR_REFUSED_SHORT_RESULT = 14,
};

/* What marks an allocation: flags, which are added up. sir_allocation says when each is set. */
enum sir_mark_cause {
    /* an escaping operand */
    SIR_MARKED_BY_ESCAPING_OPERAND = 1,
    /* a return */
    SIR_MARKED_BY_RETURN = 2,
    /* a meeting */
    SIR_MARKED_BY_MEETING = 4,
};

/* What a call gives. */
typedef struct sir_answer {
    uint32_t number; /* 0, or an enum sir_refusal */
    uint64_t length; /* bytes of the answer; 0 for a refusal */
} sir_answer;

/* The order. For each function of it: id, block count, block ids. */
sir_answer sir_order(const uint8_t *image, size_t image_length, uint8_t *result, size_t result_length);

/* Rounds: passes of liveness until one pass adds no exit member, that pass included. One word. */
sir_answer sir_rounds(const uint8_t *image, size_t image_length, uint8_t *result, size_t result_length);

/* The predecessors of a block, repeats kept. A block that is not visited has none. */
sir_answer sir_predecessors(const uint8_t *image, size_t image_length, uint32_t block, uint8_t *result,
                            size_t result_length);

/* The locals live at the entry of a block, ids ascending. A block that is not visited has none. */
sir_answer sir_entry_set(const uint8_t *image, size_t image_length, uint32_t block, uint8_t *result,
                         size_t result_length);

/* The locals live at the exit of a block, ids ascending. A block that is not visited has none. */
sir_answer sir_exit_set(const uint8_t *image, size_t image_length, uint32_t block, uint8_t *result,
                        size_t result_length);

/* The uses of a local. For each: block; kind (0 operation, 1 control, 2 block output); operation index, 0, or
 * position. */
sir_answer sir_uses(const uint8_t *image, size_t image_length, uint32_t local, uint8_t *result, size_t result_length);

/* The intervals of a local. For each: block; start (0 block start, else operation + 1); end (operation + 1, or 4294967295
 * for block end). */
sir_answer sir_intervals(const uint8_t *image, size_t image_length, uint32_t local, uint8_t *result,
                         size_t result_length);

/* The owner of a local: allocation + 1, or 0. One word. */
sir_answer sir_owner(const uint8_t *image, size_t image_length, uint32_t local, uint8_t *result, size_t result_length);

/* An allocation: defining block, operation, base local, kind (0 static, 1 dynamic), size or size local, static id (0 if
 * dynamic), mark (0 or 1), flags (from version 6 on), interval count, intervals as above: nine words, and three for each
 * interval. Allocations are numbered in the sequence in which the blocks of the order meet them; the first number that is
 * refused with 13 is their count.
 *
 * The mark is 1 where the pointer may be known elsewhere, as one that is stored, returned or, from version 4 on, a log's
 * topic, or may stand where another allocation's does; the allocation then has no intervals. docs/FORMAT.md has the inputs by
 * which a pointer escapes, code by code.
 *
 * The flags tell what marked it, as a sum of enum sir_mark_cause; they are 0 just where the mark is:
 *
 *     1   a local at which this allocation was first is in an escaping operand
 *     2   a local at which this allocation was first is an output of a block that returns
 *     4   a pointer of this allocation and one of another may come to the same local; the other one has this flag too
 *
 * Who is first goes by turns. Every allocation is first at its own base. Then, by number, each goes from its base to whatever
 * nobody had yet, is first there and goes on from there, but not from a local that another one had. So where 4 alone is set,
 * the pointer may still escape or be returned by way of a local at which another allocation was first, and that one's
 * flags tell; where 4 is not set, the other two tell all. */
sir_answer sir_allocation(const uint8_t *image, size_t image_length, uint32_t allocation, uint8_t *result,
                          size_t result_length);

/* The allocations that are open at an operation of a block: the unmarked ones with an interval over it, by number,
 * ascending; one word each. Operation o of the block lies in an interval of that block where start <= o + 1 <= end, so the
 * operations at which an interval starts and ends count. A marked allocation is in no list, though its memory is never
 * free; at an operation of a block that is not visited none is open. Refused with 15 where the operation is not in the
 * block's own range.
 *
 * At the operation that makes a buffer, which may clear its bytes, these are the buffers that must not lie in its place for
 * that reason. The buffer itself may be among them; those that are marked are not, and must not lie there either. */
sir_answer sir_open(const uint8_t *image, size_t image_length, uint32_t block, uint32_t operation, uint8_t *result,
                    size_t result_length);

/* Whether two allocations cross. Three words: 1 or 0; block + 1, or 0; operation + 1, or 0.
 *
 *     1, b + 1, o + 1   both are unmarked, and operation o of block b, which lies in intervals of both, is the first that
 *                       does, by block and then by operation
 *     1, 0, 0           one of them is marked, or both: a marked allocation crosses every one, itself included
 *     0, 0, 0           both are unmarked, and no operation lies in intervals of both
 *
 * The operations at which intervals start and end count: where one interval ends at the operation at which the other starts,
 * the two cross there. Only operations of a block's own range count: allocations that meet at block starts and ends alone,
 * as in a block without operations, do not cross. An unmarked allocation crosses itself where some operation lies in its
 * intervals, and not where it has none. */
sir_answer sir_crossing(const uint8_t *image, size_t image_length, uint32_t one, uint32_t other, uint8_t *result,
                        size_t result_length);

/* The records of the image: its payload words, as many as its counts call for, without page numbers, checks and the zeros that
 * fill the last page. The answer is never longer than the image. */
sir_answer sir_records(const uint8_t *image, size_t image_length, uint8_t *result, size_t result_length);

/* The chart for the review sheet (from version 7 on): text in ASCII, lines of 72 characters and a line feed each, with nothing
 * before, between or behind them.
 *
 * Allocations stand in series, 64 to each: 0 to 63, 64 to 127, and so on up to the last allocation. There is one series at
 * least, also where there is no allocation, and at most eight. A series shows every visited block, in the sequence of the order:
 *
 *     a heading        "block", a space, the id of the block in decimal, and spaces up to column 72
 *     operations       a line for each operation of the block's own range, by index:
 *       columns 1-5      the index of the operation in decimal, to the right, with spaces before it
 *       column 6         "|"
 *       columns 7-70     for each allocation of the series "*" where it is marked; "#" where it is not, and the operation lies
 *                        in one of its intervals of this block, as in sir_open; "." otherwise, and where there is no such
 *                        allocation
 *       column 71        "|"
 *       column 72        "c" for codes 25 and 26, a space for all others
 *
 * Sheets have 60 lines. Lines of 72 spaces fill the last sheet of each series, where it is not full. So the length is 73 times
 * the lines of a series, filling included, times the number of series: 4380 bytes at the least, and 86,408,640 are enough for
 * any image. An operation in the ranges of several visited blocks has a line in each.
 *
 * There is no id, so 13 is not given. A slice that is too short is refused before liveness is run, so a try costs little. */
sir_answer sir_chart(const uint8_t *image, size_t image_length, uint8_t *result, size_t result_length);

/* The pages of lent records: an image that every other function accepts and whose sir_records are these records. Of the
 * records of an accepted image these are the pages that were read, byte for byte.
 *
 * Records are lent as sir_records gives them, payload words without padding, four bytes each and lowest byte first. The
 * answer is the least number of pages that holds them, 512 bytes for every 126 words or part of 126, with page numbers,
 * zeros past the records, and checks. 59,904 bytes are enough for any records that are accepted.
 *
 * The rules of the image are asked of the records, so 6 comes in two places, and 1, 2, 3, 13 and 15 never come:
 *
 *     6           fewer than 9 words (36 bytes), or a length that is no whole number of words
 *     4, 5        as of an image
 *     6           more words, or fewer, than the counts call for
 *     7 to 12     as of an image
 *     14          a result slice that is shorter than the pages */
sir_answer sir_write(const uint8_t *records, size_t records_length, uint8_t *result, size_t result_length);

/* The predecessors of all blocks: for each its length in words, then sir_predecessors of it. */
sir_answer sir_all_predecessors(const uint8_t *image, size_t image_length, uint8_t *result, size_t result_length);

/* The entry sets of all blocks: for each its length in words, then sir_entry_set of it. */
sir_answer sir_all_entry_sets(const uint8_t *image, size_t image_length, uint8_t *result, size_t result_length);

/* The exit sets of all blocks: for each its length in words, then sir_exit_set of it. */
sir_answer sir_all_exit_sets(const uint8_t *image, size_t image_length, uint8_t *result, size_t result_length);

/* The uses of all locals: for each its length in words, then sir_uses of it. */
sir_answer sir_all_uses(const uint8_t *image, size_t image_length, uint8_t *result, size_t result_length);

/* The intervals of all locals: for each its length in words, then sir_intervals of it. */
sir_answer sir_all_intervals(const uint8_t *image, size_t image_length, uint8_t *result, size_t result_length);

/* The owners of all locals: for each its length in words, which is 1, then sir_owner of it. */
sir_answer sir_all_owners(const uint8_t *image, size_t image_length, uint8_t *result, size_t result_length);

/* All allocations: for each its length in words, then sir_allocation of it. */
sir_answer sir_all_allocations(const uint8_t *image, size_t image_length, uint8_t *result, size_t result_length);

#ifdef __cplusplus
}
#endif

#endif
