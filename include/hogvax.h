/* Hogvax: small tree programs over token streams. The calls of two static
 * libraries, of which a program links one:
 *
 * - libhogvax_c.a has all calls.
 * - libhogvax_view.a has the tree reader's calls alone, under the same names and
 *   with the same contracts, for programs that may hold no recursive routine:
 *   none is in it. (Tested on its machine code, not proved.)
 *
 * docs/CALLING.md shows C programs that use them. docs/REFERENCE.md, the
 * specification, says what trees, programs, code and refusals are.
 *
 * What is proved: every function of either library meets its contract, which is
 * in crates/hogvax_c/src/lib.rt or crates/hogvax_view/src/lib.rt. Whatever the
 * buffers lent to it hold, a call gives the answer that the contract states,
 * reads and writes inside these buffers and nowhere else, keeps no pointer, has
 * no state of its own, and returns.
 *
 * What is not proved: this header. Its declarations and constants are tested
 * against the libraries; its comments say in words what the contracts state. The
 * compiler, the linker, the operating system and the machine are trusted to do
 * what the languages say (docs/RELYING.md).
 *
 * What the caller must ensure:
 *
 * - A buffer is passed as a pointer and a length, which counts elements of the
 *   pointer's type. The pointer is aligned for its type and valid for that many
 *   elements, for writing where it is not const.
 * - The pointer is not NULL, also where the length is 0: any other aligned
 *   pointer will do there.
 * - A buffer has fewer than 2^63 bytes, all in one object.
 * - A buffer is initialised, also one that the call only writes to: the
 *   contracts speak of what it holds before the call. calloc or = {0} will do.
 * - A buffer that is not const overlaps no other buffer of the same call.
 * - During the call no other thread writes to its buffers, or reads those that
 *   are not const.
 * - A call may use up to 1 MiB of the thread's stack, of which the deepest
 *   programs use more than half. Where threads have less, ask for more when you
 *   create one, for example with pthread_attr_setstacksize. The calls of
 *   libhogvax_view.a use less than 4 KiB, however long or deep the input is; in
 *   the first of them the loader may use some KiB to find memset, unless the
 *   linker was given -z now. (Tested, not proved.)
 *
 * What each call answers, hogvax_tree_bytes aside:
 *
 * - It returns 0, or the number of the refusal, one of enum hogvax_refusal.
 * - The rest of the answer goes to the first slots of `answer`: HOGVAX_TREE_SLOTS
 *   of them for hogvax_tree, HOGVAX_RUN_SLOTS for a stream run,
 *   HOGVAX_SOURCE_SLOTS for a source run, and two for every other call,
 *   HOGVAX_POSITION and HOGVAX_BYTES. Slots after them are untouched.
 * - With fewer slots the call returns HOGVAX_SPACE_TOO_SHORT, whatever else is
 *   wrong, and touches no buffer. HOGVAX_ANSWER_SLOTS are enough for every call
 *   other than a run.
 * - Later versions may append slots, and these constants then grow; no slot
 *   gets another meaning. So use the constants, and compile again for another
 *   version of the library: one that needs more slots than it is lent returns
 *   HOGVAX_SPACE_TOO_SHORT, as above. A program that was compiled when
 *   HOGVAX_ANSWER_SLOTS was 2 and HOGVAX_SOURCE_SLOTS was 4 must be compiled
 *   again. Look at its arrays first: each must have as many slots as the call is
 *   lent. HOGVAX_SOURCE_SLOTS is the greatest of these constants now;
 *   HOGVAX_RUN_SLOTS was.
 *
 * Numbers of several bytes have their low byte first in every buffer of bytes.
 */
#ifndef HOGVAX_H
#define HOGVAX_H

#include <stddef.h>
#include <stdint.h>

#ifdef __cplusplus
extern "C" {
#endif

/* ---- Lengths */

/* The bytes of a record, and of an instruction. */
#define HOGVAX_RECORD_BYTES 8
#define HOGVAX_INSTRUCTION_BYTES 8

/* A program file has 1 to 17 blocks of 512 bytes. */
#define HOGVAX_BLOCK_BYTES 512
#define HOGVAX_MOST_BLOCKS 17

/* The bytes of the longest program file: 17 blocks. */
#define HOGVAX_LONGEST_FILE 8704

/* The bytes of the longest records: a header, 32 functions, 1,024 nodes. */
#define HOGVAX_LONGEST_RECORDS 8456

/* The bytes of the longest code: 4,128 instructions. */
#define HOGVAX_LONGEST_CODE 33024

/* The work words of a run, stream or source: `values`, and `returns`. A run
 * needs them all, however few would do; more change nothing.
 *
 * A call refused with 1 to 13 (the source run also with 15, 16 or 20) leaves
 * `values` and `returns` as they were; after a run they are unspecified. */
#define HOGVAX_VALUE_WORDS 16384
#define HOGVAX_RETURN_WORDS 2048

/* The slots of an answer: of hogvax_tree, of a stream run (hogvax_perform,
 * hogvax_run), and of a source run (hogvax_source). */
#define HOGVAX_TREE_SLOTS 4
#define HOGVAX_RUN_SLOTS 5
#define HOGVAX_SOURCE_SLOTS 6

/* Enough slots for any call other than a run; all of these but hogvax_tree fill
 * the first two only. */
#define HOGVAX_ANSWER_SLOTS 4

/* ---- Slots of an answer */

/* The position of the refusal, 0 if there is none. What it counts depends on
 * the number; see enum hogvax_refusal. */
#define HOGVAX_POSITION 0

/* Of a call that is no run: the length in bytes of the tree, or of what was
 * written; 0 on a refusal, and for a check. */
#define HOGVAX_BYTES 1

/* Of hogvax_tree: the tree's tips, which are its leaves, and its depth, the nodes
 * above its deepest leaf: 0 for a lone leaf, at most 1,024. HOGVAX_BYTES is 6
 * times the tips, less 1. All three are 0 on a refusal. */
#define HOGVAX_TIPS 2
#define HOGVAX_DEPTH 3

/* Of a stream run: the instructions performed, the bytes read from the start of
 * the input on, and the bytes written from the start of the output on. */
#define HOGVAX_UNITS 1
#define HOGVAX_READ 2
#define HOGVAX_WRITTEN 3

/* Of a stream run: the number given, in two's complement, sign-extended from 32
 * bits to 64: -3 is UINT64_MAX - 2, which a cast to int64_t makes -3. 0 for a
 * tree and on a refusal. */
#define HOGVAX_NUMBER 4

/* Of a source run: the expressions begun; the bytes written from the start of
 * the output on, 0 on a refusal; and the number, as for a stream run. */
#define HOGVAX_SOURCE_BEGUN 1
#define HOGVAX_SOURCE_WRITTEN 2
#define HOGVAX_SOURCE_NUMBER 3

/* Of a source run: tips and depth of the tree that was evaluated, as hogvax_tree
 * gives them; not of a tree that the program gives. 0 on every refusal, also where
 * a tree begins the input. */
#define HOGVAX_SOURCE_TIPS 4
#define HOGVAX_SOURCE_DEPTH 5

/* ---- Refusals */

/* The numbers of docs/REFERENCE.md, "The table of refusals". Where several
 * apply, the call reports the first in the order that its comment gives. */
enum hogvax_refusal {
    /* The program file. For 2 and 3 the position is the block, counted from 0;
     * for 5 to 7 it is the record, counted from 0, which is the header. */
    HOGVAX_FILE_LENGTH = 1,       /* not 1 to 17 whole blocks; at 0 */
    HOGVAX_BLOCK_CHECK = 2,       /* a block's check does not hold */
    HOGVAX_BLOCK_FIELD = 3,       /* another field of it, or an unused record */
    HOGVAX_HEADER_FIELD = 4,      /* a field, or the count of records; at 0 */
    HOGVAX_FUNCTION_FIELD = 5,    /* a field, or the sum of the node counts */
    HOGVAX_NODE_FIELD = 6,        /* the kind, an unused field, or b */
    HOGVAX_PREFIX_FORM = 7,       /* a function is not one expression */
    /* The two passes. The position is a record. */
    HOGVAX_WRONG_TYPE = 8,        /* a number for a tree, or a tree for a number */
    HOGVAX_NOT_BOUND = 9,         /* a name is not bound */
    HOGVAX_TOO_MANY_WORDS = 10,   /* more than 16 words in a function */
    HOGVAX_OUT_OF_ORDER = 11,     /* trees not taken in order, or left over */
    HOGVAX_TOO_MANY_PENDING = 12, /* a Case with 16 trees pending */
    /* A lent buffer. The position is 0. */
    HOGVAX_SPACE_TOO_SHORT = 13,  /* code, file, records, work or answer */
    /* A stream run: the position is the bytes read. A source run: for 14, 17
     * and 18 the position is 0, for 21 it is the record of the Add. The tree
     * reader: 15, 16 and 20, at a byte of the input. */
    HOGVAX_FUEL_USED_UP = 14,     /* units, or expressions begun, are the fuel */
    HOGVAX_INPUT_ENDED = 15,      /* a tag or a whole label is not there */
    HOGVAX_NOT_A_TAG = 16,        /* a byte is not 1 or 2 */
    HOGVAX_OUTPUT_FULL = 17,      /* no room for a tag, a label or a result */
    HOGVAX_TOO_MANY_CALLS = 18,   /* a call with 1,024 open */
    HOGVAX_CANNOT_PERFORM = 19,   /* opcode, address, return byte, or words */
    HOGVAX_TOO_DEEP = 20,         /* a node tag under 1,024 others */
    HOGVAX_OUT_OF_RANGE = 21      /* a sum outside -2147483648 to 2147483647 */
};

/* ---- The tree reader */

/* Returns the length in bytes of the tree that begins `input`; 0 if no tree
 * begins it, and hogvax_tree then says why. Bytes after the tree do not matter.
 *
 * In both libraries. */
size_t hogvax_tree_bytes(const uint8_t *input, size_t input_len);

/* Finds the end of the tree that begins `input`: HOGVAX_BYTES is its length, and
 * HOGVAX_TIPS and HOGVAX_DEPTH are its tips and its depth, so a caller need not
 * walk the tree for them.
 *
 * Refused with 15 at the start of the tag or label that is not whole, or with 16
 * or 20 at the tag; bytes, tips and depth are then 0. Bytes after the tree do not
 * matter.
 *
 * The answer has HOGVAX_TREE_SLOTS slots. In both libraries. */
uint32_t hogvax_tree(const uint8_t *input, size_t input_len,
                     uint64_t *answer, size_t answer_len);

/* ---- Program files */

/* Writes the program file of `records`, 8 bytes each, to the start of `file`;
 * HOGVAX_BYTES is its length. Bytes of `file` after it are untouched.
 *
 * Refused with 4 to 7, then with 13 where `file` is shorter than the program's
 * blocks; `file` is then untouched. HOGVAX_LONGEST_FILE bytes are always
 * enough.
 *
 * The answer has two slots; lend HOGVAX_ANSWER_SLOTS. */
uint32_t hogvax_pack(const uint8_t *records, size_t records_len,
                     uint8_t *file, size_t file_len,
                     uint64_t *answer, size_t answer_len);

/* Writes the records of the program in `file`, 8 bytes each, to the start of
 * `records`; HOGVAX_BYTES is their length. Bytes of `records` after them are
 * untouched.
 *
 * Refused with 1 to 7, then with 13 where `records` is shorter than the
 * program's; `records` is then untouched. HOGVAX_LONGEST_RECORDS bytes are
 * always enough.
 *
 * The answer has two slots; lend HOGVAX_ANSWER_SLOTS. */
uint32_t hogvax_unpack(const uint8_t *file, size_t file_len,
                       uint8_t *records, size_t records_len,
                       uint64_t *answer, size_t answer_len);

/* ---- The order checker */

/* Checks names, types and the order of trees of the program in `file`.
 * HOGVAX_BYTES is 0.
 *
 * Refused with 1 to 7; then, record by record, with 9, 8 or 10; then with 11 or
 * 12.
 *
 * The answer has two slots; lend HOGVAX_ANSWER_SLOTS. */
uint32_t hogvax_check(const uint8_t *file, size_t file_len,
                      uint64_t *answer, size_t answer_len);

/* As hogvax_check, for the program with these records, 8 bytes each; the
 * refusals begin with 4. */
uint32_t hogvax_check_records(const uint8_t *records, size_t records_len,
                              uint64_t *answer, size_t answer_len);

/* ---- The translator */

/* Writes the stream code of the program in `file`, 8 bytes an instruction, to
 * the start of `code`; HOGVAX_BYTES is its length. Bytes of `code` after it are
 * untouched.
 *
 * Refused as by hogvax_check, then with 13 where `code` is shorter than this
 * program's code; `code` is then untouched. HOGVAX_LONGEST_CODE bytes are always
 * enough.
 *
 * The answer has two slots; lend HOGVAX_ANSWER_SLOTS. */
uint32_t hogvax_translate(const uint8_t *file, size_t file_len,
                          uint8_t *code, size_t code_len,
                          uint64_t *answer, size_t answer_len);

/* ---- The stream run */

/* Runs `code`, which may be any bytes, from address 0 over `input`. `fuel` is the
 * most instructions to be performed, a unit each. Returns 0 where the run ended,
 * at the return of its first frame.
 *
 * Refused with 13 where `values` or `returns` are too few, HOGVAX_VALUE_WORDS
 * and HOGVAX_RETURN_WORDS; all slots of the answer are then 0, and `output` is
 * untouched. Otherwise refused with 14 to 19 or 21 at an instruction: with 14
 * first, then 19, then the others. That instruction is not counted and changes
 * nothing. 21 is an add of two words whose sum lies outside -2147483648 to
 * 2147483647.
 *
 * What the run wrote stays at the start of `output`, also if it was refused; the
 * rest of `output` is untouched.
 *
 * The answer has HOGVAX_RUN_SLOTS slots. */
uint32_t hogvax_perform(const uint8_t *code, size_t code_len,
                        const uint8_t *input, size_t input_len,
                        uint64_t fuel,
                        uint8_t *output, size_t output_len,
                        uint32_t *values, size_t values_len,
                        uint64_t *returns, size_t returns_len,
                        uint64_t *answer, size_t answer_len);

/* Checks the program in `file`, translates it and runs its code over `input`.
 * `fuel` is the most instructions to be performed, a unit each; UINT64_MAX will
 * do, since every checked program ends or is refused. Returns 0 where the run
 * ended.
 *
 * Refused as by hogvax_check; then with 13 where `code` is shorter than this
 * program's code, or `values` or `returns` are too few, HOGVAX_VALUE_WORDS and
 * HOGVAX_RETURN_WORDS. All slots of the answer after HOGVAX_POSITION are then
 * 0, and `output` and `code` are untouched.
 *
 * Otherwise the code goes to the start of `code` and stays there, whatever the
 * run answers; the rest of `code` is untouched. The run ends or is refused with
 * 14 to 18 or 21, never with 19. What it wrote stays at the start of `output`,
 * also if it was refused; the rest of `output` is untouched.
 *
 * On a tree's tokens, with anything after them, every fuel from 4n + 1 up
 * suffices where the program's evaluation ends after n expressions, all its sums
 * in range, with at most 1,024 calls open at once, and `output` has room for the
 * result: the run ends, HOGVAX_READ is the length of the tree, and the whole
 * result has been written, or HOGVAX_NUMBER is the number. For several trees, one
 * after another, begin the next call's input HOGVAX_READ bytes further on.
 *
 * Where the evaluation comes to a sum outside -2147483648 to 2147483647, with at
 * most 1,024 calls open at once, it has no result: with enough fuel and output
 * the run is refused with 21. On a tree that hogvax_tree takes, hogvax_source then
 * says at which record.
 *
 * The answer has HOGVAX_RUN_SLOTS slots. */
uint32_t hogvax_run(const uint8_t *file, size_t file_len,
                    const uint8_t *input, size_t input_len,
                    uint64_t fuel,
                    uint8_t *output, size_t output_len,
                    uint8_t *code, size_t code_len,
                    uint32_t *values, size_t values_len,
                    uint64_t *returns, size_t returns_len,
                    uint64_t *answer, size_t answer_len);

/* ---- The source run */

/* Evaluates the program in `file` on the tree that begins `input`. `fuel` is the
 * most expressions to be begun, a unit each: a program that takes a tree more
 * than once may begin very many. Returns 0 where the evaluation ended. The
 * program need not take its trees in order: what hogvax_check refuses with 11 or
 * 12 is evaluated, too. Bytes after the tree do not matter.
 *
 * Refused with 1 to 7, then with 9, 8 or 10, as by hogvax_check; then with 13
 * where `values` or `returns` are too few, HOGVAX_VALUE_WORDS and
 * HOGVAX_RETURN_WORDS; then with 15, 16 or 20 where no tree begins `input`, as
 * by hogvax_tree. All slots of the answer after HOGVAX_POSITION are then 0.
 * Otherwise refused with 14 before an expression, with 18 at a call, after its
 * arguments, or with 21 at an Add, after its two numbers, whichever comes first;
 * last with 17 where the evaluation ended and `output` is shorter than the result.
 * For 14, 17 and 18 HOGVAX_POSITION is 0. For 21, where the sum of the two numbers
 * lies outside -2147483648 to 2147483647, it is the record of the Add. For all
 * four HOGVAX_SOURCE_BEGUN counts the expressions begun.
 *
 * Where the evaluation ended, HOGVAX_SOURCE_TIPS and HOGVAX_SOURCE_DEPTH are those
 * of the tree that begins `input`; on every refusal they are 0, also for these
 * four.
 *
 * A tree goes to the start of `output`, as tokens; the rest of `output` is
 * untouched. All of it is untouched where the result is a number, and on every
 * refusal. 17 does not say how long the result is: call again with a longer
 * output.
 *
 * The answer has HOGVAX_SOURCE_SLOTS slots. */
uint32_t hogvax_source(const uint8_t *file, size_t file_len,
                       const uint8_t *input, size_t input_len,
                       uint64_t fuel,
                       uint8_t *output, size_t output_len,
                       uint32_t *values, size_t values_len,
                       uint64_t *returns, size_t returns_len,
                       uint64_t *answer, size_t answer_len);

#ifdef __cplusplus
}
#endif

#endif
