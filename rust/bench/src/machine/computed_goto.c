/* A stream machine in C, as C programmers write fast interpreters: computed
 * goto, so that each instruction jumps to the next one's code by itself. It has
 * the same lent buffers as hogvax_perform, the same tests in the same order, and
 * the same answers. A peer for the benchmark. */

/* At -O3 alone gcc merges most of these jumps again, which makes it slower. Its
 * manual advises no-gcse for computed goto. */
#if defined(__GNUC__) && !defined(__clang__)
#pragma GCC optimize("no-gcse", "no-crossjumping")
#endif

#include <stddef.h>
#include <stdint.h>
#include <string.h>

#if __BYTE_ORDER__ != __ORDER_LITTLE_ENDIAN__
#error "numbers are copied as they lie in memory, the lowest byte first"
#endif

enum {
    VALUE_WORDS = 16384,
    RETURN_WORDS = 2048,
    MOST_SAVED = 2046,
    MOST_INSTRUCTIONS = 4128,
    INSTRUCTION_BYTES = 8,
    LABEL_BYTES = 4,
    LAST_OPCODE = 13,
    LEAF_TAG = 1,
    NODE_TAG = 2
};

enum {
    ENDED = 0,
    SPACE_TOO_SHORT = 13,
    FUEL_USED_UP = 14,
    INPUT_ENDED = 15,
    NOT_A_TAG = 16,
    OUTPUT_FULL = 17,
    TOO_MANY_CALLS = 18,
    CANNOT_PERFORM = 19,
    OUT_OF_RANGE = 21
};

static uint16_t operand_of(const uint8_t *i) {
    uint16_t operand;
    memcpy(&operand, i + 2, sizeof operand);
    return operand;
}

static uint32_t number_of(const uint8_t *i) {
    uint32_t number;
    memcpy(&number, i + 4, sizeof number);
    return number;
}

/* The answer's slots: position, units, bytes read, bytes written, and the
 * number, sign-extended. */
static uint32_t answer_with(uint64_t *answer, uint32_t stop, uint64_t units,
                            size_t read, size_t written, uint32_t number) {
    answer[0] = stop == ENDED ? 0 : read;
    answer[1] = units;
    answer[2] = read;
    answer[3] = written;
    answer[4] = stop == ENDED ? (uint64_t)(int32_t)number : 0;
    return stop;
}

#define REFUSE_IF(condition, number)                                           \
    do {                                                                       \
        if (condition) {                                                       \
            stop = (number);                                                   \
            goto stopped;                                                      \
        }                                                                      \
    } while (0)

/* Performs the next instruction: the fuel first, then its address, then its
 * opcode. */
#define NEXT                                                                   \
    do {                                                                       \
        REFUSE_IF(left == 0, FUEL_USED_UP);                                    \
        REFUSE_IF(address >= limit, CANNOT_PERFORM);                           \
        i = code + INSTRUCTION_BYTES * address;                                \
        REFUSE_IF(*i > LAST_OPCODE, CANNOT_PERFORM);                           \
        goto *opcodes[*i];                                                     \
    } while (0)

/* The instruction is performed, and the run goes on at an address. */
#define GO_TO(a)                                                               \
    do {                                                                       \
        address = (a);                                                         \
        left--;                                                                \
        NEXT;                                                                  \
    } while (0)

/* Refuses where fewer words than these stand above the base, or where there is
 * no room for one more. */
#define NEEDS(words) REFUSE_IF(top - base < (words), CANNOT_PERFORM)
#define NEEDS_ROOM REFUSE_IF(top >= VALUE_WORDS, CANNOT_PERFORM)

uint32_t computed_goto_perform(const uint8_t *code, size_t code_len,
                               const uint8_t *input, size_t input_len,
                               uint64_t fuel, uint8_t *output,
                               size_t output_len, uint32_t *values,
                               size_t values_len, uint64_t *returns,
                               size_t returns_len, uint64_t *answer) {
    static const void *const opcodes[LAST_OPCODE + 1] = {
        &&push,         &&get,      &&add,         &&ifnot,    &&jump,
        &&slide,        &&drop,     &&leaf_tag,    &&node_tag,
        &&write_number, &&read_tag, &&read_number, &&call,     &&give_back};
    const uint8_t *i;
    size_t address = 0, top = 0, base = 0, saved = 0, read = 0, written = 0;
    size_t limit = code_len / INSTRUCTION_BYTES;
    uint64_t left = fuel;
    uint32_t stop, number = 0;

    if (values_len < VALUE_WORDS || returns_len < RETURN_WORDS)
        return answer_with(answer, SPACE_TOO_SHORT, 0, 0, 0, 0);
    if (limit > MOST_INSTRUCTIONS)
        limit = MOST_INSTRUCTIONS;
    NEXT;

push:
    NEEDS_ROOM;
    values[top++] = number_of(i);
    GO_TO(address + 1);

get: {
    size_t k = operand_of(i);
    NEEDS(k + 1);
    NEEDS_ROOM;
    values[top] = values[base + k];
    top++;
    GO_TO(address + 1);
}

add: {
    int32_t sum;
    NEEDS(2);
    REFUSE_IF(__builtin_add_overflow((int32_t)values[top - 2],
                                     (int32_t)values[top - 1], &sum),
              OUT_OF_RANGE);
    top--;
    values[top - 1] = (uint32_t)sum;
    GO_TO(address + 1);
}

ifnot:
    NEEDS(1);
    top--;
    if (values[top] != 0)
        GO_TO(operand_of(i));
    GO_TO(address + 1);

jump:
    GO_TO(operand_of(i));

slide:
    NEEDS(2);
    top--;
    values[top - 1] = values[top];
    GO_TO(address + 1);

drop:
    NEEDS(1);
    top--;
    GO_TO(address + 1);

leaf_tag:
    REFUSE_IF(written >= output_len, OUTPUT_FULL);
    output[written++] = LEAF_TAG;
    GO_TO(address + 1);

node_tag:
    REFUSE_IF(written >= output_len, OUTPUT_FULL);
    output[written++] = NODE_TAG;
    GO_TO(address + 1);

write_number:
    NEEDS(1);
    REFUSE_IF(output_len - written < LABEL_BYTES, OUTPUT_FULL);
    top--;
    memcpy(output + written, &values[top], LABEL_BYTES);
    written += LABEL_BYTES;
    GO_TO(address + 1);

read_tag:
    REFUSE_IF(read >= input_len, INPUT_ENDED);
    if (input[read] == LEAF_TAG) {
        read++;
        GO_TO(address + 1);
    }
    REFUSE_IF(input[read] != NODE_TAG, NOT_A_TAG);
    read++;
    GO_TO(operand_of(i));

read_number:
    NEEDS_ROOM;
    REFUSE_IF(input_len - read < LABEL_BYTES, INPUT_ENDED);
    memcpy(&values[top], input + read, LABEL_BYTES);
    top++;
    read += LABEL_BYTES;
    GO_TO(address + 1);

call: {
    size_t arguments = i[1];
    NEEDS(arguments);
    REFUSE_IF(saved >= MOST_SAVED, TOO_MANY_CALLS);
    returns[saved] = address + 1;
    returns[saved + 1] = base;
    saved += 2;
    base = top - arguments;
    GO_TO(operand_of(i));
}

give_back:
    REFUSE_IF(i[1] > 1, CANNOT_PERFORM);
    if (i[1] == 1) {
        NEEDS(1);
        number = values[top - 1];
        values[base] = number;
        top = base + 1;
    } else {
        number = 0;
        top = base;
    }
    if (saved == 0) {
        left--;
        stop = ENDED;
        goto stopped;
    }
    saved -= 2;
    base = returns[saved + 1];
    GO_TO(returns[saved]);

stopped:
    return answer_with(answer, stop, fuel - left, read, written, number);
}
