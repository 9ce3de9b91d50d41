/* Walks the bytes of compiled code and prints each instruction: its offset, name and operands in the order of
 * their bytes (`-` where it has none), what it does to the depth of the stack where it falls through, and where
 * a jump is taken (`-` where it is none). Damaged code ends the walk with a line `!`, offset, refusal.
 *
 * Usage: walk FILE
 * Exit status: 0 at the code's end, 1 where it is damaged, 2 where the file can't be read. */
#include "parts.h"

/* Prints one value behind the others of its operand. */
static void print_value(int *count, long value)
{
    printf("%s%ld", *count == 0 ? "" : ",", value);
    ++*count;
}

/* The operand's values, then for a keyword call the number of its names and each name. */
static void print_operands(const uint8_t *code, const uint64_t cell[TF_STEP_CELLS])
{
    /* how many of a, b and c a shape has */
    static const int values[] = {
        [TF_SHAPE_NONE] = 0,    [TF_SHAPE_U8] = 1,     [TF_SHAPE_I8] = 1,           [TF_SHAPE_U16] = 1,
        [TF_SHAPE_OFFSET] = 1,  [TF_SHAPE_U8U8] = 2,   [TF_SHAPE_U16U8] = 2,        [TF_SHAPE_U16U16] = 2,
        [TF_SHAPE_U16U8U8] = 3, [TF_SHAPE_CALL_KW] = 1, [TF_SHAPE_CALL_ATTR_KW] = 2, [TF_SHAPE_U16U16U8] = 3,
    };
    uint64_t shape = cell[TF_STEP_SHAPE];
    int count = 0;
    for (int i = 0; i < values[shape]; i++) {
        uint64_t value = cell[TF_STEP_A + i];
        if (shape == TF_SHAPE_I8)
            print_value(&count, value < 128 ? (long)value : (long)value - 256);
        else if (shape == TF_SHAPE_OFFSET)
            print_value(&count, value < 32768 ? (long)value : (long)value - 65536);
        else
            print_value(&count, (long)value);
    }
    if (shape == TF_SHAPE_CALL_KW || shape == TF_SHAPE_CALL_ATTR_KW) {
        const uint8_t *name = code + cell[TF_STEP_NAMES_AT];
        print_value(&count, (long)cell[TF_STEP_NAMES]);
        for (uint64_t i = 0; i < cell[TF_STEP_NAMES]; i++, name += 2)
            print_value(&count, name[0] + 256L * name[1]);
    }
    if (count == 0)
        printf("-");
}

static void print_instruction(const uint8_t *code, size_t at, const uint64_t cell[TF_STEP_CELLS])
{
    uint8_t opcode = (uint8_t)cell[TF_STEP_OPCODE], name[32];
    int length = (int)tf_value(tf_opcode_name(opcode, name, sizeof name));
    printf("%zu\t%.*s\t", at, length, (const char *)name);
    print_operands(code, cell);
    /* the cells are what tf_stack_effect takes, so it refuses nothing here */
    tf_answer falls = tf_stack_effect(opcode, (uint8_t)cell[TF_STEP_SHAPE], (uint16_t)cell[TF_STEP_A],
                                      (uint16_t)cell[TF_STEP_B], (uint8_t)cell[TF_STEP_C], (uint8_t)cell[TF_STEP_NAMES]);
    printf("\t%d", (int)tf_value(falls));
    tf_answer taken = tf_jump_taken_stack_effect(opcode);
    if (tf_refusal(taken) == 0)
        printf("\t%d\n", (int)tf_value(taken));
    else
        printf("\t-\n");
}

/* Walks the code to its end or to the first damage. */
static int walk(const uint8_t *code, size_t length)
{
    uint64_t cell[TF_STEP_CELLS];
    size_t at = 0;
    tf_answer answer;
    printf("offset\tname\toperands\tfalls\ttaken\n");
    while ((answer = tf_step(code, length, at, cell, TF_STEP_CELLS)) == 1) {
        print_instruction(code, at, cell);
        at += (size_t)cell[TF_STEP_SIZE];
    }
    if (tf_refusal(answer) == 0)
        return 0;
    printf("!\t%zu\t%u\n", at, (unsigned)tf_refusal(answer));
    return 1;
}

int main(int count, char **words)
{
    if (count != 2) {
        fprintf(stderr, "usage: walk FILE\n");
        return 2;
    }
    FILE *file = fopen(words[1], "rb");
    size_t length = 0;
    uint8_t *code = file == NULL ? NULL : read_all(file, &length);
    if (code == NULL) {
        fprintf(stderr, "walk: can't read %s\n", words[1]);
        if (file != NULL)
            fclose(file);
        return 2;
    }
    fclose(file);
    int status = walk(code, length);
    free(code);
    return status;
}
