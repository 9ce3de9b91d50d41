/* Prints the opcode table by the proved rules: number, name, shape, size without keyword names, and how the
 * depth moves where the instruction falls through and where a jump is taken. An effect that goes by the operand
 * is printed as `operand`. */
#include "tokenfinch.h"

#include <stdio.h>

static const char *const shapes[] = {
    "None", "U8", "I8", "U16", "Offset", "U8U8", "U16U8", "U16U16", "U16U8U8", "CallKw", "CallAttrKw", "U16U16U8",
};

/* The operands that tell a fixed effect from one that goes by the operand. */
static const struct { uint16_t a, b; uint8_t c, names; } tries[] = {
    { 0, 0, 0, 0 }, { 1, 1, 1, 1 }, { 4, 4, 4, 4 }, { 16, 16, 16, 16 }, { 255, 255, 255, 255 },
};

static void print_effect(uint8_t opcode, uint8_t shape)
{
    tf_answer first = tf_stack_effect(opcode, shape, tries[0].a, tries[0].b, tries[0].c, tries[0].names);
    for (size_t i = 1; i < sizeof tries / sizeof tries[0]; i++) {
        if (tf_stack_effect(opcode, shape, tries[i].a, tries[i].b, tries[i].c, tries[i].names) != first) {
            printf("\toperand");
            return;
        }
    }
    printf("\t%d", (int)tf_value(first));
}

static void print_row(uint8_t opcode)
{
    uint8_t name[32];
    int length = (int)tf_value(tf_opcode_name(opcode, name, sizeof name));
    uint8_t shape = (uint8_t)tf_value(tf_operand_shape(opcode));
    printf("%u\t%.*s\t%s\t%d", opcode, length, (const char *)name, shapes[shape],
           (int)tf_value(tf_instruction_size(opcode, 0)));
    print_effect(opcode, shape);
    tf_answer taken = tf_jump_taken_stack_effect(opcode);
    if (tf_refusal(taken) == 0)
        printf("\t%d", (int)tf_value(taken));
    else
        printf("\t-");
    printf("\t%s\n", tf_value(tf_makes_dead(opcode)) ? "dead" : "live");
}

int main(void)
{
    printf("number\tname\tshape\tsize\tfalls\ttaken\tbehind\n");
    for (int opcode = 0; opcode <= TF_OP_LAST; opcode++)
        print_row((uint8_t)opcode);
    return 0;
}
