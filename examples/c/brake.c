/* Builds the brake rule: the limit of a wet or of a dry road, then the measured stopping distance, compared. Prints its
 * instructions with the depth of the stack before each. Then builds it with the fault that once printed wrong reports,
 * the limit left on the stack twice on a wet road: the builder refuses to join the two branches.
 *
 * Usage: brake
 * Exit status: 0 where the rule is built and the broken one is not, else 1. */
#include "tokenfinch.h"

#include <stdio.h>

#define COUNT(array) (sizeof(array) / sizeof((array)[0]))

/* Leaves the function at the first refusal, as `?` does in the Rust. */
#define TRY(call) do { tf_answer answer = (call); if (answer != 0) return answer; } while (0)

static tf_answer build_brake(tf_builder *b, int broken)
{
    uint16_t wet_limit, dry_limit;
    tf_label dry, join;

    TRY(tf_new(b, 0));
    TRY(tf_add_const(b, 41, &wet_limit));
    TRY(tf_add_const(b, 27, &dry_limit));

    TRY(tf_emit_load_local(b, 1)); /* is the road wet? */
    TRY(tf_emit_jump(b, TF_OP_JUMP_IF_FALSE, &dry));
    TRY(tf_emit_u16(b, TF_OP_LOAD_CONST, wet_limit));
    if (broken)
        TRY(tf_emit(b, TF_OP_DUP));
    TRY(tf_emit_jump(b, TF_OP_JUMP, &join));
    TRY(tf_patch_jump(b, dry));
    TRY(tf_emit_u16(b, TF_OP_LOAD_CONST, dry_limit));
    TRY(tf_patch_jump(b, join)); /* here both branches meet: each has to leave one limit */

    TRY(tf_emit_load_local(b, 0)); /* the measured distance */
    TRY(tf_emit(b, TF_OP_COMPARE_GE));
    TRY(tf_emit(b, TF_OP_RETURN_VALUE));
    return tf_build(b, 0);
}

/* The code's instructions, each with the depth before it. */
static void print_listing(const uint8_t *code, size_t length, const uint32_t *depths)
{
    uint64_t cell[TF_STEP_CELLS];
    for (size_t at = 0; tf_step(code, length, at, cell, TF_STEP_CELLS) == 1; at += (size_t)cell[TF_STEP_SIZE]) {
        uint8_t name[32];
        int letters = (int)tf_value(tf_opcode_name((uint8_t)cell[TF_STEP_OPCODE], name, sizeof name));
        printf("depth %u  offset %2zu  %.*s", (unsigned)depths[at], at, letters, (const char *)name);
        if (cell[TF_STEP_SHAPE] != TF_SHAPE_NONE)
            printf(" %u", (unsigned)cell[TF_STEP_A]);
        printf("\n");
    }
}

int main(void)
{
    uint8_t code[32];
    uint32_t marks[2 * TF_MARK_CELLS], starts[TF_START_CELLS], depths[COUNT(code) + 1], work[COUNT(code) + 1];
    uint32_t greatest;
    uint64_t constants[2];
    tf_builder b = {
        .code = code, .code_length = COUNT(code),
        .marks = marks, .marks_length = COUNT(marks),
        .starts = starts, .starts_length = COUNT(starts),
        .constants = constants, .constants_length = COUNT(constants),
    };

    tf_answer built = build_brake(&b, 0);
    size_t length = tf_current_offset(&b);
    tf_answer checked = tf_check(TF_STRICT, code, length, starts, (size_t)b.state.starts * TF_START_CELLS, depths,
                                 COUNT(depths), work, COUNT(work), &greatest);
    if (built != 0 || tf_refusal(checked) != 0) {
        printf("brake: refused by %u\n", (unsigned)tf_refusal(built != 0 ? built : checked));
        return 1;
    }
    printf("the brake rule: %zu bytes, %d instructions, a stack of %u\n", length, (int)tf_value(checked),
           (unsigned)greatest);
    print_listing(code, length, depths);

    tf_answer broken = build_brake(&b, 1);
    if (tf_refusal(broken) != TF_DEPTHS_DIFFER)
        return 1;
    printf("with the fault: refused by %u at offset %zu: a jump meets another depth\n", (unsigned)tf_refusal(broken),
           tf_current_offset(&b));
    return 0;
}
