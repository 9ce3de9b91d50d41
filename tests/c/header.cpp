// The header as C++ has it: builds a rule of one branch through the inline functions and checks it. It uses nothing of
// the C++ library, so that a C compiler can link it. Exit status 1 where the bytes or the depths are not as expected.
#include "tokenfinch.h"

namespace {

struct Rule {
    uint8_t code[16];
    uint32_t locations[TF_LOCATION_CELLS * 8], marks[TF_MARK_CELLS], starts[TF_START_CELLS];
    tf_builder b;

    Rule() : code(), locations(), marks(), starts(), b()
    {
        b.code = code, b.code_length = sizeof code;
        b.locations = locations, b.locations_length = sizeof locations / sizeof *locations;
        b.marks = marks, b.marks_length = TF_MARK_CELLS;
        b.starts = starts, b.starts_length = TF_START_CELLS;
    }

    tf_answer build()
    {
        tf_label end = {TF_DEAD};
        const tf_range range = {10, 20}, focus = {12, 13};
        const tf_answer answers[] = {
            tf_new(&b, 1),
            tf_set_location(&b, range, &focus),
            tf_emit_jump(&b, TF_OP_JUMP_IF_FALSE_OR_POP, &end),
            tf_emit_load_local(&b, 0),
            tf_patch_jump(&b, end),
            tf_emit(&b, TF_OP_RETURN_VALUE),
            tf_build(&b, 0),
        };
        for (tf_answer answer : answers)
            if (answer != 0)
                return answer;
        return 0;
    }
};

bool as_expected()
{
    static const uint8_t bytes[] = {TF_OP_JUMP_IF_FALSE_OR_POP, 1, 0, TF_OP_LOAD_LOCAL0, TF_OP_RETURN_VALUE};
    uint32_t depths[sizeof bytes + 1], work[sizeof bytes + 1], greatest = 9;
    Rule rule;
    if (rule.build() != 0 || tf_current_offset(&rule.b) != sizeof bytes || !tf_is_dead(&rule.b))
        return false;
    for (size_t i = 0; i < sizeof bytes; i++)
        if (rule.code[i] != bytes[i])
            return false;
    if (tf_current_position(&rule.b).end != 20 || rule.b.state.locations != 3)
        return false;
    tf_answer checked = tf_check(TF_NET, rule.code, sizeof bytes, rule.starts, TF_START_CELLS, depths, sizeof bytes + 1, work,
                                 sizeof bytes + 1, &greatest);
    return checked == 3 && depths[4] == 1 && greatest == 1;
}

}

int main() { return as_expected() ? 0 : 1; }
