/* Calls each opcode rule from C and holds it to answers that are known from the rules' document.
 * Prints a line for each that fails, then the counts; exit status 1 where one failed. */
#include "checks.h"

#include <string.h>

static void shapes(void)
{
    value("Pop has no operand", tf_operand_shape(TF_OP_POP), TF_SHAPE_NONE);
    value("LoadSmallInt is signed", tf_operand_shape(TF_OP_LOAD_SMALL_INT), TF_SHAPE_I8);
    value("ForIter has a displacement", tf_operand_shape(TF_OP_FOR_ITER), TF_SHAPE_OFFSET);
    value("LoadName has three", tf_operand_shape(TF_OP_LOAD_NAME), TF_SHAPE_U16U16U8);
    refusal("131 has no shape", tf_operand_shape(NO_OPCODE), TF_UNKNOWN_OPCODE);
    refusal("255 has no shape", tf_operand_shape(255), TF_UNKNOWN_OPCODE);
}

static void effects(void)
{
    value("BuildList 3", tf_stack_effect(TF_OP_BUILD_LIST, TF_SHAPE_U16, 3, 0, 0, 0), -2);
    value("BuildDict 65535", tf_stack_effect(TF_OP_BUILD_DICT, TF_SHAPE_U16, 65535, 0, 0, 0), -131069);
    value("UnpackEx 255 255", tf_stack_effect(TF_OP_UNPACK_EX, TF_SHAPE_U8U8, 255, 255, 0, 0), 510);
    value("UnpackSequence 0", tf_stack_effect(TF_OP_UNPACK_SEQUENCE, TF_SHAPE_U8, 0, 0, 0, 0), -1);
    value("CallFunction 7", tf_stack_effect(TF_OP_CALL_FUNCTION, TF_SHAPE_U8, 7, 0, 0, 0), -7);
    value("CallBuiltinFunction 9 2", tf_stack_effect(TF_OP_CALL_BUILTIN_FUNCTION, TF_SHAPE_U8U8, 9, 2, 0, 0), -1);
    value("CallFunctionKw 2, 3 names", tf_stack_effect(TF_OP_CALL_FUNCTION_KW, TF_SHAPE_CALL_KW, 2, 0, 0, 3), -5);
    value("CallAttrKw 9 2, 3 names", tf_stack_effect(TF_OP_CALL_ATTR_KW, TF_SHAPE_CALL_ATTR_KW, 9, 2, 0, 3), -5);
    value("CallFunctionExtended 2", tf_stack_effect(TF_OP_CALL_FUNCTION_EXTENDED, TF_SHAPE_U8, 2, 0, 0, 0), -1);
    value("CallFunctionExtended 3", tf_stack_effect(TF_OP_CALL_FUNCTION_EXTENDED, TF_SHAPE_U8, 3, 0, 0, 0), -2);
    value("MakeClosure 9 2 3", tf_stack_effect(TF_OP_MAKE_CLOSURE, TF_SHAPE_U16U8U8, 9, 2, 3, 0), -4);
    value("FormatValue 4", tf_stack_effect(TF_OP_FORMAT_VALUE, TF_SHAPE_U8, 4, 0, 0, 0), -1);
    value("FormatValue 8", tf_stack_effect(TF_OP_FORMAT_VALUE, TF_SHAPE_U8, 8, 0, 0, 0), 0);
    value("Assert 0x10", tf_stack_effect(TF_OP_ASSERT, TF_SHAPE_U8, 0x10, 0, 0, 0), -2);
    value("AssertFailed 0", tf_stack_effect(TF_OP_ASSERT_FAILED, TF_SHAPE_U8, 0, 0, 0, 0), -2);
    value("MatchKeys 1", tf_stack_effect(TF_OP_MATCH_KEYS, TF_SHAPE_U8, 1, 0, 0, 0), -1);
    value("MatchKeys 2", tf_stack_effect(TF_OP_MATCH_KEYS, TF_SHAPE_U8, 2, 0, 0, 0), 2);
    value("RaiseFrom", tf_stack_effect(TF_OP_RAISE_FROM, TF_SHAPE_NONE, 0, 0, 0, 0), -2);
    refusal("Pop with an operand", tf_stack_effect(TF_OP_POP, TF_SHAPE_U8, 0, 0, 0, 0), TF_WRONG_SHAPE);
    refusal("a shape that is none", tf_stack_effect(TF_OP_POP, 12, 0, 0, 0, 0), TF_WRONG_SHAPE);
    refusal("256 in a byte", tf_stack_effect(TF_OP_LOAD_LOCAL, TF_SHAPE_U8, 256, 0, 0, 0), TF_WRONG_SHAPE);
    refusal("131 and a shape that is none", tf_stack_effect(NO_OPCODE, 12, 0, 0, 0, 0), TF_UNKNOWN_OPCODE);
}

static void jumps(void)
{
    value("Jump taken", tf_jump_taken_stack_effect(TF_OP_JUMP), 0);
    value("JumpIfTrue taken", tf_jump_taken_stack_effect(TF_OP_JUMP_IF_TRUE), -1);
    value("JumpIfFalseOrPop taken", tf_jump_taken_stack_effect(TF_OP_JUMP_IF_FALSE_OR_POP), 0);
    value("ForIter taken", tf_jump_taken_stack_effect(TF_OP_FOR_ITER), -1);
    refusal("Pop is no jump", tf_jump_taken_stack_effect(TF_OP_POP), TF_NOT_A_JUMP);
    refusal("131 taken", tf_jump_taken_stack_effect(NO_OPCODE), TF_UNKNOWN_OPCODE);
}

static void dead(void)
{
    static const uint8_t makers[] = {TF_OP_RETURN_VALUE, TF_OP_RAISE, TF_OP_RERAISE, TF_OP_RAISE_UNBOUND_LOCAL, TF_OP_ASSERT_FAILED, TF_OP_JUMP};
    int count = 0;
    for (size_t i = 0; i < sizeof makers; i++) {
        value("one of the six that make the code dead", tf_makes_dead(makers[i]), 1);
    }
    for (int opcode = 0; opcode < NO_OPCODE; opcode++) {
        count += tf_value(tf_makes_dead((uint8_t)opcode));
    }
    report("six opcodes make the code dead", count == 6);
    value("RaiseFrom does not", tf_makes_dead(TF_OP_RAISE_FROM), 0);
    refusal("131", tf_makes_dead(NO_OPCODE), TF_UNKNOWN_OPCODE);
}

static void depths(void)
{
    value("ForIter at depth 1 falls through to 2", tf_depth_after(1, TF_OP_FOR_ITER, TF_SHAPE_OFFSET, 0, 0, 0, 0), 2);
    value("and is taken to 0", tf_depth_taken(1, TF_OP_FOR_ITER), 0);
    refusal("ForIter taken at depth 0", tf_depth_taken(0, TF_OP_FOR_ITER), TF_DEPTH_BELOW_ZERO);
    value("Dup at 65534", tf_depth_after(65534, TF_OP_DUP, TF_SHAPE_NONE, 0, 0, 0, 0), 65535);
    refusal("Dup at 65535", tf_depth_after(65535, TF_OP_DUP, TF_SHAPE_NONE, 0, 0, 0, 0), TF_DEPTH_TOO_LARGE);
    refusal("Pop at 0", tf_depth_after(0, TF_OP_POP, TF_SHAPE_NONE, 0, 0, 0, 0), TF_DEPTH_BELOW_ZERO);
    refusal("Pop with an operand at 0", tf_depth_after(0, TF_OP_POP, TF_SHAPE_U8, 0, 0, 0, 0), TF_WRONG_SHAPE);
    refusal("Pop taken at 0", tf_depth_taken(0, TF_OP_POP), TF_NOT_A_JUMP);
}

static void sizes(void)
{
    value("Pop", tf_instruction_size(TF_OP_POP, 0), 1);
    value("a jump", tf_instruction_size(TF_OP_JUMP, 255), 3);
    value("LoadName", tf_instruction_size(TF_OP_LOAD_NAME, 0), 6);
    value("CallFunctionKw with 255 names", tf_instruction_size(TF_OP_CALL_FUNCTION_KW, 255), 513);
    value("CallAttrKw with 2 names", tf_instruction_size(TF_OP_CALL_ATTR_KW, 2), 9);
    refusal("131", tf_instruction_size(NO_OPCODE, 0), TF_UNKNOWN_OPCODE);
}

/* Whether the name is written to the front of a buffer, all else in which stays as it was. */
static void name(uint8_t opcode, const char *expected)
{
    uint8_t written[32], wanted[32];
    size_t length = strlen(expected);
    memset(written, '#', sizeof written);
    memset(wanted, '#', sizeof wanted);
    naming(expected, tf_opcode_name(opcode, written, length - 1), TF_FULL, TF_TABLE_TEXT);
    report(expected, memcmp(written, wanted, sizeof wanted) == 0);
    memcpy(wanted, expected, length);
    value(expected, tf_opcode_name(opcode, written, length), (int32_t)length);
    report(expected, memcmp(written, wanted, sizeof wanted) == 0);
    value(expected, tf_opcode_name(opcode, written, sizeof written), (int32_t)length);
    report(expected, memcmp(written, wanted, sizeof wanted) == 0);
}

static void names(void)
{
    name(TF_OP_POP, "Pop");
    name(TF_OP_CALL_FUNCTION_EXTENDED, "CallFunctionExtended");
    name(TF_OP_RAISE_FROM, "RaiseFrom");
    naming("no room", tf_opcode_name(TF_OP_POP, NULL, 0), TF_FULL, TF_TABLE_TEXT);
    refusal("131 has no name", tf_opcode_name(NO_OPCODE, NULL, 0), TF_UNKNOWN_OPCODE);
}

static void flags(void)
{
    report("no comparison", tf_assert_flags(TF_COMPARE_NONE) == 0);
    report("==", tf_assert_flags(TF_COMPARE_EQ) == 0x10);
    report("not in", tf_assert_flags(TF_COMPARE_NOT_IN) == 0x19);
    report("an invalid comparison", tf_assert_flags(TF_COMPARE_INVALID) == 0xFF);
    report("0", tf_decode_assert_flags(0) == TF_COMPARE_NONE);
    report("0x16", tf_decode_assert_flags(0x16) == TF_COMPARE_IS);
    report("0x1A", tf_decode_assert_flags(0x1A) == TF_COMPARE_INVALID);
    report("0x01", tf_decode_assert_flags(0x01) == TF_COMPARE_INVALID);
    report("0x30", tf_decode_assert_flags(0x30) == TF_COMPARE_INVALID);
    report("0xFF", tf_decode_assert_flags(0xFF) == TF_COMPARE_INVALID);
}

/* Each opcode's byte, name, a zero byte and shape, as the other functions give them. */
static void fingerprint(void)
{
    static uint8_t table[TF_OP_LAST * 32 + 32];
    size_t length = 0;
    for (uint8_t opcode = 0; opcode <= TF_OP_LAST; opcode++) {
        table[length++] = opcode;
        length += (size_t)tf_value(tf_opcode_name(opcode, table + length, 32));
        table[length++] = 0;
        table[length++] = (uint8_t)tf_value(tf_operand_shape(opcode));
    }
    report("the table's fingerprint", tf_fingerprint() == UINT64_C(0x47F48E5E55DA518F));
    report("the header's fingerprint", tf_fingerprint() == TF_FINGERPRINT);
    report("it is the hash of names and shapes", tf_fnv1a(table, length) == tf_fingerprint());
    table[1] ^= 1;
    report("another name is another hash", tf_fnv1a(table, length) != tf_fingerprint());
    report("the hash of nothing", tf_fnv1a(NULL, 0) == UINT64_C(0xCBF29CE484222325));
    report("the hash of foobar", tf_fnv1a((const uint8_t *)"foobar", 6) == UINT64_C(0x85944171F73967E8));
}

int main(void)
{
    shapes();
    effects();
    jumps();
    dead();
    depths();
    sizes();
    names();
    flags();
    fingerprint();
    return verdict("opcodes");
}
