/* Calls the builder from C as a compiler would, by each function of the header: the brake rule, the rules' examples,
 * each emission, and each refusal, which has to leave all that is lent as it was.
 *
 * Usage: builder FILE           (the brake rule's bytes)
 * Prints a line for each check that fails, then the counts; exit status 1 where one failed. */
#define _DEFAULT_SOURCE
#include "fences.h"

static tf_builder b, before;

/* Lends the seven tables, each with so many elements. */
static void lend_tables(const size_t lengths[TF_TABLE_STARTS + 1])
{
    for (int i = TF_TABLE_CODE; i <= TF_TABLE_STARTS; i++)
        lend(i, lengths[i]);
    b.code = lent_at(TF_TABLE_CODE), b.code_length = lent[TF_TABLE_CODE].length;
    b.locations = lent_at(TF_TABLE_LOCATIONS), b.locations_length = lent[TF_TABLE_LOCATIONS].length;
    b.exceptions = lent_at(TF_TABLE_EXCEPTIONS), b.exceptions_length = lent[TF_TABLE_EXCEPTIONS].length;
    b.constants = lent_at(TF_TABLE_CONSTANTS), b.constants_length = lent[TF_TABLE_CONSTANTS].length;
    b.names = lent_at(TF_TABLE_NAMES), b.names_length = lent[TF_TABLE_NAMES].length;
    b.marks = lent_at(TF_TABLE_MARKS), b.marks_length = lent[TF_TABLE_MARKS].length;
    b.starts = lent_at(TF_TABLE_STARTS), b.starts_length = lent[TF_TABLE_STARTS].length;
}

/* Each call goes through one of these two, which then remember what is lent. */
static void accepted(const char *what, tf_answer answer)
{
    report(what, answer == 0);
    before = b;
    remember();
}

static void refused(const char *what, tf_answer answer, uint32_t number, uint32_t named)
{
    report(what, tf_refusal(answer) == number && tf_named(answer) == named);
    report(what, memcmp(&b, &before, sizeof b) == 0 && all_kept());
    before = b;
    remember();
}

/* A builder with room for a small body, live at a depth, or dead. What the state held must not matter. */
static void begin(uint32_t depth)
{
    static const size_t lengths[] = {0, 64, 60, 12, 3, 6, 12, 4};
    memset(&b.state, FILLED, sizeof b.state);
    lend_tables(lengths);
    accepted("new", tf_new(&b, depth));
}

static void expect(const char *what, size_t offset, uint32_t depth)
{
    report(what, tf_current_offset(&b) == offset && b.state.code == offset);
    report(what, tf_stack_depth(&b) == depth && tf_is_dead(&b) == (depth == TF_NO_DEPTH));
}

static int bytes_are(const void *bytes, size_t count)
{
    return b.state.code == count && memcmp(b.code, bytes, count) == 0 && blank_from(TF_TABLE_CODE, count);
}

/* The brake rule: the limit of a wet or of a dry road, then the measured distance, compared. */
static void brake(const uint8_t *rule, size_t length)
{
    static const uint32_t starts[] = {0, 0}, depths[] = {0, 1, 0, 1, 0, 1, 2, 1};
    static const size_t places[] = {0, 1, 4, 7, 10, 13, 14, 15};
    uint32_t depth[65], work[65], greatest = 9;
    tf_label dry = {TF_DEAD}, join = {TF_DEAD};
    uint16_t wet_limit = 9, dry_limit = 9;
    begin(0);
    accepted("the wet limit", tf_add_const(&b, 41, &wet_limit));
    accepted("the dry limit", tf_add_const(&b, 27, &dry_limit));
    accepted("whether it is wet", tf_emit_load_local(&b, 1));
    accepted("if it is not", tf_emit_jump(&b, TF_OP_JUMP_IF_FALSE, &dry));
    accepted("wet", tf_emit_u16(&b, TF_OP_LOAD_CONST, wet_limit));
    accepted("go on", tf_emit_jump(&b, TF_OP_JUMP, &join));
    expect("dead behind a jump", 10, TF_NO_DEPTH);
    accepted("dry is here", tf_patch_jump(&b, dry));
    expect("live again", 10, 0);
    accepted("dry", tf_emit_u16(&b, TF_OP_LOAD_CONST, dry_limit));
    accepted("both meet here", tf_patch_jump(&b, join));
    expect("one limit", 13, 1);
    accepted("the distance", tf_emit_load_local(&b, 0));
    accepted("compared", tf_emit(&b, TF_OP_COMPARE_GE));
    accepted("answered", tf_emit(&b, TF_OP_RETURN_VALUE));
    accepted("built", tf_build(&b, 0));
    report("the labels and constants", dry.row == 0 && join.row == 1 && wet_limit == 0 && dry_limit == 1);
    report("the brake rule's bytes", length == 16 && bytes_are(rule, length));
    report("its start", b.state.starts == 1 && memcmp(b.starts, starts, sizeof starts) == 0);
    report("and no other", blank_from(TF_TABLE_STARTS, TF_START_CELLS));
    report("its constants", b.state.constants == 2 && b.constants[0] == 41 && b.constants[1] == 27);
    report("it checks", tf_check(TF_NET, b.code, 16, b.starts, 2, depth, 65, work, 65, &greatest) == 8);
    report("its stack", greatest == 2);
    for (size_t i = 0; i < sizeof places / sizeof places[0]; i++)
        report("its depths", depth[places[i]] == depths[i]);
}

/* The fault that printed wrong reports: on a wet road the limit is left twice. The branches can't be joined. */
static void broken_brake(void)
{
    tf_label dry = {TF_DEAD}, join = {TF_DEAD};
    begin(0);
    accepted("whether it is wet", tf_emit_load_local(&b, 1));
    accepted("if it is not", tf_emit_jump(&b, TF_OP_JUMP_IF_FALSE, &dry));
    accepted("wet", tf_emit_u16(&b, TF_OP_LOAD_CONST, 0));
    accepted("and once more", tf_emit(&b, TF_OP_DUP));
    accepted("go on", tf_emit_jump(&b, TF_OP_JUMP, &join));
    accepted("dry is here", tf_patch_jump(&b, dry));
    accepted("dry", tf_emit_u16(&b, TF_OP_LOAD_CONST, 1));
    refused("two limits meet one", tf_patch_jump(&b, join), TF_DEPTHS_DIFFER, 0);
    refused("and it is not built", tf_build(&b, 0), TF_OPEN_LABEL, 0);
}

/* Each emission once, by its own function. */
static tf_answer emission(int call)
{
    static const uint16_t names[] = {1, 258};
    switch (call) {
    case TF_CALL_EMIT: return tf_emit(&b, TF_OP_DUP);
    case TF_CALL_U8: return tf_emit_u8(&b, TF_OP_LOAD_LOCAL, 200);
    case TF_CALL_I8: return tf_emit_i8(&b, TF_OP_LOAD_SMALL_INT, -2);
    case TF_CALL_U8_U8: return tf_emit_u8_u8(&b, TF_OP_UNPACK_EX, 1, 2);
    case TF_CALL_U16: return tf_emit_u16(&b, TF_OP_LOAD_CONST, 0x1234);
    case TF_CALL_U16_U16: return tf_emit_u16_u16(&b, TF_OP_LOAD_SUBMODULE, 0x1234, 0x5678);
    case TF_CALL_U16_U8: return tf_emit_u16_u8(&b, TF_OP_CALL_ATTR, 0x1234, 3);
    case TF_CALL_U16_U8_U8: return tf_emit_u16_u8_u8(&b, TF_OP_MAKE_CLOSURE, 0x1234, 2, 3);
    case TF_CALL_CALL_BUILTIN_FUNCTION: return tf_emit_call_builtin_function(&b, 9, 2);
    case TF_CALL_CALL_BUILTIN_TYPE: return tf_emit_call_builtin_type(&b, 9, 2);
    case TF_CALL_CALL_FUNCTION_KW: return tf_emit_call_function_kw(&b, 3, names, 2);
    case TF_CALL_CALL_ATTR_KW: return tf_emit_call_attr_kw(&b, 0x1234, 3, names, 2);
    case TF_CALL_RAISE_UNBOUND_LOCAL: return tf_emit_raise_unbound_local(&b, 0x1234);
    case TF_CALL_LOAD_GLOBAL_CALLABLE: return tf_emit_load_global_callable(&b, 0x1234, 0x5678);
    case TF_CALL_NAME_OP: return tf_emit_name_op(&b, TF_OP_LOAD_NAME, 0x1234, 0x5678, 0x9A);
    case TF_CALL_LOAD_LOCAL: return tf_emit_load_local(&b, 256);
    default: return tf_emit_store_local(&b, 255);
    }
}

/* Its bytes, and the depth behind it from 20. */
static const struct { const char *what, *bytes; size_t size; uint32_t depth; } emissions[] = {
    {"emit", "\x01", 1, 21},
    {"emit_u8", "\x0D\xC8", 2, 21},
    {"emit_i8", "\x08\xFE", 2, 21},
    {"emit_u8_u8", "\x68\x01\x02", 3, 23},
    {"emit_u16", "\x04\x34\x12", 3, 21},
    {"emit_u16_u16", "\x6B\x34\x12\x78\x56", 5, 20},
    {"emit_u16_u8", "\x54\x34\x12\x03", 4, 17},
    {"emit_u16_u8_u8", "\x60\x34\x12\x02\x03", 5, 16},
    {"emit_call_builtin_function", "\x51\x09\x02", 3, 19},
    {"emit_call_builtin_type", "\x52\x09\x02", 3, 19},
    {"emit_call_function_kw", "\x53\x03\x02\x01\x00\x02\x01", 7, 15},
    {"emit_call_attr_kw", "\x55\x34\x12\x03\x02\x01\x00\x02\x01", 9, 15},
    {"emit_raise_unbound_local", "\x74\x34\x12", 3, TF_NO_DEPTH},
    {"emit_load_global_callable", "\x16\x34\x12\x78\x56", 5, 21},
    {"emit_name_op", "\x7A\x34\x12\x78\x56\x9A", 6, 21},
    {"emit_load_local", "\x0E\x00\x01", 3, 21},
    {"emit_store_local", "\x0F\xFF", 2, 19},
};

/* A builder that is live at 20, or dead, with a location and so much room. */
static void emission_room(uint32_t depth, size_t code, size_t locations)
{
    static const tf_range range = {7, 9}, focus = {8, UINT32_MAX};
    size_t lengths[] = {0, code, locations, 0, 0, 0, 0, 2};
    lend_tables(lengths);
    accepted("new", tf_new(&b, depth));
    accepted("a location", tf_set_location(&b, range, &focus));
}

static void each_emission(void)
{
    static const uint32_t row[] = {0, 7, 9, 1, 8, UINT32_MAX};
    for (int call = TF_CALL_EMIT; call <= TF_CALL_STORE_LOCAL; call++) {
        const char *what = emissions[call].what;
        size_t size = emissions[call].size;
        emission_room(20, size, TF_LOCATION_CELLS);
        accepted(what, emission(call));
        report(what, bytes_are(emissions[call].bytes, size) && b.state.value == 0);
        report(what, b.state.locations == 1 && memcmp(b.locations, row, sizeof row) == 0);
        expect(what, size, emissions[call].depth);
        emission_room(20, size - 1, TF_LOCATION_CELLS);
        refused(what, emission(call), TF_FULL, TF_TABLE_CODE);
        emission_room(20, size, TF_LOCATION_CELLS - 1);
        refused(what, emission(call), TF_FULL, TF_TABLE_LOCATIONS);
        emission_room(20, size + 3, TF_LOCATION_CELLS + 3);
        accepted(what, emission(call));
        report(what, bytes_are(emissions[call].bytes, size) && blank_from(TF_TABLE_LOCATIONS, TF_LOCATION_CELLS));
        emission_room(TF_NO_DEPTH, 0, 0);
        accepted(what, emission(call));
        expect(what, 0, TF_NO_DEPTH);
        b.state.has_focus = 2, before = b;
        refused(what, emission(call), TF_UNSOUND, 0);
    }
}

static void emission_refusals(void)
{
    static const uint16_t names[256];
    begin(0);
    refused("131", tf_emit(&b, NO_OPCODE), TF_UNKNOWN_OPCODE, 0);
    refused("another shape", tf_emit_u8(&b, TF_OP_POP, 1), TF_WRONG_SHAPE, 0);
    refused("below 0", tf_emit(&b, TF_OP_POP), TF_DEPTH_BELOW_ZERO, 0);
    refused("below 0 by a keyword call", tf_emit_call_function_kw(&b, 0, names, 1), TF_DEPTH_BELOW_ZERO, 0);
    refused("256 names", tf_emit_call_function_kw(&b, 0, names, 256), TF_TOO_MANY_NAMES, 0);
    refused("256 names, of an attribute", tf_emit_call_attr_kw(&b, 0, 0, names, 256), TF_TOO_MANY_NAMES, 0);
    refused("a name over 65,535", tf_emit_raise_unbound_local(&b, 65536), TF_NAME_TOO_LARGE, 0);
    refused("of a global", tf_emit_load_global_callable(&b, 0, 65536), TF_NAME_TOO_LARGE, 0);
    refused("of LoadName", tf_emit_name_op(&b, TF_OP_LOAD_NAME, 0, UINT32_MAX, 0), TF_NAME_TOO_LARGE, 0);
    refused("1 before 8", tf_emit_name_op(&b, NO_OPCODE, 0, 65536, 0), TF_UNKNOWN_OPCODE, 0);
    refused("no name's opcode", tf_emit_name_op(&b, TF_OP_POP, 0, 0, 0), TF_WRONG_SHAPE, 0);
    begin(65535);
    refused("above 65,535", tf_emit(&b, TF_OP_LOAD_NONE), TF_DEPTH_TOO_LARGE, 0);
    refused("above 65,535 by a load", tf_emit_load_local(&b, 0), TF_DEPTH_TOO_LARGE, 0);
    refused("above 65,535 by ForIter", tf_emit_jump(&b, TF_OP_FOR_ITER, &(tf_label){0}), TF_DEPTH_TOO_LARGE, 0);
    begin(TF_NO_DEPTH);
    refused("131 in dead code", tf_emit(&b, NO_OPCODE), TF_UNKNOWN_OPCODE, 0);
    refused("a name over 65,535 in dead code", tf_emit_raise_unbound_local(&b, 65536), TF_NAME_TOO_LARGE, 0);
    accepted("256 names in dead code", tf_emit_call_function_kw(&b, 0, names, 256));
    accepted("another shape in dead code", tf_emit_u8(&b, TF_OP_POP, 1));
    accepted("below 0 in dead code", tf_emit(&b, TF_OP_POP));
    report("dead code writes nothing", b.state.code == 0 && blank_from(TF_TABLE_CODE, 0));
}

static void slots(void)
{
    begin(0);
    accepted("slot 3", tf_emit_load_local(&b, 3));
    accepted("slot 4", tf_emit_load_local(&b, 4));
    accepted("slot 255", tf_emit_load_local(&b, 255));
    accepted("slot 256", tf_emit_load_local(&b, 256));
    accepted("into slot 0", tf_emit_store_local(&b, 0));
    accepted("into slot 256", tf_emit_store_local(&b, 256));
    report("the shortest forms", bytes_are("\x0C\x0D\x04\x0D\xFF\x0E\x00\x01\x0F\x00\x10\x00\x01", 13));
}

static void locations(void)
{
    static const tf_range first = {3, 5}, second = {0, UINT32_MAX}, focus = {4, 5};
    static const uint32_t rows[] = {1, 3, 5, 1, 4, 5, 2, 0, UINT32_MAX, 0, 0, 0};
    begin(0);
    accepted("no location yet", tf_emit(&b, TF_OP_NOP));
    report("so no row", b.state.locations == 0 && blank_from(TF_TABLE_LOCATIONS, 0));
    report("and no position", tf_current_position(&b).start == 0 && tf_current_position(&b).end == 0);
    accepted("a location with a focus", tf_set_location(&b, first, &focus));
    accepted("an instruction there", tf_emit(&b, TF_OP_NOP));
    report("its position", tf_current_position(&b).start == 3 && tf_current_position(&b).end == 5);
    accepted("a location without one", tf_set_location(&b, second, NULL));
    accepted("an instruction there", tf_emit(&b, TF_OP_NOP));
    report("its position", tf_current_position(&b).start == 0 && tf_current_position(&b).end == UINT32_MAX);
    report("two rows", b.state.locations == 2 && memcmp(b.locations, rows, sizeof rows) == 0);
    report("no more", blank_from(TF_TABLE_LOCATIONS, 2 * TF_LOCATION_CELLS));
}

/* A loop over what an iterator gives. */
static void loop(void)
{
    static const uint32_t rows[] = {3, 0, 1, 0, 1, 0, 0, 0};
    tf_label end = {77};
    tf_target top = {77};
    begin(1);
    accepted("a target", tf_current_jump_target(&b, &top));
    accepted("ForIter", tf_emit_jump(&b, TF_OP_FOR_ITER, &end));
    expect("ForIter falls through", 3, 2);
    report("their marks", top.row == 0 && end.row == 1 && b.state.marks == 2);
    report("in their rows", memcmp(b.marks, rows, sizeof rows) == 0 && blank_from(TF_TABLE_MARKS, 8));
    accepted("the item", tf_emit(&b, TF_OP_POP));
    accepted("back", tf_emit_jump_to(&b, TF_OP_JUMP, top));
    expect("dead behind it", 7, TF_NO_DEPTH);
    accepted("the loop's end", tf_patch_jump(&b, end));
    expect("without the iterator", 7, 0);
    refused("patched once", tf_patch_jump(&b, end), TF_ALREADY_PATCHED, 0);
    accepted("built", tf_build(&b, 0));
    report("the loop", bytes_are("\x5E\x04\x00\x00\x58\xF9\xFF", 7));
    accepted("a third mark", tf_current_jump_target(&b, &top));
    refused("no fourth target", tf_current_jump_target(&b, &top), TF_FULL, TF_TABLE_MARKS);
    refused("no fourth label", tf_emit_jump(&b, TF_OP_JUMP, &end), TF_FULL, TF_TABLE_MARKS);
    report("what is refused tells no row", top.row == 2 && end.row == 1);
}

static void jump_refusals(void)
{
    tf_label label = {TF_DEAD}, none = {TF_DEAD};
    tf_target top = {TF_DEAD};
    begin(1);
    accepted("a target", tf_current_jump_target(&b, &top));
    accepted("ForIter", tf_emit_jump(&b, TF_OP_FOR_ITER, &label));
    refused("no jump", tf_emit_jump(&b, TF_OP_POP, &none), TF_NOT_A_JUMP, 0);
    refused("131", tf_emit_jump(&b, NO_OPCODE, &none), TF_UNKNOWN_OPCODE, 0);
    refused("no jump back", tf_emit_jump_to(&b, TF_OP_POP, top), TF_NOT_A_JUMP, 0);
    refused("131 back", tf_emit_jump_to(&b, NO_OPCODE, top), TF_UNKNOWN_OPCODE, 0);
    refused("back to another depth", tf_emit_jump_to(&b, TF_OP_JUMP, top), TF_DEPTHS_DIFFER, 0);
    refused("a label is no target", tf_emit_jump_to(&b, TF_OP_JUMP, (tf_target){label.row}), TF_NO_SUCH_MARK, 0);
    refused("a target is no label", tf_patch_jump(&b, (tf_label){top.row}), TF_NO_SUCH_MARK, 0);
    refused("no such row", tf_patch_jump(&b, (tf_label){2}), TF_NO_SUCH_MARK, 0);
    refused("nor the largest", tf_patch_jump(&b, (tf_label){TF_DEAD - 1}), TF_NO_SUCH_MARK, 0);
    refused("a dead target", tf_emit_jump_to(&b, TF_OP_JUMP, (tf_target){TF_DEAD}), TF_DEAD_TARGET, 0);
    refused("the label's depth is another", tf_patch_jump(&b, label), TF_DEPTHS_DIFFER, 0);
    refused("an open label", tf_build(&b, 0), TF_OPEN_LABEL, 0);
    accepted("a dead label does nothing", tf_patch_jump(&b, (tf_label){TF_DEAD}));
    expect("live", 3, 2);
}

static void dead_jumps(void)
{
    tf_label label = {77};
    tf_target target = {77};
    begin(TF_NO_DEPTH);
    accepted("a label in dead code", tf_emit_jump(&b, TF_OP_JUMP, &label));
    accepted("a target in dead code", tf_current_jump_target(&b, &target));
    accepted("a jump back to it", tf_emit_jump_to(&b, TF_OP_JUMP, target));
    report("both dead", label.row == TF_DEAD && target.row == TF_DEAD && b.state.marks == 0);
    accepted("patched, it does nothing", tf_patch_jump(&b, label));
    expect("still dead", 0, TF_NO_DEPTH);
    refused("131 in dead code", tf_emit_jump(&b, NO_OPCODE, &label), TF_UNKNOWN_OPCODE, 0);
    report("nothing is written", blank_from(TF_TABLE_CODE, 0) && blank_from(TF_TABLE_MARKS, 0));
}

/* A builder with so many bytes of Nop, behind a mark at offset 0. */
static void far_from(const char *what, size_t code)
{
    size_t lengths[] = {0, code + 3, 0, 0, 0, 0, TF_MARK_CELLS, 2};
    lend_tables(lengths);
    memset(b.code, TF_OP_NOP, b.code_length);
    accepted(what, tf_new(&b, 0));
}

/* The rules' examples C and D: how far a jump goes, onward and back. */
static void far_jumps(void)
{
    tf_label label = {TF_DEAD};
    tf_target target = {TF_DEAD};
    for (size_t end = 32770; end <= 32771; end++) {
        far_from("C", end - 3);
        accepted("C: a label at 0", tf_emit_jump(&b, TF_OP_JUMP, &label));
        b.state.code = end, before = b;
        if (end == 32770)
            accepted("C: just near enough", tf_patch_jump(&b, label));
        else
            refused("C: too far", tf_patch_jump(&b, label), TF_JUMP_TOO_FAR, 0);
        report("C: its displacement", memcmp(b.code, end == 32770 ? "\x58\xFF\x7F" : "\x58\x00\x00", 3) == 0);
    }
    for (size_t at = 32765; at <= 32766; at++) {
        far_from("D", at);
        accepted("D: a target at 0", tf_current_jump_target(&b, &target));
        b.state.code = at, before = b;
        if (at == 32765)
            accepted("D: just near enough", tf_emit_jump_to(&b, TF_OP_JUMP, target));
        else
            refused("D: too far", tf_emit_jump_to(&b, TF_OP_JUMP, target), TF_JUMP_TOO_FAR, 0);
        report("D: its bytes", at != 32765 || memcmp(b.code + at, "\x58\x00\x80", 3) == 0);
    }
}

/* Their examples B, E, F, G. */
static void examples(void)
{
    static const uint16_t names[255];
    tf_label label = {TF_DEAD};
    tf_target target = {TF_DEAD};
    far_from("B", 0);
    accepted("B: a target", tf_current_jump_target(&b, &target));
    accepted("B: a jump to its own opcode", tf_emit_jump_to(&b, TF_OP_JUMP, target));
    report("B: -3", bytes_are("\x58\xFD\xFF", 3));
    far_from("E", 510);
    accepted("E: at 255", tf_new(&b, 255));
    accepted("E: 255 names make 513 bytes", tf_emit_call_function_kw(&b, 0, names, 255));
    expect("E", 513, 0);
    far_from("F", 0);
    refused("F: ForIter at depth 0", tf_emit_jump(&b, TF_OP_FOR_ITER, &label), TF_DEPTH_BELOW_ZERO, 0);
    far_from("G", 0);
    accepted("G: at 1", tf_new(&b, 1));
    accepted("G: JumpIfTrueOrPop", tf_emit_jump(&b, TF_OP_JUMP_IF_TRUE_OR_POP, &label));
    refused("G: right behind itself", tf_patch_jump(&b, label), TF_DEPTHS_DIFFER, 0);
}

/* Example I, and that the code's limit is no matter of what is lent. */
static void limits(void)
{
    static const size_t lengths[] = {0, (1 << 20) + 8, 0, 0, 65537, 0, 0, 2};
    uint16_t index = 0;
    lend_tables(lengths);
    accepted("new", tf_new(&b, 0));
    b.state.constants = 65535;
    accepted("the last constant", tf_add_const(&b, UINT64_MAX, &index));
    report("its index", index == 65535 && b.constants[65535] == UINT64_MAX && blank_from(TF_TABLE_CONSTANTS, 0) == 0);
    refused("one more", tf_add_const(&b, 0, &index), TF_TOO_MANY_CONSTANTS, 0);
    report("a refused constant has no index", index == 65535);
    b.state.code = (1 << 20) - 1;
    accepted("the last byte", tf_emit(&b, TF_OP_NOP));
    refused("one more byte", tf_emit(&b, TF_OP_NOP), TF_FULL, TF_TABLE_CODE);
    b.state.code = (1 << 20) + 1, before = b;
    refused("more than there can be", tf_emit(&b, TF_OP_NOP), TF_UNSOUND, 0);
    refused("not for names either", tf_register_local_name(&b, 0, 0), TF_UNSOUND, 0);
    report("but it can be looked at", tf_current_offset(&b) == (1 << 20) + 1);
}

static void names(void)
{
    static const uint32_t three[] = {5, UINT32_MAX, 0};
    static const uint64_t largest = (uint64_t)UINT32_MAX + 1;
    const uint64_t cells[] = {6, largest, 1, 0, 10}, built[] = {6, largest, 1, 8, 10};
    begin(0);
    accepted("three names", tf_register_local_names(&b, three, 3));
    refused("names again", tf_register_local_names(&b, three, 3), TF_NAMES_HELD, 0);
    accepted("the first name stays", tf_register_local_name(&b, 1, 9));
    accepted("slot 4 has one", tf_register_local_name(&b, 4, 9));
    refused("slot 6 is past the table", tf_register_local_name(&b, 6, 9), TF_FULL, TF_TABLE_NAMES);
    report("the cells", b.state.names == 5 && memcmp(b.names, cells, sizeof cells) == 0);
    report("no more", blank_from(TF_TABLE_NAMES, 5));
    accepted("built", tf_build(&b, 7));
    report("slot 3 is filled", memcmp(b.names, built, sizeof built) == 0 && blank_from(TF_TABLE_NAMES, 5));
    begin(0);
    refused("seven names", tf_register_local_names(&b, (uint32_t[7]){0}, 7), TF_FULL, TF_TABLE_NAMES);
    accepted("no names", tf_register_local_names(&b, NULL, 0));
    report("none", b.state.names == 0 && blank_from(TF_TABLE_NAMES, 0));
}

static void handlers(void)
{
    static const uint32_t rows[] = {2, 8, 20, 1, 0, 0, 0, UINT32_MAX, 30, 65535, 65535, 1};
    const size_t over = (size_t)UINT32_MAX + 1;
    begin(0);
    refused("a start over 32 bits", tf_add_exception_entry(&b, over, 8, 20, 1, 0, TF_CONSUMING), TF_TOO_LARGE, 0);
    refused("an end", tf_add_exception_entry(&b, 2, over, 20, 1, 0, TF_CONSUMING), TF_TOO_LARGE, 0);
    refused("a handler", tf_add_exception_entry(&b, 2, 8, SIZE_MAX, 1, 0, TF_CONSUMING), TF_TOO_LARGE, 0);
    refused("a kind that is none", tf_add_exception_entry(&b, over, 8, 20, 1, 0, 2), TF_WRONG_SHAPE, 0);
    accepted("the inner one", tf_add_exception_entry(&b, 2, 8, 20, 1, 0, TF_CONSUMING));
    accepted("the outer one", tf_add_exception_entry(&b, 0, UINT32_MAX, 30, 65535, 65535, TF_CLEANUP));
    refused("no third", tf_add_exception_entry(&b, 0, 1, 2, 0, 0, TF_CLEANUP), TF_FULL, TF_TABLE_EXCEPTIONS);
    refused("10 before 18", tf_add_exception_entry(&b, 0, over, 2, 0, 0, TF_CLEANUP), TF_TOO_LARGE, 0);
    report("two rows", b.state.exceptions == 2 && memcmp(b.exceptions, rows, sizeof rows) == 0);
}

static void regions(void)
{
    static const uint32_t rows[] = {0, 0, 3, 65535};
    begin(0);
    refused("while live", tf_new_code_region(&b, 3), TF_REGION_WHILE_LIVE, 0);
    accepted("dead", tf_emit_raise_unbound_local(&b, 0));
    accepted("a region", tf_new_code_region(&b, 65535));
    expect("live there", 3, 65535);
    report("two starts", b.state.starts == 2 && memcmp(b.starts, rows, sizeof rows) == 0);
    accepted("dead again", tf_emit(&b, TF_OP_RERAISE));
    refused("no third start", tf_new_code_region(&b, 0), TF_FULL, TF_TABLE_STARTS);
    refused("a depth that is none", tf_new(&b, TF_NO_DEPTH + 1), TF_WRONG_SHAPE, 0);
    b.starts_length = 1, before = b;
    refused("no room for the start", tf_new(&b, 0), TF_FULL, TF_TABLE_STARTS);
    accepted("a dead builder needs none", tf_new(&b, TF_NO_DEPTH));
    report("it has nothing", b.state.code == 0 && b.state.starts == 0 && b.state.marks == 0);
    b.state.depth = TF_NO_DEPTH + 1;
    report("a state that is none looks dead", tf_is_dead(&b) == 1 && tf_stack_depth(&b) == TF_NO_DEPTH);
}

/* The header's own example: a table that is full is made larger, and the call made again. */
static void growing(void)
{
    size_t lengths[] = {0, 0, 0, 0, 0, 0, 0, 2};
    tf_answer a;
    lend_tables(lengths);
    accepted("new", tf_new(&b, 0));
    accepted("a location", tf_set_location(&b, (tf_range){1, 2}, NULL));
    for (uint8_t i = 0; i < 100; i++) {
        while (tf_refusal(a = tf_emit_u8(&b, TF_OP_LOAD_LOCAL, i)) == TF_FULL) {
            int table = (int)tf_named(a);
            report("one of two tables", table == TF_TABLE_CODE || table == TF_TABLE_LOCATIONS);
            relend(table, lent[table].length + 7);
            b.code = lent_at(TF_TABLE_CODE), b.code_length = lent[TF_TABLE_CODE].length;
            b.locations = lent_at(TF_TABLE_LOCATIONS), b.locations_length = lent[TF_TABLE_LOCATIONS].length;
        }
        report("then it is accepted", a == 0);
    }
    report("all of it is there", b.state.code == 200 && b.state.locations == 100);
    for (size_t i = 0; i < 100 && b.state.code == 200; i++) {
        report("in its order", b.code[2 * i] == TF_OP_LOAD_LOCAL && b.code[2 * i + 1] == i);
        report("with its location", b.locations[TF_LOCATION_CELLS * i] == 2 * i);
    }
}

int main(int count, char **words)
{
    uint8_t rule[64];
    FILE *file = count == 2 ? fopen(words[1], "rb") : NULL;
    if (file == NULL) {
        fprintf(stderr, "usage: builder FILE\n");
        return 2;
    }
    size_t length = fread(rule, 1, sizeof rule, file);
    fclose(file);
    raise_fences();
    brake(rule, length);
    broken_brake();
    each_emission();
    emission_refusals();
    slots();
    locations();
    loop();
    jump_refusals();
    dead_jumps();
    far_jumps();
    examples();
    limits();
    names();
    handlers();
    regions();
    growing();
    drop_fences();
    return verdict("builder");
}
