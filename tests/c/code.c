/* Reads, writes and looks up from C what is known from the rules' document: its nine bytes, a keyword call,
 * damaged code, too little room, its example of two handlers. Prints a line for each check that fails, then the
 * counts; exit status 1 where one failed. */
#include "checks.h"

#include <string.h>

enum { UNTOUCHED = 0x5A5A, CELLS = 12 };

/* Lent cells, filled before each call so that a changed one is seen. */
static uint64_t cell[CELLS];

static uint64_t *fresh(void)
{
    for (int i = 0; i < CELLS; i++)
        cell[i] = UNTOUCHED;
    return cell;
}

/* Whether the cells from first on are as they were. */
static int untouched(int first)
{
    for (int i = first; i < CELLS; i++)
        if (cell[i] != UNTOUCHED)
            return 0;
    return 1;
}

/* A call that writes nothing. */
static void nothing(const char *what, tf_answer answer)
{
    value(what, answer, 0);
    report(what, untouched(0));
}

static void refused(const char *what, tf_answer answer, uint32_t expected, uint32_t named)
{
    naming(what, answer, expected, named);
    report(what, untouched(0));
}

/* A call that writes so many numbers to the front, and no other cell. */
static void wrote(const char *what, tf_answer answer, const uint64_t *expected, int count)
{
    value(what, answer, 1);
    report(what, memcmp(cell, expected, (size_t)count * sizeof expected[0]) == 0);
    report(what, untouched(count));
}

/* One instruction of a code, and that one cell less is too little. */
static void step(const char *what, const uint8_t *code, size_t length, size_t at, const uint64_t expected[TF_STEP_CELLS])
{
    wrote(what, tf_step(code, length, at, fresh(), CELLS), expected, TF_STEP_CELLS);
    wrote(what, tf_step(code, length, at, fresh(), TF_STEP_CELLS), expected, TF_STEP_CELLS);
    refused(what, tf_step(code, length, at, fresh(), TF_STEP_CELLS - 1), TF_FULL, TF_TABLE_TEXT);
}

/* Code that is too long to list and to count. */
static uint8_t long_code[1048577];

/* Example A's nine bytes. */
static const uint8_t nine[] = {0x06, 0x5A, 0x03, 0x00, 0x08, 0x07, 0x00, 0x05, 0x65};

static void nine_bytes(void)
{
    static const uint64_t steps[][TF_STEP_CELLS] = {
        {TF_OP_LOAD_TRUE, 1, TF_SHAPE_NONE, 0, 0, 0, 0, 1},
        {TF_OP_JUMP_IF_FALSE, 3, TF_SHAPE_OFFSET, 3, 0, 0, 0, 4},
        {TF_OP_LOAD_SMALL_INT, 2, TF_SHAPE_I8, 7, 0, 0, 0, 6},
        {TF_OP_POP, 1, TF_SHAPE_NONE, 0, 0, 0, 0, 7},
        {TF_OP_LOAD_NONE, 1, TF_SHAPE_NONE, 0, 0, 0, 0, 8},
        {TF_OP_RETURN_VALUE, 1, TF_SHAPE_NONE, 0, 0, 0, 0, 9},
    };
    size_t at = 0;
    for (size_t i = 0; i < sizeof steps / sizeof steps[0]; i++) {
        step("the nine bytes", nine, sizeof nine, at, steps[i]);
        at += steps[i][TF_STEP_SIZE];
    }
    report("six instructions fill the nine bytes", at == sizeof nine);
    nothing("their end", tf_step(nine, sizeof nine, at, fresh(), CELLS));
    nothing("past it", tf_step(nine, sizeof nine, SIZE_MAX, fresh(), CELLS));
    nothing("no room is wanted at the end", tf_step(nine, sizeof nine, at, NULL, 0));
    nothing("no code at all", tf_step(NULL, 0, 0, fresh(), CELLS));
}

static void operands(void)
{
    static const uint8_t code[] = {
        TF_OP_LOAD_SMALL_INT, 0xFF,                          /* 0: -1 */
        TF_OP_JUMP, 0xFB, 0xFF,                              /* 2: -5, back to 0 */
        TF_OP_LOAD_NAME, 0x34, 0x12, 0x78, 0x56, 0x9A,       /* 5: all three values */
        TF_OP_CALL_ATTR_KW, 9, 1, 2, 1, 0xCD, 0xAB,          /* 11: attribute 265, 2 positional, a name */
    };
    static const uint64_t small[] = {TF_OP_LOAD_SMALL_INT, 2, TF_SHAPE_I8, 255, 0, 0, 0, 2};
    static const uint64_t jump[] = {TF_OP_JUMP, 3, TF_SHAPE_OFFSET, 65531, 0, 0, 0, 5};
    static const uint64_t name[] = {TF_OP_LOAD_NAME, 6, TF_SHAPE_U16U16U8, 0x1234, 0x5678, 0x9A, 0, 11};
    static const uint64_t call[] = {TF_OP_CALL_ATTR_KW, 7, TF_SHAPE_CALL_ATTR_KW, 265, 2, 0, 1, 16};
    step("a signed byte by its bits", code, sizeof code, 0, small);
    step("a displacement by its bits", code, sizeof code, 2, jump);
    step("two words and a byte", code, sizeof code, 5, name);
    step("an attribute's keyword call", code, sizeof code, 11, call);
    report("its name", code[16] == 0xCD && code[17] == 0xAB);
}

static void keyword_call(void)
{
    static const uint8_t code[] = {TF_OP_NOP, TF_OP_CALL_FUNCTION_KW, 3, 2, 0x01, 0x00, 0x02, 0x01, TF_OP_POP};
    static const uint64_t expected[] = {TF_OP_CALL_FUNCTION_KW, 7, TF_SHAPE_CALL_KW, 3, 0, 0, 2, 4};
    step("a keyword call", code, sizeof code, 1, expected);
    size_t names_at = (size_t)expected[TF_STEP_NAMES_AT];
    report("its first name", code[names_at] + 256 * code[names_at + 1] == 1);
    report("its second name", code[names_at + 2] + 256 * code[names_at + 3] == 258);
    value("its cells are what tf_stack_effect takes",
          tf_stack_effect((uint8_t)expected[TF_STEP_OPCODE], (uint8_t)expected[TF_STEP_SHAPE], (uint16_t)expected[TF_STEP_A],
                          (uint16_t)expected[TF_STEP_B], (uint8_t)expected[TF_STEP_C], (uint8_t)expected[TF_STEP_NAMES]),
          -5);
    for (size_t length = 2; length < 8; length++)
        refused("a keyword call cut short", tf_step(code, length, 1, fresh(), CELLS), TF_CUT_SHORT, 1);
}

static void damaged(void)
{
    static const uint8_t unknown[] = {TF_OP_POP, NO_OPCODE, 255};
    refused("131 in the code", tf_step(unknown, sizeof unknown, 1, fresh(), CELLS), TF_UNKNOWN_OPCODE, 1);
    refused("255 in the code", tf_step(unknown, sizeof unknown, 2, fresh(), CELLS), TF_UNKNOWN_OPCODE, 2);
    refused("the nine bytes cut within the jump", tf_step(nine, 3, 1, fresh(), CELLS), TF_CUT_SHORT, 1);
    refused("1 comes before 18", tf_step(unknown, sizeof unknown, 1, NULL, 0), TF_UNKNOWN_OPCODE, 1);
    refused("22 comes before 18", tf_step(nine, 3, 1, NULL, 0), TF_CUT_SHORT, 1);
    refused("no room", tf_step(nine, sizeof nine, 0, NULL, 0), TF_FULL, TF_TABLE_TEXT);
}

/* Whether so many bytes are written to the front of a buffer, all else in which stays as it was. */
static void written(const char *what, uint8_t opcode, uint8_t shape, uint16_t a, uint16_t b, uint8_t c, const uint16_t *names,
                    size_t count, const uint8_t *expected, size_t size)
{
    uint8_t out[600], wanted[600];
    memset(out, '#', sizeof out);
    memset(wanted, '#', sizeof wanted);
    naming(what, tf_write(out, size - 1, opcode, shape, a, b, c, names, count), TF_FULL, TF_TABLE_CODE);
    report(what, memcmp(out, wanted, sizeof wanted) == 0);
    memcpy(wanted, expected, size);
    value(what, tf_write(out, size, opcode, shape, a, b, c, names, count), (int32_t)size);
    report(what, memcmp(out, wanted, sizeof wanted) == 0);
    /* and back */
    value(what, tf_step(out, sizeof out, 0, fresh(), CELLS), 1);
    report(what, cell[TF_STEP_OPCODE] == opcode && cell[TF_STEP_SIZE] == size && cell[TF_STEP_SHAPE] == shape);
    report(what, cell[TF_STEP_A] == a && cell[TF_STEP_B] == b && cell[TF_STEP_C] == c);
    report(what, cell[TF_STEP_NAMES] == count && cell[TF_STEP_NAMES_AT] == size - 2 * count);
}

static void writing(void)
{
    static const uint8_t pop[] = {0}, local[] = {0x0D, 0x04}, wide[] = {0x0E, 0x00, 0x01}, jump[] = {0x58, 0xFD, 0xFF};
    static const uint8_t call[] = {0x53, 0x03, 0x02, 0x01, 0x00, 0x02, 0x01};
    static const uint16_t names[300] = {1, 258};
    uint8_t many[513] = {0x53, 0x00, 0xFF, 0x01, 0x00, 0x02, 0x01}, out[600];
    written("Pop", TF_OP_POP, TF_SHAPE_NONE, 0, 0, 0, NULL, 0, pop, sizeof pop);
    written("LoadLocal 4", TF_OP_LOAD_LOCAL, TF_SHAPE_U8, 4, 0, 0, NULL, 0, local, sizeof local);
    written("LoadLocalW 256", TF_OP_LOAD_LOCAL_W, TF_SHAPE_U16, 256, 0, 0, NULL, 0, wide, sizeof wide);
    written("a jump to itself", TF_OP_JUMP, TF_SHAPE_OFFSET, 65533, 0, 0, NULL, 0, jump, sizeof jump);
    written("a keyword call", TF_OP_CALL_FUNCTION_KW, TF_SHAPE_CALL_KW, 3, 0, 0, names, 2, call, sizeof call);
    written("255 names", TF_OP_CALL_FUNCTION_KW, TF_SHAPE_CALL_KW, 0, 0, 0, names, 255, many, sizeof many);
    memset(out, '#', sizeof out);
    refusal("131", tf_write(out, sizeof out, NO_OPCODE, TF_SHAPE_NONE, 0, 0, 0, names, 256), TF_UNKNOWN_OPCODE);
    refusal("256 names", tf_write(out, sizeof out, TF_OP_CALL_FUNCTION_KW, TF_SHAPE_CALL_KW, 0, 0, 0, names, 256), TF_TOO_MANY_NAMES);
    refusal("256 names before the shape", tf_write(out, sizeof out, TF_OP_POP, 12, 0, 0, 0, names, 256), TF_TOO_MANY_NAMES);
    refusal("another shape", tf_write(out, sizeof out, TF_OP_POP, TF_SHAPE_U8, 0, 0, 0, NULL, 0), TF_WRONG_SHAPE);
    refusal("a shape that is none", tf_write(out, sizeof out, TF_OP_POP, 12, 0, 0, 0, NULL, 0), TF_WRONG_SHAPE);
    refusal("256 in a byte", tf_write(out, sizeof out, TF_OP_LOAD_LOCAL, TF_SHAPE_U8, 256, 0, 0, NULL, 0), TF_WRONG_SHAPE);
    refusal("Pop with a name", tf_write(out, sizeof out, TF_OP_POP, TF_SHAPE_NONE, 0, 0, 0, names, 1), TF_WRONG_SHAPE);
    refusal("2 before 18", tf_write(NULL, 0, TF_OP_POP, TF_SHAPE_U8, 0, 0, 0, NULL, 0), TF_WRONG_SHAPE);
    naming("no room", tf_write(NULL, 0, TF_OP_POP, TF_SHAPE_NONE, 0, 0, 0, NULL, 0), TF_FULL, TF_TABLE_CODE);
    for (size_t i = 0; i < sizeof out; i++)
        if (out[i] != '#')
            report("a refusal writes nothing", 0);
}

/* What a check is lent beside the code and the starts, and its mode. */
static uint32_t depth[16], work[16], greatest;
static uint8_t mode = TF_NET;

static void fresh_lent(void)
{
    for (size_t i = 0; i < 16; i++)
        depth[i] = work[i] = 77;
    greatest = 77;
}

/* Whether the first cells of a slice hold a number, and the others are as they were. */
static int filled(const uint32_t *slice, size_t count, uint32_t number)
{
    for (size_t i = 0; i < 16; i++)
        if (slice[i] != (i < count ? number : 77))
            return 0;
    return 1;
}

/* Whether all that is lent is as it was. */
static int unwritten(void) { return filled(depth, 0, 0) && filled(work, 0, 0) && greatest == 77; }

/* A check's answer, behind which the greatest depth is told, or after a refusal as it was. */
static tf_answer with_greatest(tf_answer answer)
{
    report("the greatest depth", (greatest == 77) == (tf_refusal(answer) != 0));
    return answer;
}

/* A check of some bytes, after which the work slice has to end with zeros in the cells that it may use. */
static tf_answer checked(const char *bytes, size_t length, const uint32_t *starts, size_t cells)
{
    fresh_lent();
    const uint8_t *code = (const uint8_t *)bytes;
    tf_answer answer =
        with_greatest(tf_check(mode, code, length, starts, cells, depth, length + 1, work, length + 1, &greatest));
    report("the work ends with zeros", filled(work, length + 1, 0));
    return answer;
}

/* The same from one start, with all of the depths and so much work and room for a reason. */
static tf_answer explain(const uint8_t *code, size_t length, const uint32_t *starts, size_t cells, uint64_t *out,
                         size_t room)
{
    fresh_lent();
    return with_greatest(tf_explain(mode, code, length, starts, 2, depth, 16, work, cells, &greatest, out, room));
}

static void depths(void)
{
    static const char nine[] = "\x06\x5a\x03\x00\x08\x07\x00\x05\x65", loop[] = "\x05\x58\xfc\xff";
    static const uint32_t zero[] = {0, 0}, inside[] = {2, 0};
    static const uint32_t nine_depths[] = {0, 1, TF_NO_DEPTH, TF_NO_DEPTH, 0, TF_NO_DEPTH, 1, 0, 1, TF_NO_DEPTH, 77};
    report("the nine bytes", checked(nine, 9, zero, 2) == 6);
    report("their depths", memcmp(depth, nine_depths, sizeof nine_depths) == 0);
    report("a loop that grows", tf_refusal(checked(loop, 4, zero, 2)) == TF_NO_DEPTHS);
    report("leaves no depth", filled(depth, 5, TF_NO_DEPTH));
    report("no bytes", checked("", 0, NULL, 0) == 0 && filled(depth, 1, TF_NO_DEPTH));
    report("a start inside", tf_refusal(checked(nine, 9, inside, 2)) == TF_BAD_STARTS && filled(depth, 0, 0));
    report("an odd list", tf_refusal(checked(nine, 9, zero, 1)) == TF_BAD_STARTS && filled(depth, 0, 0));
    naming("cut short", checked(nine, 3, zero, 2), TF_CUT_SHORT, 1);
    report("leaves the depths", filled(depth, 0, 0));
    naming("no opcode", checked("\x05\x83", 2, zero, 2), TF_UNKNOWN_OPCODE, 1);
    report("leaves the depths", filled(depth, 0, 0));
    naming("not counted either", tf_count_instructions((const uint8_t *)"\x05\x83", 2), TF_UNKNOWN_OPCODE, 1);
    naming("counted up to it", tf_count_instructions((const uint8_t *)"\x05\x05\x83", 3), TF_UNKNOWN_OPCODE, 2);
    refusal("too long to count", tf_count_instructions(long_code, sizeof long_code), TF_TOO_LARGE);
}

/* How much stack code needs: the greatest of its depths, wherever that stands. */
static void stacks(void)
{
    static const char up_and_down[] = "\x05\x05\x00\x00\x05\x65";
    static const uint32_t zero[] = {0, 0}, most[] = {0, 65535}, end[] = {0, 0, 6, 9};
    report("in the middle", checked(up_and_down, 6, zero, 2) == 6 && greatest == 2);
    report("at the end, by falling through", checked(up_and_down, 2, zero, 2) == 2 && greatest == 2);
    report("at the end, by a start", checked(up_and_down, 6, end, 4) == 6 && greatest == 9);
    report("at the end of nothing", checked("", 0, most, 2) == 0 && greatest == 65535);
    report("as large as can be", checked("\x65", 1, most, 2) == 1 && greatest == 65535);
    report("0, where it is a start's", checked("\x69", 1, zero, 2) == 1 && greatest == 0);
    report("0, where there is no start", checked(up_and_down, 6, NULL, 0) == 0 && greatest == 0);
}

/* Room that does not suffice: all that is lent stays as it was. */
static void short_slices(void)
{
    static const uint32_t zero[] = {0, 0};
    fresh_lent();
    refusal("too few depths", tf_check(mode, nine, sizeof nine, zero, 2, depth, 9, work, 10, &greatest),
            TF_SHORT_DEPTHS);
    refusal("too little work", tf_check(mode, nine, sizeof nine, zero, 2, depth, 10, work, 9, &greatest),
            TF_SHORT_DEPTHS);
    refusal("no work", tf_check(mode, nine, sizeof nine, zero, 2, depth, 10, NULL, 0, &greatest), TF_SHORT_DEPTHS);
    refusal("21 before 22", tf_check(mode, nine, 3, zero, 2, depth, 4, work, 3, &greatest), TF_SHORT_DEPTHS);
    refusal("10 before 21", tf_check(mode, long_code, sizeof long_code, zero, 2, depth, 16, work, 16, &greatest),
            TF_TOO_LARGE);
    report("nothing is written", unwritten());
}

/* What strict mode refuses: with one value less than the opcode needs. With as many, or in the old mode, it is accepted. */
static void needs(const char *what, uint8_t opcode, uint32_t need)
{
    const uint8_t code[] = {TF_OP_NOP, opcode};
    uint32_t starts[] = {0, need};
    mode = TF_STRICT;
    value(what, explain(code, 2, starts, 16, fresh(), CELLS), 2);
    report(what, untouched(0));
    starts[1] = need - 1;
    naming(what, explain(code, 2, starts, 16, fresh(), CELLS), TF_TOO_FEW_VALUES, 1);
    const uint64_t reason[] = {TF_REASON_TOO_FEW, 1, need - 1, need};
    report(what, memcmp(cell, reason, sizeof reason) == 0 && untouched(TF_REASON_CELLS));
    report(what, filled(depth, 3, TF_NO_DEPTH) && filled(work, 3, 0));
    mode = TF_NET;
    value(what, explain(code, 2, starts, 16, fresh(), CELLS), 2);
}

static void strict(void)
{
    static const uint32_t zero[] = {0, 0}, two[] = {0, 2};
    needs("BinaryAdd", TF_OP_BINARY_ADD, 2);
    needs("BinarySubscr", TF_OP_BINARY_SUBSCR, 2);
    needs("CompareNotIn", TF_OP_COMPARE_NOT_IN, 2);
    needs("InplaceRShift", TF_OP_INPLACE_RSHIFT, 2);
    needs("Rot2", TF_OP_ROT2, 2);
    needs("Rot3", TF_OP_ROT3, 3);
    needs("Dup2", TF_OP_DUP2, 2);
    needs("Dup", TF_OP_DUP, 1);
    needs("UnaryNeg", TF_OP_UNARY_NEG, 1);
    mode = TF_STRICT;
    naming("the lowest offset", checked("\x02\x03\x03", 3, two, 2), TF_TOO_FEW_VALUES, 1);
    report("behind a return nothing is needed", checked("\x65\x17", 2, two, 2) == 1);
    report("bytes of an operand need nothing", checked("\x08\x17\x65", 3, zero, 2) == 2);
    report("23 before 26", tf_refusal(checked("\x05\x17\x00", 3, zero, 2)) == TF_NO_DEPTHS);
    short_slices();
    fresh_lent();
    refusal("no mode", tf_check(2, long_code, sizeof long_code, zero, 2, depth, 9, work, 9, &greatest), TF_WRONG_SHAPE);
    refusal("no mode", tf_explain(255, nine, 1, zero, 2, depth, 9, work, 9, &greatest, fresh(), 4), TF_WRONG_SHAPE);
    refused("18 before 2", tf_explain(2, nine, 1, zero, 2, depth, 9, work, 9, &greatest, NULL, 0), TF_FULL, TF_TABLE_TEXT);
    report("nothing is written", unwritten() && untouched(0));
    mode = TF_NET;
}

/* Code that no depths can be given to, from one start at its front, and the reason: with more cells than it has, with
 * as many, and with one less. */
static void explained(const char *what, const char *bytes, size_t length, uint32_t from,
                      const uint64_t reason[TF_REASON_CELLS])
{
    const uint8_t *code = (const uint8_t *)bytes;
    const uint32_t starts[] = {0, from};
    const size_t rooms[] = {CELLS, TF_REASON_CELLS};
    for (size_t i = 0; i < 2; i++) {
        refusal(what, explain(code, length, starts, 16, fresh(), rooms[i]), TF_NO_DEPTHS);
        report(what, memcmp(cell, reason, TF_REASON_CELLS * sizeof reason[0]) == 0 && untouched(TF_REASON_CELLS));
        report(what, filled(depth, length + 1, TF_NO_DEPTH) && filled(work, length + 1, 0));
    }
    refused(what, explain(code, length, starts, 16, fresh(), TF_REASON_CELLS - 1), TF_FULL, TF_TABLE_TEXT);
    report(what, unwritten());
}

static void reasons(void)
{
    static const uint64_t grows[] = {TF_REASON_TWO_DEPTHS, 0, 0, 1}, differ[] = {TF_REASON_TWO_DEPTHS, 4, 7, 8};
    static const uint64_t below[] = {TF_REASON_NET_OUT_OF_RANGE, 0, 0, 0};
    static const uint64_t above[] = {TF_REASON_NET_OUT_OF_RANGE, 1, 65535, 0};
    static const uint64_t taken[] = {TF_REASON_TAKEN_OUT_OF_RANGE, 0, 0, 0};
    static const uint64_t astray[] = {TF_REASON_NO_PLACE, 1, 3, 0};
    explained("a loop that grows", "\x05\x58\xfc\xff", 4, 0, grows);
    explained("two branches that differ", "\x5a\x01\x00\x05\x65", 5, 8, differ);
    explained("Pop of nothing", "\x00", 1, 0, below);
    explained("one value too many", "\x05\x05", 2, 65534, above);
    explained("ForIter of nothing, taken", "\x5e\x00\x00", 3, 0, taken);
    explained("a jump into an instruction", "\x05\x58\xfe\xff", 4, 2, astray);
    explained("a jump past the end", "\x05\x58\x01\x00", 4, 2, astray);
    explained("a jump before the code", "\x05\x58\xfb\xff", 4, 2, astray);
}

/* Where there is no reason to tell, the cells for it stay as they were. */
static void no_reasons(void)
{
    static const uint32_t zero[] = {0, 0}, inside[] = {2, 0};
    static const uint8_t unknown[] = {TF_OP_POP, NO_OPCODE};
    value("accepted", explain(nine, sizeof nine, zero, 10, fresh(), CELLS), 6);
    report("tells no reason", untouched(0) && depth[4] == 0 && greatest == 1);
    refused("a start inside", explain(nine, sizeof nine, inside, 10, fresh(), CELLS), TF_BAD_STARTS, 0);
    refused("cut short", explain(nine, 3, zero, 10, fresh(), CELLS), TF_CUT_SHORT, 1);
    refused("no opcode", explain(unknown, 2, zero, 10, fresh(), CELLS), TF_UNKNOWN_OPCODE, 1);
    refused("too little work", explain(nine, sizeof nine, zero, 9, fresh(), CELLS), TF_SHORT_DEPTHS, 0);
    refused("too long", explain(long_code, sizeof long_code, zero, 16, fresh(), CELLS), TF_TOO_LARGE, 0);
    refused("18 before 10", explain(long_code, sizeof long_code, zero, 16, NULL, 0), TF_FULL, TF_TABLE_TEXT);
}

/* All parts of a listing with so much room each, checked where depths are given, and whether no byte behind a part changes. */
static size_t listed(const uint8_t *code, size_t length, const uint32_t *depth, size_t room, char *all)
{
    uint8_t text[300];
    uint64_t told[TF_LIST_CELLS] = {0, 0};
    size_t size = 0;
    for (;;) {
        memset(text, '#', sizeof text);
        size_t from = (size_t)told[TF_LIST_NEXT];
        tf_answer answer = depth == NULL ? tf_list(code, length, from, text, room, told, TF_LIST_CELLS)
                                         : tf_check_listing(code, length, depth, length + 1, from, text, room, told, TF_LIST_CELLS);
        size_t used = answer == 1 ? (size_t)told[TF_LIST_LENGTH] : 0;
        for (size_t i = used; i < sizeof text; i++)
            if (text[i] != '#')
                report("bytes behind a part", 0);
        if (answer != 1) {
            value("the end of a listing", answer, 0);
            return size;
        }
        memcpy(all + size, text, used);
        size += used;
    }
}

static void listings(void)
{
    static const char plain[] = "offset\tname\toperands\ttarget\n0\tLoadTrue\t-\t-\n1\tJumpIfFalse\t3\t7\n4\tLoadSmallInt\t7\t-\n"
                                "6\tPop\t-\t-\n7\tLoadNone\t-\t-\n8\tReturnValue\t-\t-\n";
    static const char depths[] = "depth\toffset\tname\toperands\ttarget\n0\t0\tLoadTrue\t-\t-\n1\t1\tJumpIfFalse\t3\t7\n"
                                 "0\t4\tLoadSmallInt\t7\t-\n1\t6\tPop\t-\t-\n0\t7\tLoadNone\t-\t-\n1\t8\tReturnValue\t-\t-\n-\t9\tend\t-\t-\n";
    static const uint32_t zero[] = {0, 0};
    uint64_t told[TF_LIST_CELLS] = {0, 0};
    uint8_t text[28];
    char all[600];
    report("the nine bytes are accepted", checked((const char *)nine, sizeof nine, zero, 2) == 6);
    for (size_t room = 35; room < 300; room += 13) {
        size_t size = listed(nine, sizeof nine, NULL, room, all);
        report("the listing in parts", size == sizeof plain - 1 && memcmp(all, plain, size) == 0);
        size = listed(nine, sizeof nine, depth, room, all);
        report("the checked listing in parts", size == sizeof depths - 1 && memcmp(all, depths, size) == 0);
    }
    naming("no room for the header", tf_list(nine, sizeof nine, 0, text, 27, told, TF_LIST_CELLS), TF_FULL, TF_TABLE_TEXT);
    value("room for the header alone", tf_list(nine, sizeof nine, 0, text, 28, told, TF_LIST_CELLS), 1);
    report("then the cursor is 1", told[TF_LIST_LENGTH] == 28 && told[TF_LIST_NEXT] == 1);
    naming("no cells", tf_list(nine, sizeof nine, 0, text, 28, told, 1), TF_FULL, TF_TABLE_TEXT);
    refusal("too few depths", tf_check_listing(nine, sizeof nine, depth, 9, 0, text, 28, told, TF_LIST_CELLS), TF_SHORT_DEPTHS);
    value("past the end", tf_list(nine, sizeof nine, SIZE_MAX, text, 28, told, TF_LIST_CELLS), 0);
    report("a fault is the last line", listed((const uint8_t *)"\x05\x83\x05", 3, NULL, 35, all) == 28 + 15 + 6);
    report("and says where", memcmp(all + 43, "!\t1\t1\n", 6) == 0);
    value("too long", tf_list(long_code, 65537, 0, text, 28, told, TF_LIST_CELLS), 1);
    report("is one line", told[TF_LIST_LENGTH] == 7 && memcmp(text, "!\t0\t10\n", 7) == 0);
    value("and no other", tf_list(long_code, 65537, (size_t)told[TF_LIST_NEXT], text, 28, told, TF_LIST_CELLS), 0);
}

/* A listing of two lines, read back and refused in each way. */
static void readings(void)
{
    static const char good[] = "offset\tname\toperands\ttarget\n0\tLoadNone\t-\t-\n1\tReturnValue\t-\t-\n";
    static const char moved[] = "offset\tname\toperands\ttarget\n0\tLoadNone\t-\t-\n2\tReturnValue\t-\t-\n";
    const uint8_t *text = (const uint8_t *)good;
    uint8_t code[3] = {9, 9, 9};
    value("read back", tf_read_listing(text, sizeof good - 1, code, sizeof code), 2);
    report("its bytes", code[0] == TF_OP_LOAD_NONE && code[1] == TF_OP_RETURN_VALUE && code[2] == 9);
    value("the header alone, into nothing", tf_read_listing(text, 28, NULL, 0), 0);
    naming("no text", tf_read_listing(NULL, 0, code, sizeof code), TF_NOT_A_LINE, 1);
    naming("no last LF", tf_read_listing(text, sizeof good - 2, code, sizeof code), TF_NOT_A_LINE, 3);
    naming("an offset", tf_read_listing((const uint8_t *)moved, sizeof moved - 1, code, sizeof code), TF_DISAGREES, 3);
    naming("no room", tf_read_listing(text, sizeof good - 1, code, 1), TF_FULL, 3);
}

static void handlers(void)
{
    /* example H: 2..8 to 20, 0..10 to 30; behind them a part of a row */
    static const uint32_t rows[] = {2, 8, 20, 1, 0, 0, 0, 10, 30, 5, 6, 1, 0, 100, 40};
    static const uint32_t deep[] = {2, 8, 20, 1, 0, 0, 0, 10, 30, 65536, 6, 1};
    static const uint64_t inner[] = {0, 2, 8, 20, 1, 0, 0}, outer[] = {1, 0, 10, 30, 5, 6, 1};
    const size_t length = sizeof rows / sizeof rows[0];
    wrote("offset 1", tf_find_exception_handler(rows, length, 1, fresh(), CELLS), outer, TF_ROW_CELLS);
    wrote("offset 2", tf_find_exception_handler(rows, length, 2, fresh(), CELLS), inner, TF_ROW_CELLS);
    wrote("offset 7", tf_find_exception_handler(rows, length, 7, fresh(), TF_ROW_CELLS), inner, TF_ROW_CELLS);
    wrote("offset 8", tf_find_exception_handler(rows, length, 8, fresh(), CELLS), outer, TF_ROW_CELLS);
    nothing("offset 10", tf_find_exception_handler(rows, length, 10, fresh(), CELLS));
    nothing("offset 10 wants no room", tf_find_exception_handler(rows, length, 10, NULL, 0));
    nothing("no rows", tf_find_exception_handler(NULL, 0, 1, fresh(), CELLS));
    refused("too little room", tf_find_exception_handler(rows, length, 2, fresh(), TF_ROW_CELLS - 1), TF_FULL,
            TF_TABLE_TEXT);
    wrote("two records, offset 7", tf_find_in_two(rows, length, 7, fresh(), CELLS), inner, TF_ROW_CELLS);
    wrote("two records, offset 8", tf_find_in_two(rows, 12, 8, fresh(), TF_ROW_CELLS), outer, TF_ROW_CELLS);
    nothing("two records, offset 10", tf_find_in_two(rows, length, 10, fresh(), CELLS));
    refused("two records without room", tf_find_in_two(rows, 12, 8, fresh(), TF_ROW_CELLS - 1), TF_FULL, TF_TABLE_TEXT);
    refused("one record and a part", tf_find_in_two(rows, 11, 7, fresh(), CELLS), TF_UNSOUND, 0);
    refused("a depth of 65,536", tf_find_in_two(deep, 12, 7, fresh(), CELLS), TF_UNSOUND, 0);
    report("the handler's offset has a name", inner[TF_HANDLER_OFFSET] == 20 && outer[TF_HANDLER_KIND] == 1);
}

static void locations(void)
{
    static const uint32_t rows[] = {3, 10, 12, 0, 0, 0, 7, 20, 29, 1, 22, 23, 8, 0, 0};
    static const uint64_t first[] = {0, 3, 10, 12, 0, 0, 0}, last[] = {1, 7, 20, 29, 1, 22, 23};
    const size_t length = sizeof rows / sizeof rows[0];
    nothing("before the first row", tf_location_for_offset(rows, length, 2, fresh(), CELLS));
    wrote("at the first row", tf_location_for_offset(rows, length, 3, fresh(), CELLS), first, TF_ROW_CELLS);
    wrote("before the second row", tf_location_for_offset(rows, length, 6, fresh(), TF_ROW_CELLS), first, TF_ROW_CELLS);
    wrote("behind the part of a row", tf_location_for_offset(rows, length, 9, fresh(), CELLS), last, TF_ROW_CELLS);
    wrote("at the largest offset", tf_location_for_offset(rows, length, UINT32_MAX, fresh(), CELLS), last, TF_ROW_CELLS);
    nothing("above it", tf_location_for_offset(rows, length, (size_t)UINT32_MAX + 1, fresh(), CELLS));
    refused("too little room", tf_location_for_offset(rows, length, 3, fresh(), TF_ROW_CELLS - 1), TF_FULL,
            TF_TABLE_TEXT);
}

static void constants_and_names(void)
{
    static const uint64_t constants[] = {5, UINT64_MAX}, names[] = {0, 1, 4294967296u, 4294967297u};
    static const uint64_t largest[] = {UINT64_MAX}, zero[] = {0}, last[] = {4294967295u};
    wrote("constant 1", tf_constant(constants, 2, 1, fresh(), CELLS), largest, 1);
    nothing("constant 2", tf_constant(constants, 2, 2, fresh(), CELLS));
    refused("a constant without room", tf_constant(constants, 2, 1, NULL, 0), TF_FULL, TF_TABLE_TEXT);
    nothing("slot 0 has no name", tf_local_name(names, 4, 0, fresh(), CELLS));
    wrote("slot 1 has name 0", tf_local_name(names, 4, 1, fresh(), 1), zero, 1);
    wrote("slot 2 has the last name", tf_local_name(names, 4, 2, fresh(), CELLS), last, 1);
    nothing("slot 3 holds too large a number", tf_local_name(names, 4, 3, fresh(), CELLS));
    nothing("slot 4", tf_local_name(names, 4, 4, fresh(), CELLS));
    refused("a name without room", tf_local_name(names, 4, 1, NULL, 0), TF_FULL, TF_TABLE_TEXT);
}

int main(void)
{
    nine_bytes();
    operands();
    keyword_call();
    damaged();
    writing();
    depths();
    stacks();
    short_slices();
    strict();
    reasons();
    no_reasons();
    listings();
    readings();
    handlers();
    locations();
    constants_and_names();
    return verdict("code");
}
