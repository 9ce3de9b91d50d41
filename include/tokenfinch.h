/* tokenfinch.h: the opcode rules, the decoder, the instruction writer, the depth checker, the lookups and the builder,
 * for C and C++.
 *
 * The functions are proved: each one ends for every argument and answers what is said beside it,
 * and none of them trusts its caller. They keep nothing between calls and may be called from any thread. Arrays that
 * are lent to one call must not overlap, and no other thread may write to them meanwhile.
 * Link with libtokenfinch.a (docs/C.md).
 *
 * An answer (tf_answer) is one 64-bit number. Its upper half is 0, or the number of the refusal; its lower half
 * is the value, in two's complement where it can be negative, or what the refusal names. tf_refusal, tf_value and
 * tf_named take it apart:
 *
 *     tf_answer a = tf_stack_effect(TF_OP_BUILD_LIST, TF_SHAPE_U16, 3, 0, 0, 0);
 *     if (tf_refusal(a) == 0) printf("%d\n", (int)tf_value(a));        prints -2
 */
#ifndef TOKENFINCH_H
#define TOKENFINCH_H

#include <stddef.h>
#include <stdint.h>

#ifdef __cplusplus
extern "C" {
#endif

typedef uint64_t tf_answer;

/* The refusal's number; 0 where the call was accepted. */
static inline uint32_t tf_refusal(tf_answer a) { return (uint32_t)(a >> 32); }

/* The value of an accepted call; after a refusal the lower half is what that names, and this is not for it. */
static inline int32_t tf_value(tf_answer a) { return (int32_t)(uint32_t)(a & 0xFFFFFFFFu); }

/* What a refusal names: for 18 the table, TF_TABLE_..; for 22 and 26, and for 1 of an opcode that was read from code, the
 * offset modulo 2^32; of tf_read_listing the line, from 1 on and modulo 2^32; else 0. */
static inline uint32_t tf_named(tf_answer a) { return (uint32_t)(a & 0xFFFFFFFFu); }

/* The refusals that the functions of this header give. */
enum {
    TF_UNKNOWN_OPCODE = 1,      /* the opcode is above 130 */
    TF_WRONG_SHAPE = 2,         /* the operand is not of the opcode's shape, or an argument is too large */
    TF_NOT_A_JUMP = 3,          /* the opcode is no jump */
    TF_DEPTH_BELOW_ZERO = 4,    /* the depth would fall below 0, falling through or where a jump is taken */
    TF_DEPTH_TOO_LARGE = 5,     /* the depth would rise above 65,535 */
    TF_JUMP_TOO_FAR = 6,        /* the displacement would be outside -32,768 to 32,767 */
    TF_TOO_MANY_NAMES = 7,      /* over 255 keyword names */
    TF_NAME_TOO_LARGE = 8,      /* the name is over 65,535 */
    TF_TOO_MANY_CONSTANTS = 9,  /* 65,536 constants are held */
    TF_TOO_LARGE = 10,          /* the code is over 1,048,576 bytes, or a handler's offset over 4,294,967,295 */
    TF_DEPTHS_DIFFER = 11,      /* a jump meets another depth */
    TF_DEAD_TARGET = 12,        /* a live jump to a dead target */
    TF_NO_SUCH_MARK = 13,       /* no label or target of that row */
    TF_ALREADY_PATCHED = 14,    /* the label is patched already */
    TF_REGION_WHILE_LIVE = 15,  /* a region is opened while the code is live */
    TF_NAMES_HELD = 16,         /* names are registered at once while names are held */
    TF_OPEN_LABEL = 17,         /* the body is finished while a label is not patched */
    TF_FULL = 18,               /* too little room where the answer is to be written, or in a table; names which */
    TF_UNSOUND = 19,            /* no builder: a state that is none, or one that its tables are too short for */
    TF_BAD_STARTS = 20,         /* an odd number, a depth over 65,535, or an offset that is no place in the code */
    TF_SHORT_DEPTHS = 21,       /* fewer depths than bytes of code and one, or fewer elements to work in */
    TF_CUT_SHORT = 22,          /* an instruction is cut short by the code's end */
    TF_NO_DEPTHS = 23,          /* no depths can be given to the instructions */
    TF_NOT_A_LINE = 24,         /* a line that no listing without fault has there; names the line */
    TF_DISAGREES = 25,          /* an offset or a target that is not the one that results; names the line */
    TF_TOO_FEW_VALUES = 26      /* in strict mode: an instruction needs more values than are there; names its offset */
};

/* What tf_named says of 18: what is too short. */
enum {
    TF_TABLE_CODE = 1, TF_TABLE_LOCATIONS = 2, TF_TABLE_EXCEPTIONS = 3, TF_TABLE_CONSTANTS = 4, TF_TABLE_NAMES = 5,
    TF_TABLE_MARKS = 6, TF_TABLE_STARTS = 7,
    TF_TABLE_TEXT = 8 /* no table: out, of a function that writes to its front */
};

/* The opcodes, in op.rs's numbers. */
enum {
    TF_OP_POP = 0, TF_OP_DUP = 1, TF_OP_ROT2 = 2, TF_OP_ROT3 = 3, TF_OP_LOAD_CONST = 4, TF_OP_LOAD_NONE = 5,
    TF_OP_LOAD_TRUE = 6, TF_OP_LOAD_FALSE = 7, TF_OP_LOAD_SMALL_INT = 8, TF_OP_LOAD_LOCAL0 = 9,
    TF_OP_LOAD_LOCAL1 = 10, TF_OP_LOAD_LOCAL2 = 11, TF_OP_LOAD_LOCAL3 = 12, TF_OP_LOAD_LOCAL = 13,
    TF_OP_LOAD_LOCAL_W = 14, TF_OP_STORE_LOCAL = 15, TF_OP_STORE_LOCAL_W = 16, TF_OP_LOAD_GLOBAL = 17,
    TF_OP_STORE_GLOBAL = 18, TF_OP_LOAD_CELL = 19, TF_OP_STORE_CELL = 20, TF_OP_DELETE_LOCAL = 21,
    TF_OP_LOAD_GLOBAL_CALLABLE = 22, TF_OP_BINARY_ADD = 23, TF_OP_BINARY_SUB = 24, TF_OP_BINARY_MUL = 25,
    TF_OP_BINARY_DIV = 26, TF_OP_BINARY_FLOOR_DIV = 27, TF_OP_BINARY_MOD = 28, TF_OP_BINARY_POW = 29,
    TF_OP_BINARY_AND = 30, TF_OP_BINARY_OR = 31, TF_OP_BINARY_XOR = 32, TF_OP_BINARY_LSHIFT = 33,
    TF_OP_BINARY_RSHIFT = 34, TF_OP_BINARY_MAT_MUL = 35, TF_OP_COMPARE_EQ = 36, TF_OP_COMPARE_NE = 37,
    TF_OP_COMPARE_LT = 38, TF_OP_COMPARE_LE = 39, TF_OP_COMPARE_GT = 40, TF_OP_COMPARE_GE = 41,
    TF_OP_COMPARE_IS = 42, TF_OP_COMPARE_IS_NOT = 43, TF_OP_COMPARE_IN = 44, TF_OP_COMPARE_NOT_IN = 45,
    TF_OP_UNARY_NOT = 46, TF_OP_UNARY_NEG = 47, TF_OP_UNARY_POS = 48, TF_OP_UNARY_INVERT = 49,
    TF_OP_INPLACE_ADD = 50, TF_OP_INPLACE_SUB = 51, TF_OP_INPLACE_MUL = 52, TF_OP_INPLACE_DIV = 53,
    TF_OP_INPLACE_FLOOR_DIV = 54, TF_OP_INPLACE_MOD = 55, TF_OP_INPLACE_POW = 56, TF_OP_INPLACE_AND = 57,
    TF_OP_INPLACE_OR = 58, TF_OP_INPLACE_XOR = 59, TF_OP_INPLACE_LSHIFT = 60, TF_OP_INPLACE_RSHIFT = 61,
    TF_OP_BUILD_LIST = 62, TF_OP_BUILD_TUPLE = 63, TF_OP_BUILD_DICT = 64, TF_OP_BUILD_SET = 65,
    TF_OP_FORMAT_VALUE = 66, TF_OP_BUILD_FSTRING = 67, TF_OP_BUILD_SLICE = 68, TF_OP_LIST_EXTEND = 69,
    TF_OP_LIST_TO_TUPLE = 70, TF_OP_DICT_MERGE = 71, TF_OP_LIST_APPEND = 72, TF_OP_SET_ADD = 73,
    TF_OP_DICT_SET_ITEM = 74, TF_OP_BINARY_SUBSCR = 75, TF_OP_STORE_SUBSCR = 76, TF_OP_LOAD_ATTR = 77,
    TF_OP_LOAD_ATTR_IMPORT = 78, TF_OP_STORE_ATTR = 79, TF_OP_CALL_FUNCTION = 80,
    TF_OP_CALL_BUILTIN_FUNCTION = 81, TF_OP_CALL_BUILTIN_TYPE = 82, TF_OP_CALL_FUNCTION_KW = 83,
    TF_OP_CALL_ATTR = 84, TF_OP_CALL_ATTR_KW = 85, TF_OP_CALL_FUNCTION_EXTENDED = 86,
    TF_OP_CALL_ATTR_EXTENDED = 87, TF_OP_JUMP = 88, TF_OP_JUMP_IF_TRUE = 89, TF_OP_JUMP_IF_FALSE = 90,
    TF_OP_JUMP_IF_TRUE_OR_POP = 91, TF_OP_JUMP_IF_FALSE_OR_POP = 92, TF_OP_GET_ITER = 93, TF_OP_FOR_ITER = 94,
    TF_OP_MAKE_FUNCTION = 95, TF_OP_MAKE_CLOSURE = 96, TF_OP_RAISE = 97, TF_OP_RERAISE = 98,
    TF_OP_CLEAR_EXCEPTION = 99, TF_OP_CHECK_EXC_MATCH = 100, TF_OP_RETURN_VALUE = 101, TF_OP_AWAIT = 102,
    TF_OP_UNPACK_SEQUENCE = 103, TF_OP_UNPACK_EX = 104, TF_OP_NOP = 105, TF_OP_LOAD_MODULE = 106,
    TF_OP_LOAD_SUBMODULE = 107, TF_OP_DUP2 = 108, TF_OP_DELETE_GLOBAL = 109, TF_OP_DICT_UPDATE = 110,
    TF_OP_SET_EXTEND = 111, TF_OP_BEFORE_WITH = 112, TF_OP_WITH_EXIT = 113, TF_OP_WITH_EXCEPT_START = 114,
    TF_OP_LIFT_TO_TOP = 115, TF_OP_RAISE_UNBOUND_LOCAL = 116, TF_OP_METHOD_DICT_MERGE = 117,
    TF_OP_ASSERT = 118, TF_OP_ASSERT_FAILED = 119, TF_OP_BUILD_CELL = 120, TF_OP_DELETE_CELL = 121,
    TF_OP_LOAD_NAME = 122, TF_OP_STORE_NAME = 123, TF_OP_DELETE_NAME = 124, TF_OP_MATCH_SHAPE = 125,
    TF_OP_MATCH_KEYS = 126, TF_OP_MATCH_CLASS = 127, TF_OP_MATCH_ATTR = 128, TF_OP_SINK_TOP = 129,
    TF_OP_RAISE_FROM = 130,
    TF_OP_LAST = 130 /* a number above it is refused by 1 */
};

/* The shapes of operands, in op.rs's numbers. Behind each: the operand's values a, b, c in the order
 * of their bytes, and the instruction's size in bytes. n is the number of keyword names. */
enum {
    TF_SHAPE_NONE = 0,         /*                                              1 */
    TF_SHAPE_U8 = 1,           /* a: 0 to 255                                  2 */
    TF_SHAPE_I8 = 2,           /* a: the byte of a signed number, 0 to 255     2 */
    TF_SHAPE_U16 = 3,          /* a: 0 to 65,535                               3 */
    TF_SHAPE_OFFSET = 4,       /* a: the displacement's 16 bits, 0 to 65,535   3 */
    TF_SHAPE_U8U8 = 5,         /* a, b: 0 to 255                               3 */
    TF_SHAPE_U16U8 = 6,        /* a: 0 to 65,535; b: 0 to 255                  4 */
    TF_SHAPE_U16U16 = 7,       /* a, b: 0 to 65,535                            5 */
    TF_SHAPE_U16U8U8 = 8,      /* a: 0 to 65,535; b, c: 0 to 255               5 */
    TF_SHAPE_CALL_KW = 9,      /* a: positional count, 0 to 255                3 + 2n */
    TF_SHAPE_CALL_ATTR_KW = 10,/* a: attribute, 0 to 65,535; b: positional     5 + 2n */
    TF_SHAPE_U16U16U8 = 11     /* a, b: 0 to 65,535; c: 0 to 255               6 */
};

/* The opcode's shape, one of TF_SHAPE_...
 * Refuses: 1. */
tf_answer tf_operand_shape(uint8_t opcode);

/* What the instruction does to the depth of the stack where it falls through: -131,069 to 510.
 * shape, a, b, c and names give its operand, as the table above has it; what a shape does not use is
 * not looked at. names is the number of keyword names.
 * Refuses: 1; 2 where shape is not the opcode's, is none, or a value is too large for its field. */
tf_answer tf_stack_effect(uint8_t opcode, uint8_t shape, uint16_t a, uint16_t b, uint8_t c, uint8_t names);

/* What a jump does to the depth where it is taken: 0 or -1.
 * Refuses: 1, 3. */
tf_answer tf_jump_taken_stack_effect(uint8_t opcode);

/* 1 where nothing runs on behind the instruction (ReturnValue, Raise, Reraise, RaiseUnboundLocal,
 * AssertFailed, Jump), else 0.
 * Refuses: 1. */
tf_answer tf_makes_dead(uint8_t opcode);

/* The depth behind the instruction, where it stood at depth and falls through.
 * Refuses: 1, 2 as tf_stack_effect does; then 4 below 0 and 5 above 65,535. */
tf_answer tf_depth_after(uint16_t depth, uint8_t opcode, uint8_t shape, uint16_t a, uint16_t b, uint8_t c, uint8_t names);

/* The depth that a taken jump arrives with, where it stood at depth.
 * Refuses: 1, 3; then 4 below 0. */
tf_answer tf_depth_taken(uint16_t depth, uint8_t opcode);

/* The instruction's size in bytes; names is its number of keyword names, not looked at where the
 * shape has none.
 * Refuses: 1. */
tf_answer tf_instruction_size(uint8_t opcode, uint8_t names);

/* Writes the opcode's name, as op.rs has it, to the front of out, which has room bytes, and answers its
 * length (3 to 20). No byte 0 is written behind it. A refusal writes nothing. out may be null where room is 0.
 * Refuses: 1, 18. */
tf_answer tf_opcode_name(uint8_t opcode, uint8_t *out, size_t room);

/* The fingerprint of the opcode table, TF_FINGERPRINT: tf_fnv1a of the bytes that there are for each opcode from 0 on,
 * its byte, its name as tf_opcode_name writes it, a zero byte and its shape's number. It is the number itself and no
 * tf_answer. Where those of two installations differ, some opcode has another name or shape in one of them; where they
 * are the same, the tables are too, as far as a hash of 64 bits can say. Where it is not TF_FINGERPRINT, the archive is
 * not the one that this header belongs to. Never refuses. */
uint64_t tf_fingerprint(void);
#define TF_FINGERPRINT UINT64_C(0x47F48E5E55DA518F)

/* The 64-bit FNV-1a hash of length bytes, which may be any; of none, where bytes may be null, it is 0xCBF29CE484222325. It is
 * the number itself and no tf_answer. Where one byte is replaced by another and nothing else is changed, it is another;
 * after any other change it can be the same by chance, or because somebody means it to be. Never refuses. */
uint64_t tf_fnv1a(const uint8_t *bytes, size_t length);

/* How many instructions length bytes of code are, read one behind the other from the first byte to the last.
 * Refuses: 10 for over 1,048,576 bytes; 1 and 22, with the offset, where the reading stops at a byte that is no opcode, or at
 * an instruction that is cut short. */
tf_answer tf_count_instructions(const uint8_t *code, size_t length);

/* The comparisons of Assert and AssertFailed, in op.rs's numbers. */
enum {
    TF_COMPARE_EQ = 0, TF_COMPARE_NOT_EQ = 1, TF_COMPARE_LT = 2, TF_COMPARE_LT_E = 3, TF_COMPARE_GT = 4,
    TF_COMPARE_GT_E = 5, TF_COMPARE_IS = 6, TF_COMPARE_IS_NOT = 7, TF_COMPARE_IN = 8, TF_COMPARE_NOT_IN = 9,
    TF_COMPARE_NONE = 10,   /* the assert compares nothing */
    TF_COMPARE_INVALID = 11 /* the byte is no assert's */
};

/* The flags byte of an assert: 0 for TF_COMPARE_NONE, 0x10 to 0x19 for the comparisons. Every other
 * number gives 0xFF, which tf_decode_assert_flags calls invalid. Never refuses. */
uint8_t tf_assert_flags(uint8_t comparison);

/* The comparison of a flags byte: 0 to 9, TF_COMPARE_NONE or TF_COMPARE_INVALID. Never refuses. */
uint8_t tf_decode_assert_flags(uint8_t flags);

/* ---- Reading and writing code
 *
 * Code is plain bytes: instructions one behind the other, the opcode first, then its operand's values in
 * order, those of 16 bits with the low byte first. A keyword call ends with its names, 2 bytes each.
 *
 * Lent arrays come with their number of elements, and a pointer may be null where that is 0. A function
 * writes only what is said, and but for tf_check and tf_explain only where it answers 1 (or a size); no other element
 * ever changes.
 */

/* What tf_step writes, by its place in out. a, b, c and names are what tf_stack_effect takes, and a, b, c
 * what tf_write takes. */
enum {
    TF_STEP_OPCODE = 0,
    TF_STEP_SIZE = 1,  /* of the whole instruction, in bytes: the next one stands at at + size */
    TF_STEP_SHAPE = 2, /* one of TF_SHAPE_... */
    TF_STEP_A = 3,     /* the operand's values, as the table of shapes has them; 0 where it has none */
    TF_STEP_B = 4,
    TF_STEP_C = 5,
    TF_STEP_NAMES = 6, /* the number of keyword names; 0 where the shape has none */
    TF_STEP_NAMES_AT = 7, /* the offset in code of the names' bytes, two for each, the low byte first */
    TF_STEP_CELLS = 8
};

/* Reads the instruction that stands at the offset at of the code, which has length bytes, and writes it to
 * the front of out, which has room elements. Value 1, or 0 at the code's end and past it, where nothing is
 * written. Any offset may be asked for; it is read as if an instruction began there.
 * Refuses: 1 and 22, of the instruction at at; then 18 where out has fewer than TF_STEP_CELLS elements. A
 * refusal writes nothing. A walk over the code:
 *
 *     uint64_t cell[TF_STEP_CELLS];
 *     size_t at = 0;
 *     tf_answer a;
 *     while ((a = tf_step(code, length, at, cell, TF_STEP_CELLS)) == 1)
 *         at += cell[TF_STEP_SIZE];
 *     if (tf_refusal(a) != 0) ...                                      the code is damaged at at
 */
tf_answer tf_step(const uint8_t *code, size_t length, size_t at, uint64_t *out, size_t room);

/* Writes one instruction to the front of out, which has room bytes, and answers its size. The operand is given
 * as for tf_stack_effect; names are the numbers of the keyword names, and there are count of them (0 where the
 * shape has none). What it writes, tf_step reads back.
 * Refuses: 1; 7 over 255 names; 2 where shape is not the opcode's, is none, a value is too large for its field,
 * or there are names and the shape has none; then 18. A refusal writes nothing. */
tf_answer tf_write(uint8_t *out, size_t room, uint8_t opcode, uint8_t shape, uint16_t a, uint16_t b, uint8_t c,
                   const uint16_t *names, size_t count);

/* An element of depths that holds no depth. */
enum { TF_NO_DEPTH = 65536 };

/* The modes of a check: what it asks of an instruction that has a depth. */
enum {
    TF_NET = 0,   /* that what the instruction adds and takes away in all leaves 0 to 65,535; so the builder checks too */
    TF_STRICT = 1 /* besides, that the values which it needs are there: the Binary, Compare and Inplace opcodes, Rot2 and
                   * Dup2 need 2, Rot3 needs 3, the Unary opcodes and Dup need 1, every other opcode none */
};

/* Whether a depth of the stack can be given to each instruction of length bytes of code that the starts lead to,
 * so that all paths meet with the same depth. mode is TF_NET or TF_STRICT; what TF_STRICT accepts TF_NET accepts too, with
 * the same value, depths and greatest depth. starts has start_cells numbers: the offset of a start, its depth, and so
 * on. Two arrays of at least length + 1 elements each are lent: depths, which has room elements, and work, which has
 * work_cells; and one number, greatest, which can't be null. What they hold does not matter. The time is in proportion
 * to the length of the code and of the starts (measured, not proved).
 *
 * Value: how many instructions have a depth. The first length + 1 elements of depths then hold the depth before the
 * instruction at each offset, the last of them the depth at the code's end, and TF_NO_DEPTH elsewhere; on 23 and 26 they
 * all hold TF_NO_DEPTH, and any other refusal writes nothing there. The first length + 1 elements of work are used by the
 * check and end as 0, accepted or refused; 2, 10 and 21 alone leave them as they were. No later element of the two is ever
 * written.
 *
 * The number that greatest points to becomes the greatest of the depths, the end's among them, or 0 where there is
 * none; a refusal leaves it as it was. It is how much stack an interpreter reserves: no path from a start comes to an
 * instruction or to the end with more, and where there is a start some path comes with as much. What an instruction
 * uses while it runs is not in it.
 *
 *     uint32_t greatest;
 *     tf_answer a = tf_check(TF_NET, code, length, starts, 2, depths, length + 1, work, length + 1, &greatest);
 *     if (tf_refusal(a) == 0) printf("reserve a stack of %u\n", (unsigned)greatest);
 *
 * Refuses, in this order: 2 for another mode; 10; 21 where depths or work has fewer than length + 1 elements; 1 or 22 with
 * the offset; 20; 23; in the mode TF_STRICT 26 with the lowest offset of an instruction that has too few values. */
tf_answer tf_check(uint8_t mode, const uint8_t *code, size_t length, const uint32_t *starts, size_t start_cells,
                   uint32_t *depths, size_t room, uint32_t *work, size_t work_cells, uint32_t *greatest);

/* What tf_explain writes, by its place in told. */
enum {
    TF_REASON_KIND = 0,        /* one of the kinds below */
    TF_REASON_OFFSET = 1,      /* of the place, or of the instruction */
    TF_REASON_DEPTH = 2,       /* a depth that a path from a start brings there */
    TF_REASON_OTHER_DEPTH = 3, /* another, for TF_REASON_TWO_DEPTHS */
    TF_REASON_NEED = 3,        /* how many values are needed, for TF_REASON_TOO_FEW; for the other kinds 0 */
    TF_REASON_CELLS = 4
};

/* The kinds of reasons. */
enum {
    TF_REASON_TWO_DEPTHS = 1,         /* paths bring two depths to the place */
    TF_REASON_NET_OUT_OF_RANGE = 2,   /* the depth behind the instruction would not be 0 to 65,535 */
    TF_REASON_TAKEN_OUT_OF_RANGE = 3, /* the depth that the taken jump arrives with would not be */
    TF_REASON_NO_PLACE = 4,           /* the jump's target is no instruction's start and not the code's end */
    TF_REASON_TOO_FEW = 5             /* with 26: the instruction needs more values than its depth */
};

/* Checks as tf_check does, with the same answer, the same elements of depths and work and the same greatest depth. On
 * 23 a reason why no depths can be given, and on 26 what is too little, is written to the first TF_REASON_CELLS elements
 * of told, which has told_room elements; which of several reasons for 23 is not promised. Otherwise told stays as it was,
 * and no later element of it is ever written.
 * Refuses: 18 first of all where told has fewer than TF_REASON_CELLS elements, and then nothing is written; else as
 * tf_check.
 *
 *     uint64_t told[TF_REASON_CELLS];
 *     tf_answer a = tf_explain(TF_NET, code, length, starts, 2, depths, length + 1, work, length + 1, &greatest, told,
 *                              TF_REASON_CELLS);
 *     if (tf_refusal(a) == TF_NO_DEPTHS || tf_refusal(a) == TF_TOO_FEW_VALUES)
 *         printf("see offset %u\n", (unsigned)told[TF_REASON_OFFSET]);
 */
tf_answer tf_explain(uint8_t mode, const uint8_t *code, size_t length, const uint32_t *starts, size_t start_cells,
                     uint32_t *depths, size_t room, uint32_t *work, size_t work_cells, uint32_t *greatest,
                     uint64_t *told, size_t told_room);

/* ---- Listings
 *
 * A listing is made part by part: each call puts as many whole lines as text has room for to its front. The first cursor is 0.
 * Where there was a line the value is 1, and two numbers are written to told, which has told_room elements:
 */
enum {
    TF_LIST_LENGTH = 0, /* how many bytes of text hold the lines */
    TF_LIST_NEXT = 1,   /* the cursor from which the next call goes on */
    TF_LIST_CELLS = 2
};

/* A part of the listing of length bytes of code: a header, then a line for each instruction with its offset, name, operands
 * in byte order and a jump's target, parted by tabs; a fault's line (`!`, offset, refusal) is the last, and of over 65,536
 * bytes the only one. The parts of all calls, one behind the other, are the listing, whatever room each had:
 *
 *     uint64_t told[TF_LIST_CELLS] = {0, 0};
 *     while (tf_list(code, length, told[TF_LIST_NEXT], text, sizeof text, told, TF_LIST_CELLS) == 1)
 *         fwrite(text, 1, told[TF_LIST_LENGTH], stdout);
 *
 * Value 0 where no line is left; nothing is written then.
 * Refuses: 18 where told has fewer than TF_LIST_CELLS elements, and where text has no room for the next line (2,048 bytes are
 * room for any). A refusal writes nothing. */
tf_answer tf_list(const uint8_t *code, size_t length, size_t from, uint8_t *text, size_t room, uint64_t *told,
                  size_t told_room);

/* The same of checked code, with the depth that tf_check left for it in front of each line, `-` where there is none, and a
 * last line for the code's end. depths has cells elements.
 * Refuses: 18 as tf_list for told; 10 over 1,048,576 bytes; 21 where depths has fewer than length + 1 elements; then 18 for
 * text. A refusal writes nothing. */
tf_answer tf_check_listing(const uint8_t *code, size_t length, const uint32_t *depths, size_t cells, size_t from,
                           uint8_t *text, size_t room, uint64_t *told, size_t told_room);

/* Reads a listing back: text, of text_len bytes, as tf_list makes it of code without a fault, and nothing looser. Its
 * instructions, dead ones too, are written to the front of code, which has code_len bytes. Value: how many bytes they are. What
 * is read gives that listing again, byte by byte. Depths are not looked at: tf_check is for that.
 *
 *     tf_answer a = tf_read_listing(text, text_len, code, sizeof code);
 *     if (tf_refusal(a) != 0) printf("line %u: refused %u\n", tf_named(a), tf_refusal(a));
 *
 * Refuses at the first bad line and names it, the header being line 1: 24 where it is not formed as a line of a listing (tabs, LF,
 * a name, numbers without a zero or a + in front, each in its range, as many as the opcode has; no text is 24 at line 1); then 25 where
 * its offset is not the one that results, or a target not that offset + 3 + displacement; then 18 where the instruction ends
 * past code or past 65,536 bytes. A refusal writes nothing; no byte behind those of the instructions is ever written. */
tf_answer tf_read_listing(const uint8_t *text, size_t text_len, uint8_t *code, size_t code_len);

/* ---- Lookups in the tables of compiled code
 *
 * Rows have six numbers each. length counts numbers, not rows; a part of a row behind the last whole one is not
 * looked at. Where a row is found the value is 1 and seven numbers are written to the front of out: the row's
 * number, from 0, and its six numbers as they stand.
 */
enum {
    TF_ROW_NUMBER = 0, /* which row */
    /* a row of the location table */
    TF_LOCATION_OFFSET = 1, TF_LOCATION_START = 2, TF_LOCATION_END = 3, TF_LOCATION_HAS_FOCUS = 4 /* 0 or 1 */,
    TF_LOCATION_FOCUS_START = 5, TF_LOCATION_FOCUS_END = 6,
    /* a row of the exception table */
    TF_HANDLER_START = 1, TF_HANDLER_END = 2, TF_HANDLER_OFFSET = 3, TF_HANDLER_DEPTH = 4,
    TF_HANDLER_COUNT = 5 /* exceptions at the region's entry */, TF_HANDLER_KIND = 6 /* 0 consuming, 1 cleanup */,
    TF_ROW_CELLS = 7
};

/* The row of the location table that holds for an offset of the code: the one before the first row whose offset
 * is greater, or the last row where none is. Value 0 where there is no such row, and for an offset above
 * 4,294,967,295.
 * Refuses: 18 where a row is found and out has fewer than TF_ROW_CELLS elements. */
tf_answer tf_location_for_offset(const uint32_t *rows, size_t length, size_t offset, uint64_t *out, size_t room);

/* The first row of the exception table, in their order, with start <= offset < end. Value 0 where there is none.
 * Refuses: 18 where a row is found and out has fewer than TF_ROW_CELLS elements. */
tf_answer tf_find_exception_handler(const uint32_t *rows, size_t length, uint32_t offset, uint64_t *out, size_t room);

/* The same over two records, of which rows holds the twelve numbers: which of them, 0 or 1, and its six numbers.
 * Refuses: 19 where there are fewer than 12 numbers, or one of the two has a depth or a count over 65,535 or a kind over 1;
 * then 18 as above. */
tf_answer tf_find_in_two(const uint32_t *rows, size_t length, uint32_t offset, uint64_t *out, size_t room);

/* Writes the constant of that index to out[0]. Value 1, or 0 at and past the end of the constants.
 * Refuses: 18 where there is one and room is 0. */
tf_answer tf_constant(const uint64_t *constants, size_t length, size_t index, uint64_t *out, size_t room);

/* Writes the number of a local slot's name to out[0]. A cell of names holds a name's number and 1, or 0 for none.
 * Value 1, or 0 past the end of names and where the cell is 0 or above 4,294,967,296.
 * Refuses: 18 where there is one and room is 0. */
tf_answer tf_local_name(const uint64_t *names, size_t length, size_t slot, uint64_t *out, size_t room);

/* ---- The builder
 *
 * CodeBuilder by the Rust's own names and with its arguments in their order: a tf_builder in front, and behind them
 * where an accepted call writes what it answers. The caller lends all memory: the state and seven tables, each with its
 * length in elements. They must not overlap, and a pointer may be null where its length is 0. What is lent is not
 * trusted: what is no state, or counts more rows than its table has, is refused by 19.
 *
 *     uint8_t code[64];
 *     uint32_t starts[TF_START_CELLS];
 *     tf_builder b = {.code = code, .code_length = sizeof code, .starts = starts, .starts_length = TF_START_CELLS};
 *     tf_new(&b, 0);
 *     tf_emit(&b, TF_OP_LOAD_NONE);
 *     tf_emit(&b, TF_OP_RETURN_VALUE);                                 code's first b.state.code bytes are the body
 *
 * A refused call changes no element of the state or of a table. So where a table is full, make it larger and call
 * again. Of code at most 1,048,576 bytes are used, however many are lent.
 *
 *     tf_answer a;
 *     while (tf_refusal(a = tf_emit(&b, TF_OP_POP)) == TF_FULL)
 *         if (!larger(&b, tf_named(a)))                                yours: enlarges the table of that number and
 *             break;                                                   keeps what it holds; 0 where it can't
 *     if (a != 0) ...                                                  refused
 *
 * Refusals stand in the order in which they are looked for. Behind "live" are those of live code: dead code is accepted
 * and nothing is written. 18 names the first table without room, of code, locations, marks.
 */

/* The elements that a row of a table takes; a part of a row at a table's end is no room. */
enum { TF_LOCATION_CELLS = 6, TF_EXCEPTION_CELLS = 6, TF_MARK_CELLS = 4, TF_START_CELLS = 2 };

/* What a builder holds beside its tables. Read it at will; only the calls should write it. */
typedef struct tf_state {
    uint64_t value; /* what the last accepted call answered; 0 where it answers nothing */
    uint64_t code, locations, marks; /* how much of each table is used: bytes of code, rows of the others */
    uint64_t depth; /* 0 to 65,535, or TF_NO_DEPTH in dead code */
    uint64_t exceptions, constants, names, starts; /* used rows */
    uint64_t has_location, start, end; /* 1 where a location is set, else 0, and what was set */
    uint64_t has_focus, focus_start, focus_end; /* likewise its focus */
    uint64_t clause, table; /* room for what is to come; neither read nor written */
} tf_state;

enum { TF_STATE_CELLS = 17 };
typedef char tf_state_has_no_padding[sizeof(tf_state) == TF_STATE_CELLS * sizeof(uint64_t) ? 1 : -1];

/* A builder. The functions that read a table are lent its used part: b.starts, b.state.starts * TF_START_CELLS. */
typedef struct tf_builder {
    tf_state state;
    uint8_t *code;        size_t code_length;       /* the instructions */
    uint32_t *locations;  size_t locations_length;  /* what tf_location_for_offset looks in */
    uint32_t *exceptions; size_t exceptions_length; /* what tf_find_exception_handler looks in */
    uint64_t *constants;  size_t constants_length;  /* what tf_constant looks in */
    uint64_t *names;      size_t names_length;      /* what tf_local_name looks in */
    uint32_t *marks;      size_t marks_length;      /* the labels and targets; of no use behind tf_build */
    uint32_t *starts;     size_t starts_length;     /* what tf_check takes as starts */
} tf_builder;

/* A jump that has to be patched, and a place to jump back to: the row of its mark, or TF_DEAD of dead code. */
#define TF_DEAD UINT64_MAX
typedef struct tf_label { uint64_t row; } tf_label;
typedef struct tf_target { uint64_t row; } tf_target;

/* Where something stands in the source. */
typedef struct tf_range { uint32_t start, end; } tf_range;

/* What a handler does with the exception. */
enum { TF_CONSUMING = 0, TF_CLEANUP = 1 };

/* The library's own functions, for callers in other languages; in C use those below. state is TF_STATE_CELLS numbers
 * in tf_state's order, and what a call answers stands in state[0] behind it. Behind 19 they refuse by 2 an argument
 * that is too large: a call over 16, a byte over 255, a word over 65,535, a depth over TF_NO_DEPTH, a flag or kind
 * over 1. */
tf_answer tfb_new(uint32_t depth, uint64_t *state, size_t cells, uint32_t *starts, size_t starts_length);
tf_answer tfb_set_location(uint32_t start, uint32_t end, uint8_t has_focus, uint32_t focus_start, uint32_t focus_end,
                           uint64_t *state, size_t cells);
tf_answer tfb_emit(uint8_t call, uint8_t opcode, uint16_t a, uint32_t b, uint8_t c, const uint16_t *names, size_t count,
                   uint64_t *state, size_t cells, uint8_t *code, size_t code_length, uint32_t *locations,
                   size_t locations_length);
tf_answer tfb_emit_jump(uint8_t opcode, uint64_t *state, size_t cells, uint8_t *code, size_t code_length,
                        uint32_t *locations, size_t locations_length, uint32_t *marks, size_t marks_length);
tf_answer tfb_patch_jump(uint64_t label, uint64_t *state, size_t cells, uint8_t *code, size_t code_length,
                         uint32_t *marks, size_t marks_length);
tf_answer tfb_emit_jump_to(uint8_t opcode, uint64_t target, uint64_t *state, size_t cells, uint8_t *code,
                           size_t code_length, uint32_t *locations, size_t locations_length, const uint32_t *marks,
                           size_t marks_length);
tf_answer tfb_current_jump_target(uint64_t *state, size_t cells, uint32_t *marks, size_t marks_length);
tf_answer tfb_register_local_names(const uint32_t *names, size_t count, uint64_t *state, size_t cells, uint64_t *table,
                                   size_t table_length);
tf_answer tfb_register_local_name(uint16_t slot, uint32_t name, uint64_t *state, size_t cells, uint64_t *table,
                                  size_t table_length);
tf_answer tfb_add_const(uint64_t value, uint64_t *state, size_t cells, uint64_t *constants, size_t constants_length);
tf_answer tfb_add_exception_entry(size_t start, size_t end, size_t handler, uint16_t stack_depth,
                                  uint16_t exception_stack_count, uint8_t kind, uint64_t *state, size_t cells,
                                  uint32_t *exceptions, size_t exceptions_length);
tf_answer tfb_new_code_region(uint16_t depth, uint64_t *state, size_t cells, uint32_t *starts, size_t starts_length);
tf_answer tfb_build(uint32_t fill, uint64_t *state, size_t cells, uint64_t *names, size_t names_length,
                    const uint32_t *marks, size_t marks_length);

/* What tfb_look writes, by its place in out. */
enum {
    TF_LOOK_OFFSET = 0, /* where the next instruction will stand */
    TF_LOOK_DEPTH = 1,  /* TF_NO_DEPTH in dead code */
    TF_LOOK_DEAD = 2,   /* 1 in dead code, else 0 */
    TF_LOOK_START = 3, TF_LOOK_END = 4, /* of the location that was set; 0 where none was */
    TF_LOOK_CELLS = 5
};

/* Writes what a builder tells of itself to the front of out, which has room elements.
 * Refuses: 19, 18. */
tf_answer tfb_look(const uint64_t *state, size_t cells, uint64_t *out, size_t room);

/* The calls of tfb_emit, and what each takes of a, b, c and the names. It doesn't look at the others, but in live code
 * names that are lent to a call without names are refused by 2. */
enum {
    TF_CALL_EMIT = 0,                   /* opcode */
    TF_CALL_U8 = 1,                     /* opcode, a */
    TF_CALL_I8 = 2,                     /* opcode, a: the byte of a signed number */
    TF_CALL_U8_U8 = 3,                  /* opcode, a, b */
    TF_CALL_U16 = 4,                    /* opcode, a */
    TF_CALL_U16_U16 = 5,                /* opcode, a, b */
    TF_CALL_U16_U8 = 6,                 /* opcode, a, b */
    TF_CALL_U16_U8_U8 = 7,              /* opcode, a, b, c */
    TF_CALL_CALL_BUILTIN_FUNCTION = 8,  /* a: the function, b: the count of arguments */
    TF_CALL_CALL_BUILTIN_TYPE = 9,      /* a: the type, b: the count of arguments */
    TF_CALL_CALL_FUNCTION_KW = 10,      /* a: the positional count; the names */
    TF_CALL_CALL_ATTR_KW = 11,          /* a: the attribute, b: the positional count; the names */
    TF_CALL_RAISE_UNBOUND_LOCAL = 12,   /* b: the name */
    TF_CALL_LOAD_GLOBAL_CALLABLE = 13,  /* a: the slot, b: the name */
    TF_CALL_NAME_OP = 14,               /* opcode, a: the slot, b: the name, c: the flags */
    TF_CALL_LOAD_LOCAL = 15,            /* a: the slot */
    TF_CALL_STORE_LOCAL = 16            /* a: the slot */
};

static inline uint64_t *tf_cells(tf_builder *b) { return (uint64_t *)(void *)&b->state; }

/* Makes a builder with nothing in it: live at a depth of 0 to 65,535, whose start it stores, or dead with TF_NO_DEPTH.
 * What the state held does not matter.
 * Refuses: 2 for a depth above that, 18. */
static inline tf_answer tf_new(tf_builder *b, uint32_t depth)
{
    return tfb_new(depth, tf_cells(b), TF_STATE_CELLS, b->starts, b->starts_length);
}

/* Sets the source location of the instructions to come; focus is null where there is none.
 * Refuses: 19. */
static inline tf_answer tf_set_location(tf_builder *b, tf_range range, const tf_range *focus)
{
    return tfb_set_location(range.start, range.end, focus != NULL, focus != NULL ? focus->start : 0,
                            focus != NULL ? focus->end : 0, tf_cells(b), TF_STATE_CELLS);
}

/* What the emitting calls below share. */
static inline tf_answer tf_emit_by(tf_builder *b, uint8_t call, uint8_t op, uint16_t x, uint32_t y, uint8_t z,
                                   const uint16_t *names, size_t count)
{
    return tfb_emit(call, op, x, y, z, names, count, tf_cells(b), TF_STATE_CELLS, b->code, b->code_length, b->locations,
                    b->locations_length);
}

/* Emits an instruction without an operand, and follows the depth.
 * Refuses: 19, 1; live 2, 4, 5, 18. */
static inline tf_answer tf_emit(tf_builder *b, uint8_t op) { return tf_emit_by(b, TF_CALL_EMIT, op, 0, 0, 0, NULL, 0); }

/* Emits an instruction with a byte.
 * Refuses: 19, 1; live 2, 4, 5, 18. */
static inline tf_answer tf_emit_u8(tf_builder *b, uint8_t op, uint8_t operand)
{
    return tf_emit_by(b, TF_CALL_U8, op, operand, 0, 0, NULL, 0);
}

/* Emits an instruction with a signed byte.
 * Refuses: 19, 1; live 2, 5, 18. */
static inline tf_answer tf_emit_i8(tf_builder *b, uint8_t op, int8_t operand)
{
    return tf_emit_by(b, TF_CALL_I8, op, (uint8_t)operand, 0, 0, NULL, 0);
}

/* Emits an instruction with two bytes: UnpackEx, with the counts before and after.
 * Refuses: 19, 1; live 2, 4, 5, 18. */
static inline tf_answer tf_emit_u8_u8(tf_builder *b, uint8_t op, uint8_t operand1, uint8_t operand2)
{
    return tf_emit_by(b, TF_CALL_U8_U8, op, operand1, operand2, 0, NULL, 0);
}

/* Emits an instruction with a word.
 * Refuses: 19, 1; live 2, 4, 5, 18. */
static inline tf_answer tf_emit_u16(tf_builder *b, uint8_t op, uint16_t operand)
{
    return tf_emit_by(b, TF_CALL_U16, op, operand, 0, 0, NULL, 0);
}

/* Emits an instruction with two words: LoadSubmodule, with the attribute and the dotted path.
 * Refuses: 19, 1; live 2, 5, 18. */
static inline tf_answer tf_emit_u16_u16(tf_builder *b, uint8_t op, uint16_t operand1, uint16_t operand2)
{
    return tf_emit_by(b, TF_CALL_U16_U16, op, operand1, operand2, 0, NULL, 0);
}

/* Emits an instruction with a word and a byte: MakeFunction, CallAttr, CallAttrExtended.
 * Refuses: 19, 1; live 2, 4, 5, 18. */
static inline tf_answer tf_emit_u16_u8(tf_builder *b, uint8_t op, uint16_t operand1, uint8_t operand2)
{
    return tf_emit_by(b, TF_CALL_U16_U8, op, operand1, operand2, 0, NULL, 0);
}

/* Emits an instruction with a word and two bytes: MakeClosure, with the function and the counts of defaults and cells.
 * Refuses: 19, 1; live 2, 4, 5, 18. */
static inline tf_answer tf_emit_u16_u8_u8(tf_builder *b, uint8_t op, uint16_t operand1, uint8_t operand2,
                                          uint8_t operand3)
{
    return tf_emit_by(b, TF_CALL_U16_U8_U8, op, operand1, operand2, operand3, NULL, 0);
}

/* Emits CallBuiltinFunction, with the function's number and the count of arguments.
 * Refuses: 19; live 4, 5, 18. */
static inline tf_answer tf_emit_call_builtin_function(tf_builder *b, uint8_t builtin_id, uint8_t arg_count)
{
    return tf_emit_by(b, TF_CALL_CALL_BUILTIN_FUNCTION, 0, builtin_id, arg_count, 0, NULL, 0);
}

/* Emits CallBuiltinType, with the type's number and the count of arguments.
 * Refuses: 19; live 4, 5, 18. */
static inline tf_answer tf_emit_call_builtin_type(tf_builder *b, uint8_t type_id, uint8_t arg_count)
{
    return tf_emit_by(b, TF_CALL_CALL_BUILTIN_TYPE, 0, type_id, arg_count, 0, NULL, 0);
}

/* Emits CallFunctionKw with its count keyword names, in the order in which their values were pushed.
 * Refuses: 19; live 7, 4, 18. */
static inline tf_answer tf_emit_call_function_kw(tf_builder *b, uint8_t pos_count, const uint16_t *kwname_ids,
                                                 size_t count)
{
    return tf_emit_by(b, TF_CALL_CALL_FUNCTION_KW, 0, pos_count, 0, 0, kwname_ids, count);
}

/* Emits CallAttrKw with its count keyword names, in the order in which their values were pushed.
 * Refuses: 19; live 7, 4, 18. */
static inline tf_answer tf_emit_call_attr_kw(tf_builder *b, uint16_t attr_name_id, uint8_t pos_count,
                                             const uint16_t *kwname_ids, size_t count)
{
    return tf_emit_by(b, TF_CALL_CALL_ATTR_KW, 0, attr_name_id, pos_count, 0, kwname_ids, count);
}

/* Emits a forward jump, whose target is not known yet, and writes the label to patch later. Behind Jump the code is
 * dead. In dead code the label is TF_DEAD.
 * Refuses: 19, 1; live 3, 4 of the depth where it is taken, 4, 5, 18. */
static inline tf_answer tf_emit_jump(tf_builder *b, uint8_t op, tf_label *label)
{
    tf_answer a = tfb_emit_jump(op, tf_cells(b), TF_STATE_CELLS, b->code, b->code_length, b->locations,
                                b->locations_length, b->marks, b->marks_length);
    if (a == 0)
        label->row = b->state.value;
    return a;
}

/* Has a forward jump go to where the code now ends. Dead code is live again, at the label's depth.
 * Refuses: 19; of a label that is not TF_DEAD 13, 14, 11, 6. */
static inline tf_answer tf_patch_jump(tf_builder *b, tf_label label)
{
    return tfb_patch_jump(label.row, tf_cells(b), TF_STATE_CELLS, b->code, b->code_length, b->marks, b->marks_length);
}

/* Emits a jump back to a known target.
 * Refuses: 19, 1; live 3, 4 of the depth where it is taken, 12 or 13, 11, 6, 4, 5, 18. */
static inline tf_answer tf_emit_jump_to(tf_builder *b, uint8_t op, tf_target target)
{
    return tfb_emit_jump_to(op, target.row, tf_cells(b), TF_STATE_CELLS, b->code, b->code_length, b->locations,
                            b->locations_length, b->marks, b->marks_length);
}

/* Writes the place and the depth here as a target to jump back to. In dead code the target is TF_DEAD.
 * Refuses: 19; live 18. */
static inline tf_answer tf_current_jump_target(tf_builder *b, tf_target *target)
{
    tf_answer a = tfb_current_jump_target(tf_cells(b), TF_STATE_CELLS, b->marks, b->marks_length);
    if (a == 0)
        target->row = b->state.value;
    return a;
}

/* One of tfb_look's numbers; where the state is none, that of a dead builder without code. */
static inline uint64_t tf_looked(const tf_builder *b, int place)
{
    uint64_t out[TF_LOOK_CELLS] = {0, TF_NO_DEPTH, 1, 0, 0};
    tfb_look((const uint64_t *)(const void *)&b->state, TF_STATE_CELLS, out, TF_LOOK_CELLS);
    return out[place];
}

/* Where the next instruction will stand. */
static inline size_t tf_current_offset(const tf_builder *b) { return (size_t)tf_looked(b, TF_LOOK_OFFSET); }

/* The source range that was set, for diagnostics; 0, 0 where none was. */
static inline tf_range tf_current_position(const tf_builder *b)
{
    tf_range range;
    range.start = (uint32_t)tf_looked(b, TF_LOOK_START);
    range.end = (uint32_t)tf_looked(b, TF_LOOK_END);
    return range;
}

/* The depth here, or TF_NO_DEPTH in dead code. */
static inline uint32_t tf_stack_depth(const tf_builder *b) { return (uint32_t)tf_looked(b, TF_LOOK_DEPTH); }

/* 1 in dead code, else 0. */
static inline int tf_is_dead(const tf_builder *b) { return (int)tf_looked(b, TF_LOOK_DEAD); }

/* Names the slots 0, 1, .. by count names in one pass, before any other name.
 * Refuses: 19, 16, 18. */
static inline tf_answer tf_register_local_names(tf_builder *b, const uint32_t *names, size_t count)
{
    return tfb_register_local_names(names, count, tf_cells(b), TF_STATE_CELLS, b->names, b->names_length);
}

/* Names a slot, where it has no name yet: the first name stays.
 * Refuses: 19, 18. */
static inline tf_answer tf_register_local_name(tf_builder *b, uint16_t slot, uint32_t name)
{
    return tfb_register_local_name(slot, name, tf_cells(b), TF_STATE_CELLS, b->names, b->names_length);
}

/* Emits RaiseUnboundLocal with the name that the error reports.
 * Refuses: 19, 8; live 18. */
static inline tf_answer tf_emit_raise_unbound_local(tf_builder *b, uint32_t name_id)
{
    return tf_emit_by(b, TF_CALL_RAISE_UNBOUND_LOCAL, 0, 0, name_id, 0, NULL, 0);
}

/* Emits the shortest load of a slot: 0 to 3 have opcodes of their own, then a byte, then a word.
 * Refuses: 19; live 5, 18. */
static inline tf_answer tf_emit_load_local(tf_builder *b, uint16_t slot)
{
    return tf_emit_by(b, TF_CALL_LOAD_LOCAL, 0, slot, 0, 0, NULL, 0);
}

/* Emits LoadGlobalCallable with its slot and its name: global slots are no local slots, so the name goes along.
 * Refuses: 19, 8; live 5, 18. */
static inline tf_answer tf_emit_load_global_callable(tf_builder *b, uint16_t slot, uint32_t name_id)
{
    return tf_emit_by(b, TF_CALL_LOAD_GLOBAL_CALLABLE, 0, slot, name_id, 0, NULL, 0);
}

/* Emits LoadName, StoreName or DeleteName with its slot, its name and its flags.
 * Refuses: 19, 1, 8; live 2, 4, 5, 18. */
static inline tf_answer tf_emit_name_op(tf_builder *b, uint8_t op, uint16_t slot, uint32_t name_id, uint8_t flags)
{
    return tf_emit_by(b, TF_CALL_NAME_OP, op, slot, name_id, flags, NULL, 0);
}

/* Emits the shorter store of a slot. Slots 0 to 3 have no opcodes of their own here.
 * Refuses: 19; live 4, 18. */
static inline tf_answer tf_emit_store_local(tf_builder *b, uint16_t slot)
{
    return tf_emit_by(b, TF_CALL_STORE_LOCAL, 0, slot, 0, 0, NULL, 0);
}

/* Adds a constant, and writes its index.
 * Refuses: 19, 9, 18. */
static inline tf_answer tf_add_const(tf_builder *b, uint64_t value, uint16_t *index)
{
    tf_answer a = tfb_add_const(value, tf_cells(b), TF_STATE_CELLS, b->constants, b->constants_length);
    if (a == 0)
        *index = (uint16_t)b->state.value;
    return a;
}

/* Adds an exception handler of kind TF_CONSUMING or TF_CLEANUP. For nested blocks the innermost comes first.
 * Refuses: 19, 2 for another kind, 10, 18. */
static inline tf_answer tf_add_exception_entry(tf_builder *b, size_t start, size_t end, size_t handler,
                                               uint16_t stack_depth, uint16_t exception_stack_count, uint8_t kind)
{
    return tfb_add_exception_entry(start, end, handler, stack_depth, exception_stack_count, kind, tf_cells(b),
                                   TF_STATE_CELLS, b->exceptions, b->exceptions_length);
}

/* Finishes the body: slots without a name get fill. The body is the used part of each table.
 * Refuses: 19, 17. */
static inline tf_answer tf_build(tf_builder *b, uint32_t fill)
{
    return tfb_build(fill, tf_cells(b), TF_STATE_CELLS, b->names, b->names_length, b->marks, b->marks_length);
}

/* Opens a region of live code at a depth that comes from outside: a body's first, or an exception handler's.
 * Refuses: 19, 15, 18. */
static inline tf_answer tf_new_code_region(tf_builder *b, uint16_t depth)
{
    return tfb_new_code_region(depth, tf_cells(b), TF_STATE_CELLS, b->starts, b->starts_length);
}

#ifdef __cplusplus
}
#endif

#endif
