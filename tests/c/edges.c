/* Calls the functions that read code, write an instruction and look in tables with arrays of every small length, each
 * up to a fence and null where it is 0: no byte past an array is read, what is refused changes nothing, and an accepted
 * call writes no more than it says.
 * Prints a line for each check that fails, then the counts; exit status 1 where one failed. */
#define _DEFAULT_SOURCE
#include "fences.h"

/* The arrays that the calls are lent, by the fences that hold them. */
enum { CODE = TF_TABLE_CODE, ROWS = TF_TABLE_LOCATIONS, DEPTHS = TF_TABLE_MARKS, PAIRS = TF_TABLE_STARTS,
       WORK = TF_TABLE_EXCEPTIONS, NUMBERS = TF_TABLE_NAMES, OUT = TF_TABLE_TEXT, MOST = 40 };

#define LENT(type, array) (type *)lent_at(array), lent[array].length

static uint8_t random_byte(void)
{
    static uint64_t seed = 0x9E3779B97F4A7C15u;
    seed ^= seed << 13, seed ^= seed >> 7, seed ^= seed << 17;
    return (uint8_t)(seed >> 32);
}

/* Code of so many bytes, most of them opcodes. */
static void lend_code(size_t length)
{
    lend(CODE, length);
    for (size_t i = 0; i < length; i++)
        ((uint8_t *)lent_at(CODE))[i] = random_byte() % 8 == 0 ? random_byte() : random_byte() % NO_OPCODE;
}

/* Whether an answer is one of these refusals and has left all as it was. */
static int refused_by(tf_answer answer, uint32_t first, uint32_t second)
{
    return (tf_refusal(answer) == first || tf_refusal(answer) == second) && all_kept();
}

static void steps(size_t length)
{
    lend_code(length);
    for (size_t at = 0; at <= length + 1; at++) {
        for (size_t room = 0; room <= TF_STEP_CELLS + 1; room++) {
            lend(OUT, room);
            remember();
            tf_answer answer = tf_step(LENT(const uint8_t, CODE), at, LENT(uint64_t, OUT));
            const uint64_t *cell = lent_at(OUT);
            if (answer == 1)
                report("a step", at + cell[TF_STEP_SIZE] <= length && blank_from(OUT, TF_STEP_CELLS) && kept(CODE));
            else if (answer == 0)
                report("the end", at >= length && all_kept());
            else if (tf_refusal(answer) == TF_FULL)
                report("no room", room < TF_STEP_CELLS && tf_named(answer) == TF_TABLE_TEXT && all_kept());
            else
                report("a fault", tf_named(answer) == at && refused_by(answer, TF_UNKNOWN_OPCODE, TF_CUT_SHORT));
        }
    }
}

static void counts(size_t length)
{
    lend_code(length);
    remember();
    tf_answer answer = tf_count_instructions(LENT(const uint8_t, CODE));
    if (tf_refusal(answer) == 0)
        report("counted", answer <= length && kept(CODE));
    else
        report("not counted", tf_named(answer) < length && refused_by(answer, TF_UNKNOWN_OPCODE, TF_CUT_SHORT));
}

/* Each byte of the code counts, and none behind it. */
static void hashes(size_t length)
{
    lend_code(length);
    remember();
    uint64_t hash = UINT64_C(0xCBF29CE484222325);
    for (size_t i = 0; i < length; i++)
        hash = (hash ^ ((const uint8_t *)lent_at(CODE))[i]) * UINT64_C(0x100000001B3);
    report("the hash", tf_fnv1a(LENT(const uint8_t, CODE)) == hash && all_kept());
}

/* Whether the work slice ends with so many zeros, and is otherwise as it was. */
static int zeroed(size_t count)
{
    for (size_t i = 0; i < count; i++)
        if (((const uint32_t *)lent_at(WORK))[i] != 0)
            return 0;
    return blank_from(WORK, count);
}

/* The greatest depth among the first elements of the depths; 0 where there is none. */
static uint32_t greatest_of(size_t count)
{
    uint32_t most = 0;
    for (size_t i = 0; i < count; i++) {
        uint32_t depth = ((const uint32_t *)lent_at(DEPTHS))[i];
        if (depth != TF_NO_DEPTH && depth > most)
            most = depth;
    }
    return most;
}

/* Whether a refusal comes with a reason, and with no depth left in the cells. */
static int has_reason(tf_answer answer)
{
    return tf_refusal(answer) == TF_NO_DEPTHS || tf_refusal(answer) == TF_TOO_FEW_VALUES;
}

static tf_answer checks_of(uint8_t mode, size_t length, size_t pairs, size_t room, size_t work)
{
    lend_code(length);
    lend(PAIRS, pairs);
    for (size_t i = 0; i < pairs; i++)
        ((uint32_t *)lent_at(PAIRS))[i] = random_byte() % 2;
    lend(DEPTHS, room);
    lend(WORK, work);
    lend(GREATEST, 1);
    remember();
    uint32_t *greatest = lent_at(GREATEST);
    tf_answer answer = tf_check(mode, LENT(const uint8_t, CODE), LENT(const uint32_t, PAIRS), LENT(uint32_t, DEPTHS),
                                LENT(uint32_t, WORK), greatest);
    if (tf_refusal(answer) == 0 || has_reason(answer))
        report("depths", room > length && blank_from(DEPTHS, length + 1));
    else
        report("no depths are written", kept(DEPTHS));
    report("the greatest", tf_refusal(answer) == 0 ? *greatest == greatest_of(length + 1) && blank_from(GREATEST, 1)
                                                   : kept(GREATEST));
    report("the work", tf_refusal(answer) == TF_SHORT_DEPTHS ? kept(WORK) : work > length && zeroed(length + 1));
    report("what is read stays", kept(CODE) && kept(PAIRS));
    report("too few elements", (tf_refusal(answer) == TF_SHORT_DEPTHS) == (room <= length || work <= length));
    return answer;
}

/* Whether what was told can be a reason for the refusal. */
static int a_reason(uint32_t refusal)
{
    const uint64_t *told = lent_at(OUT);
    int strict = told[TF_REASON_KIND] == TF_REASON_TOO_FEW;
    return told[TF_REASON_KIND] >= TF_REASON_TWO_DEPTHS && told[TF_REASON_KIND] <= TF_REASON_TOO_FEW &&
           strict == (refusal == TF_TOO_FEW_VALUES) && (!strict || told[TF_REASON_DEPTH] < told[TF_REASON_NEED]) &&
           told[TF_REASON_OFFSET] <= lent[CODE].length && told[TF_REASON_DEPTH] < TF_NO_DEPTH &&
           told[TF_REASON_OTHER_DEPTH] < TF_NO_DEPTH && blank_from(OUT, TF_REASON_CELLS);
}

/* The same check once more with so much room for a reason: it leaves what the check left, and on 23 and 26 alone a
 * reason. */
static void explanations(uint8_t mode, tf_answer checked, size_t room)
{
    lend(OUT, room);
    remember();
    lend(DEPTHS, lent[DEPTHS].length);
    lend(WORK, lent[WORK].length);
    lend(GREATEST, 1);
    if (room < TF_REASON_CELLS)
        remember(); /* nothing may change */
    tf_answer answer = tf_explain(mode, LENT(const uint8_t, CODE), LENT(const uint32_t, PAIRS), LENT(uint32_t, DEPTHS),
                                  LENT(uint32_t, WORK), (uint32_t *)lent_at(GREATEST), LENT(uint64_t, OUT));
    if (room < TF_REASON_CELLS) {
        report("no room for a reason", tf_named(answer) == TF_TABLE_TEXT && refused_by(answer, TF_FULL, TF_FULL));
        return;
    }
    report("the check's answer", answer == checked);
    report("and its elements", kept(CODE) && kept(PAIRS) && kept(DEPTHS) && kept(WORK) && kept(GREATEST));
    report("a reason on 23 and 26 alone", has_reason(answer) ? a_reason(tf_refusal(answer)) : kept(OUT));
}

/* Both lookups in rows, and both in numbers, with rows of any length and so much room. */
static void lookups(size_t length, size_t room)
{
    lend(ROWS, length);
    for (size_t i = 0; i < length; i++)
        ((uint32_t *)lent_at(ROWS))[i] = random_byte() % 8;
    lend(NUMBERS, length);
    lend(OUT, room);
    remember();
    for (uint32_t offset = 0; offset < 9; offset++) {
        const tf_answer answers[] = {
            tf_location_for_offset(LENT(const uint32_t, ROWS), offset, LENT(uint64_t, OUT)),
            tf_find_exception_handler(LENT(const uint32_t, ROWS), offset, LENT(uint64_t, OUT)),
            tf_constant(LENT(const uint64_t, NUMBERS), offset, LENT(uint64_t, OUT)),
            tf_local_name(LENT(const uint64_t, NUMBERS), offset, LENT(uint64_t, OUT)),
        };
        for (size_t i = 0; i < 4; i++)
            report("found, none, or no room", answers[i] <= 1 || tf_refusal(answers[i]) == TF_FULL);
        report("past the numbers", (answers[2] == 0) == (offset >= length) && answers[3] == 0);
        report("what is read stays", kept(ROWS) && kept(NUMBERS) && blank_from(OUT, TF_ROW_CELLS));
    }
}

static void writes(uint8_t opcode, size_t room)
{
    static const uint16_t names[3] = {1, 2, 3};
    uint8_t shape = (uint8_t)tf_value(tf_operand_shape(opcode));
    size_t count = shape == TF_SHAPE_CALL_KW || shape == TF_SHAPE_CALL_ATTR_KW ? 3 : 0;
    size_t size = (size_t)tf_value(tf_instruction_size(opcode, (uint8_t)count));
    lend(CODE, room);
    remember();
    tf_answer answer = tf_write(LENT(uint8_t, CODE), opcode, shape, 9, 9, 9, count == 0 ? NULL : names, count);
    if (room < size)
        report("no room to write", tf_named(answer) == TF_TABLE_CODE && refused_by(answer, TF_FULL, TF_FULL));
    else
        report("written", answer == size && blank_from(CODE, size));
    lend(CODE, room);
    remember();
    answer = tf_opcode_name(opcode, LENT(uint8_t, CODE));
    if (tf_refusal(answer) == 0)
        report("named", answer <= room && blank_from(CODE, (size_t)answer));
    else
        report("no room for the name", tf_named(answer) == TF_TABLE_TEXT && refused_by(answer, TF_FULL, TF_FULL));
}

/* A listing of the three kinds of line, of 3 + 2 + 1 bytes, cut to so many bytes of text and read into so much room. */
static void readings(size_t length, size_t room)
{
    static const char listing[] = "offset\tname\toperands\ttarget\n0\tJump\t-3\t0\n3\tLoadSmallInt\t-2\t-\n5\tPop\t-\t-\n";
    static const uint8_t bytes[] = {TF_OP_JUMP, 0xFD, 0xFF, TF_OP_LOAD_SMALL_INT, 0xFE, TF_OP_POP};
    static const size_t sizes[] = {0, 3, 5, 6};
    uint32_t lines = 0;
    if (length > sizeof listing - 1)
        length = sizeof listing - 1;
    for (size_t i = 0; i < length; i++)
        lines += listing[i] == '\n';
    lend(LINES, length);
    if (length > 0)
        memcpy(lent_at(LINES), listing, length);
    lend(CODE, room);
    remember();
    tf_answer answer = tf_read_listing(LENT(const uint8_t, LINES), LENT(uint8_t, CODE));
    uint32_t full = 1;
    while (full < lines && sizes[full] <= room)
        full++;
    if (full < lines)
        report("no room for a line", tf_named(answer) == full + 1 && refused_by(answer, TF_FULL, TF_FULL));
    else if (length == 0 || listing[length - 1] != '\n')
        report("a line cut short", tf_named(answer) == lines + 1 && refused_by(answer, TF_NOT_A_LINE, TF_NOT_A_LINE));
    else
        report("read back", answer == sizes[lines - 1] && kept(LINES) && blank_from(CODE, (size_t)answer) &&
                                (answer == 0 || memcmp(lent_at(CODE), bytes, (size_t)answer) == 0));
}

int main(void)
{
    raise_fences();
    for (size_t length = 0; length < 80; length++)
        for (size_t room = 0; room < 9; room++)
            readings(length, room);
    for (size_t length = 0; length < MOST; length++) {
        steps(length);
        for (size_t round = 0; round < MOST; round++) {
            counts(length);
            hashes(length);
            uint8_t mode = random_byte() % 2;
            tf_answer checked = checks_of(mode, length, round % 6, length + round % 4, length + round / 4 % 4);
            explanations(mode, checked, round % 7);
            lookups(length, round % 9);
        }
    }
    for (int opcode = 0; opcode <= TF_OP_LAST; opcode++)
        for (size_t room = 0; room < 24; room++)
            writes((uint8_t)opcode, room);
    drop_fences();
    return verdict("edges");
}
