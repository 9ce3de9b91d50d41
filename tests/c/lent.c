/* Lends the builder's functions what no honest caller would: nothing, too little, too much, states and tables that are
 * tampered with. A refused call has to leave every element as it was, and an accepted one all but its own.
 * Prints a line for each check that fails, then the counts; exit status 1 where one failed. */
#define _DEFAULT_SOURCE
#include "fences.h"

/* The cells of a state, by tf_state's order. */
enum { VALUE, CODE, LOCATIONS, MARKS, DEPTH, EXCEPTIONS, CONSTANTS, NAMES, STARTS, HAS_LOCATION, START, END, HAS_FOCUS,
       FOCUS_START, FOCUS_END, CLAUSE, TABLE };

enum { NEW, SET_LOCATION, EMIT, EMIT_JUMP, PATCH_JUMP, EMIT_JUMP_TO, TARGET, NAME_ALL, NAME, CONST, EXCEPTION, REGION,
       BUILD, LOOK, EXPORTS };

enum { UNWRITTEN = 77 };

/* An array as two arguments. */
#define LENT(type, table) (type *)lent_at(table), lent[table].length
#define STATE_LENT LENT(uint64_t, STATE)

/* Each function with arguments that the builder below takes. */
static tf_answer call(int export)
{
    static const uint32_t three[] = {5, 6, 7};
    switch (export) {
    case NEW: return tfb_new(3, STATE_LENT, LENT(uint32_t, TF_TABLE_STARTS));
    case SET_LOCATION: return tfb_set_location(1, 2, 1, 3, 4, STATE_LENT);
    case EMIT:
        return tfb_emit(TF_CALL_EMIT, TF_OP_DUP, 0, 0, 0, NULL, 0, STATE_LENT, LENT(uint8_t, TF_TABLE_CODE),
                        LENT(uint32_t, TF_TABLE_LOCATIONS));
    case EMIT_JUMP:
        return tfb_emit_jump(TF_OP_JUMP, STATE_LENT, LENT(uint8_t, TF_TABLE_CODE), LENT(uint32_t, TF_TABLE_LOCATIONS),
                             LENT(uint32_t, TF_TABLE_MARKS));
    case PATCH_JUMP: return tfb_patch_jump(0, STATE_LENT, LENT(uint8_t, TF_TABLE_CODE), LENT(uint32_t, TF_TABLE_MARKS));
    case EMIT_JUMP_TO:
        return tfb_emit_jump_to(TF_OP_JUMP, 1, STATE_LENT, LENT(uint8_t, TF_TABLE_CODE),
                                LENT(uint32_t, TF_TABLE_LOCATIONS), LENT(uint32_t, TF_TABLE_MARKS));
    case TARGET: return tfb_current_jump_target(STATE_LENT, LENT(uint32_t, TF_TABLE_MARKS));
    case NAME_ALL: return tfb_register_local_names(three, 3, STATE_LENT, LENT(uint64_t, TF_TABLE_NAMES));
    case NAME: return tfb_register_local_name(2, 9, STATE_LENT, LENT(uint64_t, TF_TABLE_NAMES));
    case CONST: return tfb_add_const(11, STATE_LENT, LENT(uint64_t, TF_TABLE_CONSTANTS));
    case EXCEPTION: return tfb_add_exception_entry(1, 2, 3, 4, 5, 1, STATE_LENT, LENT(uint32_t, TF_TABLE_EXCEPTIONS));
    case REGION: return tfb_new_code_region(3, STATE_LENT, LENT(uint32_t, TF_TABLE_STARTS));
    case BUILD: return tfb_build(9, STATE_LENT, LENT(uint64_t, TF_TABLE_NAMES), LENT(uint32_t, TF_TABLE_MARKS));
    default: return tfb_look(STATE_LENT, LENT(uint64_t, TF_TABLE_TEXT));
    }
}

/* What each function is lent, with just the room that it takes (0: it is not lent that table); whether it refuses one
 * element less by 18, as room that it lacks, or by 19, as rows that are not there; and what it answers. */
static const struct { const char *what; size_t lengths[ARRAYS]; uint32_t less[ARRAYS], value; } exports[EXPORTS] = {
    [NEW] = {"new", {[TF_TABLE_STARTS] = 2}, {[TF_TABLE_STARTS] = 18}},
    [SET_LOCATION] = {"set_location", {0}, {0}},
    [EMIT] = {"emit", {0, 5, 12}, {0, 18, 18}},
    [EMIT_JUMP] = {"emit_jump", {0, 7, 12, [TF_TABLE_MARKS] = 12}, {0, 18, 18, [TF_TABLE_MARKS] = 18}, 2},
    [PATCH_JUMP] = {"patch_jump", {0, 4, [TF_TABLE_MARKS] = 8}, {0, 19, [TF_TABLE_MARKS] = 19}},
    [EMIT_JUMP_TO] = {"emit_jump_to", {0, 7, 12, [TF_TABLE_MARKS] = 8}, {0, 18, 18, [TF_TABLE_MARKS] = 19}},
    [TARGET] = {"current_jump_target", {[TF_TABLE_MARKS] = 12}, {[TF_TABLE_MARKS] = 18}, 2},
    [NAME_ALL] = {"register_local_names", {[TF_TABLE_NAMES] = 3}, {[TF_TABLE_NAMES] = 18}},
    [NAME] = {"register_local_name", {[TF_TABLE_NAMES] = 3}, {[TF_TABLE_NAMES] = 18}},
    [CONST] = {"add_const", {[TF_TABLE_CONSTANTS] = 2}, {[TF_TABLE_CONSTANTS] = 18}, 1},
    [EXCEPTION] = {"add_exception_entry", {[TF_TABLE_EXCEPTIONS] = 12}, {[TF_TABLE_EXCEPTIONS] = 18}},
    [REGION] = {"new_code_region", {[TF_TABLE_STARTS] = 4}, {[TF_TABLE_STARTS] = 18}},
    [BUILD] = {"build", {[TF_TABLE_NAMES] = 1, [TF_TABLE_MARKS] = 8}, {[TF_TABLE_NAMES] = 19, [TF_TABLE_MARKS] = 19}},
    [LOOK] = {"look", {[TF_TABLE_TEXT] = 5}, {[TF_TABLE_TEXT] = 18}, UNWRITTEN},
};

static uint64_t *state(void) { return lent_at(STATE); }

/* Lends a builder that the function takes, with so many elements more than it needs: four bytes of code, a row in each
 * table but two in marks, a label at offset 0 and a target there. */
static void lend_builder(int export, size_t more)
{
    static const uint64_t cells[TF_STATE_CELLS] = {UNWRITTEN, 4, 1, 2, 2, 1, 1, 1, 1, 1, 5, 6, 1, 7, 8, 111, 222};
    const uint32_t marks[] = {export == BUILD ? 2 : 1, 0, 2, 0, 3, 0, 2, 0};
    lend(STATE, TF_STATE_CELLS);
    for (int i = TF_TABLE_CODE; i < ARRAYS; i++)
        lend(i, exports[export].lengths[i] + more);
    memcpy(state(), cells, sizeof cells);
    if (export == REGION)
        state()[DEPTH] = TF_NO_DEPTH;
    if (export == NAME_ALL)
        state()[NAMES] = 0;
    if (lent[TF_TABLE_MARKS].length >= 8)
        memcpy(lent_at(TF_TABLE_MARKS), marks, sizeof marks);
    if (export == BUILD)
        *(uint64_t *)lent_at(TF_TABLE_NAMES) = 0;
    remember();
}

static void refused(int export, const char *what, tf_answer answer, uint32_t number, uint32_t named)
{
    if (tf_refusal(answer) != number || tf_named(answer) != named)
        printf("c: %s: %u %u, not %u %u\n", exports[export].what, tf_refusal(answer), tf_named(answer), number, named);
    report(what, tf_refusal(answer) == number && tf_named(answer) == named && all_kept());
}

/* The cells that a call may write: 0 to 4 of one that emits or marks, none of a look, else 0 to 14. */
static size_t own_cells(int export)
{
    return export == LOOK ? 0 : export >= EMIT && export <= TARGET ? EXCEPTIONS : CLAUSE;
}

static void accepted(int export, const char *what, tf_answer answer)
{
    size_t own = own_cells(export), rest = (TF_STATE_CELLS - own) * sizeof(uint64_t);
    if (answer != 0)
        printf("c: %s: refused by %u %u\n", exports[export].what, tf_refusal(answer), tf_named(answer));
    report(what, answer == 0);
    report(what, memcmp(state() + own, lent[STATE].was + GUARD + own * sizeof(uint64_t), rest) == 0);
    for (int i = TF_TABLE_CODE; i < ARRAYS; i++)
        report(what, exports[export].lengths[i] != 0 ? blank_from(i, exports[export].lengths[i]) : kept(i));
}

/* With just enough room, with more, and with one element less of each table. */
static void lengths(int export)
{
    uint64_t exact[TF_STATE_CELLS];
    lend_builder(export, 0);
    accepted(export, "just enough", call(export));
    memcpy(exact, state(), sizeof exact);
    report("what it answers", exact[VALUE] == exports[export].value);
    for (size_t more = 1; more < 100; more += 7) {
        lend_builder(export, more);
        accepted(export, "more than enough", call(export));
        report("with the same state", memcmp(state(), exact, sizeof exact) == 0);
    }
    for (int i = TF_TABLE_CODE; i < ARRAYS; i++) {
        if (exports[export].lengths[i] == 0)
            continue;
        lend_builder(export, 0);
        relend(i, exports[export].lengths[i] - 1);
        remember();
        refused(export, "one too few", call(export), exports[export].less[i],
                exports[export].less[i] == TF_FULL ? (uint32_t)i : 0);
    }
}

static void short_states(int export)
{
    for (size_t cells = 0; cells < TF_STATE_CELLS; cells++) {
        lend_builder(export, 0);
        relend(STATE, cells);
        remember();
        refused(export, "a state too short", call(export), TF_UNSOUND, 0);
    }
    lend_builder(export, 0);
    relend(STATE, TF_STATE_CELLS + 5);
    remember();
    accepted(export, "a state too long", call(export));
    report("its cells behind", blank_from(STATE, TF_STATE_CELLS));
}

/* A state with one cell changed. */
static void tampered(int export, const char *what, int cell, uint64_t number, int refuses)
{
    lend_builder(export, 0);
    state()[cell] = number;
    remember();
    if (refuses)
        refused(export, what, call(export), TF_UNSOUND, 0);
    else
        accepted(export, what, call(export));
}

/* Whether a function looks at the count of a cell: it is lent the table, or the count is the code's. */
static int counted(int export, int cell)
{
    static const int table[] = {[CODE] = TF_TABLE_CODE, [LOCATIONS] = TF_TABLE_LOCATIONS, [MARKS] = TF_TABLE_MARKS,
                                [EXCEPTIONS] = TF_TABLE_EXCEPTIONS, [CONSTANTS] = TF_TABLE_CONSTANTS,
                                [NAMES] = TF_TABLE_NAMES, [STARTS] = TF_TABLE_STARTS};
    if (export == NEW || export == SET_LOCATION || export == LOOK)
        return 0;
    return cell == CODE || exports[export].lengths[table[cell]] != 0;
}

static void tampered_counts(int export)
{
    static const int counts[] = {CODE, LOCATIONS, MARKS, EXCEPTIONS, CONSTANTS, NAMES, STARTS};
    static const uint64_t numbers[] = {UINT64_MAX, UINT64_MAX / 2, UINT64_MAX / 4 + 1, UINT64_MAX / 6 + 1, 1 << 30};
    for (size_t i = 0; i < sizeof counts / sizeof counts[0]; i++)
        for (size_t k = 0; k < sizeof numbers / sizeof numbers[0]; k++)
            tampered(export, "a count that is too large", counts[i], numbers[k], counted(export, counts[i]));
}

static void tampered_cells(int export)
{
    static const int offsets[] = {START, END, FOCUS_START, FOCUS_END}, flags[] = {HAS_LOCATION, HAS_FOCUS};
    static const int unread[] = {VALUE, CLAUSE, TABLE};
    int reads = export != NEW;
    tampered(export, "a depth over 65,536", DEPTH, TF_NO_DEPTH + 1, reads);
    tampered(export, "the largest depth", DEPTH, UINT64_MAX, reads);
    tampered(export, "a depth whose lower half is one", DEPTH, (uint64_t)1 << 32, reads);
    for (int i = 0; i < 2; i++) {
        tampered(export, "a flag that is 2", flags[i], 2, reads);
        tampered(export, "the largest flag", flags[i], UINT64_MAX, reads);
    }
    for (int i = 0; i < 4; i++) {
        tampered(export, "an offset of 2^32", offsets[i], (uint64_t)1 << 32, reads);
        tampered(export, "the largest offset", offsets[i], UINT64_MAX, reads);
        tampered(export, "the largest that is one", offsets[i], UINT32_MAX, 0);
    }
    for (int i = 0; i < 3; i++)
        tampered(export, "a cell that is not read", unread[i], UINT64_MAX, 0);
}

/* What stands in the cells of an absent location or focus is not read. A call that writes all cells leaves 0 there. */
static void absent(int export)
{
    uint64_t left = own_cells(export) == CLAUSE ? 0 : UINT64_MAX;
    lend_builder(export, 0);
    state()[HAS_LOCATION] = 0;
    for (int i = START; i <= FOCUS_END; i++)
        state()[i] = UINT64_MAX;
    remember();
    accepted(export, "no location", call(export));
    for (int i = START; i <= FOCUS_END && export != SET_LOCATION; i++)
        report("in its cells", state()[i] == left);
    lend_builder(export, 0);
    state()[HAS_FOCUS] = 0;
    state()[FOCUS_START] = state()[FOCUS_END] = UINT64_MAX;
    remember();
    accepted(export, "no focus", call(export));
}

/* Null with the length 0: no state is refused; with one, each function as its room is. */
static void nulls(int export)
{
    static const struct { uint32_t number, named; } expected[EXPORTS] = {
        [NEW] = {TF_FULL, TF_TABLE_STARTS}, [EMIT] = {TF_FULL, TF_TABLE_CODE}, [EMIT_JUMP] = {TF_FULL, TF_TABLE_CODE},
        [PATCH_JUMP] = {TF_NO_SUCH_MARK, 0}, [EMIT_JUMP_TO] = {TF_NO_SUCH_MARK, 0},
        [TARGET] = {TF_FULL, TF_TABLE_MARKS}, [NAME_ALL] = {TF_FULL, TF_TABLE_NAMES},
        [NAME] = {TF_FULL, TF_TABLE_NAMES}, [CONST] = {TF_FULL, TF_TABLE_CONSTANTS},
        [EXCEPTION] = {TF_FULL, TF_TABLE_EXCEPTIONS}, [REGION] = {TF_FULL, TF_TABLE_STARTS},
        [LOOK] = {TF_FULL, TF_TABLE_TEXT},
    };
    for (int i = STATE; i < ARRAYS; i++)
        lend(i, 0);
    remember();
    refused(export, "nothing lent", call(export), TF_UNSOUND, 0);
    lend(STATE, TF_STATE_CELLS);
    memset(state(), 0, TF_STATE_CELLS * sizeof(uint64_t));
    state()[DEPTH] = export == REGION ? TF_NO_DEPTH : 2;
    remember();
    tf_answer answer = call(export);
    report("no tables", tf_refusal(answer) == expected[export].number && tf_named(answer) == expected[export].named);
    report("no tables, nothing changes", answer == 0 || all_kept());
}

/* An emission by its number, of a builder that has room for all. */
static tf_answer emit(uint8_t number, uint8_t opcode, uint16_t a, uint32_t b, uint8_t c, const uint16_t *names,
                      size_t count)
{
    remember();
    return tfb_emit(number, opcode, a, b, c, names, count, STATE_LENT, LENT(uint8_t, TF_TABLE_CODE),
                    LENT(uint32_t, TF_TABLE_LOCATIONS));
}

/* Arguments that are too large for what they stand for, in live code and in dead. */
static void large_arguments(void)
{
    static const struct { uint8_t call; uint16_t a; uint32_t b; } large[] = {
        {17, 0, 0}, {255, 0, 0}, {TF_CALL_U8, 256, 0}, {TF_CALL_I8, 256, 0}, {TF_CALL_U8_U8, 256, 0},
        {TF_CALL_U8_U8, 0, 256}, {TF_CALL_U16_U16, 0, 65536}, {TF_CALL_U16_U8, 0, 256}, {TF_CALL_U16_U8_U8, 0, 256},
        {TF_CALL_CALL_BUILTIN_FUNCTION, 256, 0}, {TF_CALL_CALL_BUILTIN_FUNCTION, 0, UINT32_MAX},
        {TF_CALL_CALL_BUILTIN_TYPE, 256, 0}, {TF_CALL_CALL_BUILTIN_TYPE, 0, 256}, {TF_CALL_CALL_FUNCTION_KW, 256, 0},
        {TF_CALL_CALL_ATTR_KW, 0, 256},
    };
    for (size_t i = 0; i < sizeof large / sizeof large[0]; i++) {
        lend_builder(EMIT, 20);
        refused(EMIT, "live", emit(large[i].call, NO_OPCODE, large[i].a, large[i].b, 0, NULL, 0), TF_WRONG_SHAPE, 0);
        state()[DEPTH] = TF_NO_DEPTH;
        refused(EMIT, "dead", emit(large[i].call, NO_OPCODE, large[i].a, large[i].b, 0, NULL, 0), TF_WRONG_SHAPE, 0);
        state()[DEPTH]++;
        refused(EMIT, "19 first", emit(large[i].call, NO_OPCODE, large[i].a, large[i].b, 0, NULL, 0), TF_UNSOUND, 0);
    }
    lend_builder(NEW, 0);
    refused(NEW, "a depth", tfb_new(TF_NO_DEPTH + 1, STATE_LENT, LENT(uint32_t, TF_TABLE_STARTS)), TF_WRONG_SHAPE, 0);
    lend_builder(SET_LOCATION, 0);
    refused(SET_LOCATION, "has_focus", tfb_set_location(1, 2, 2, 3, 4, STATE_LENT), TF_WRONG_SHAPE, 0);
    lend_builder(EXCEPTION, 0);
    tf_answer answer = tfb_add_exception_entry(1, 2, 3, 4, 5, 2, STATE_LENT, LENT(uint32_t, TF_TABLE_EXCEPTIONS));
    refused(EXCEPTION, "kind", answer, TF_WRONG_SHAPE, 0);
}

/* Arguments that a call does not use are not looked at; names are, where it takes none and the code is live. */
static void unused_arguments(void)
{
    static const uint16_t names[300];
    lend_builder(EMIT, 20);
    report("emit looks at no value", emit(TF_CALL_EMIT, TF_OP_DUP, 65535, UINT32_MAX, 255, NULL, 0) == 0);
    report("emit_u8 at one", emit(TF_CALL_U8, TF_OP_LOAD_LOCAL, 255, UINT32_MAX, 255, NULL, 0) == 0);
    report("emit_load_local at no opcode", emit(TF_CALL_LOAD_LOCAL, 255, 9, UINT32_MAX, 255, NULL, 0) == 0);
    lend_builder(EMIT, 20);
    refused(EMIT, "a name too many", emit(TF_CALL_EMIT, TF_OP_DUP, 0, 0, 0, names, 1), TF_WRONG_SHAPE, 0);
    state()[DEPTH] = TF_NO_DEPTH;
    report("dead, names are not looked at", emit(TF_CALL_EMIT, TF_OP_DUP, 0, 0, 0, names, 300) == 0);
    lend_builder(SET_LOCATION, 0);
    report("without a focus", tfb_set_location(1, 2, 0, 3, 4, STATE_LENT) == 0);
    report("none is set", state()[HAS_FOCUS] == 0 && state()[FOCUS_START] == 0 && state()[FOCUS_END] == 0);
}

static void looked(void)
{
    static const uint64_t live[] = {4, 2, 0, 5, 6}, dead[] = {4, TF_NO_DEPTH, 1, 0, 0};
    lend_builder(LOOK, 3);
    report("a look", call(LOOK) == 0 && memcmp(lent_at(TF_TABLE_TEXT), live, sizeof live) == 0);
    state()[DEPTH] = TF_NO_DEPTH, state()[HAS_LOCATION] = 0;
    report("a look at dead code", call(LOOK) == 0 && memcmp(lent_at(TF_TABLE_TEXT), dead, sizeof dead) == 0);
}

static void marked(int export, const char *what, uint32_t number)
{
    tf_answer answer = call(export);
    if (number != 0)
        refused(export, what, answer, number, 0);
    else
        accepted(export, what, answer);
}

/* Marks that can't be: a label or a target past the code, a depth over 65,535, a kind that is none. */
static void tampered_marks(void)
{
    static const struct { uint32_t kind, offset, depth, label, target; } marks[] = {
        {1, 2, 2, 19, 19}, {1, UINT32_MAX, 2, 19, 19}, {1, 0, 65536, 19, 19}, {1, 0, 2, 0, 13}, {2, 2, 2, 19, 19},
        {2, 0, 2, 14, 13}, {3, 5, 2, 19, 19}, {3, UINT32_MAX, 2, 19, 19}, {3, 0, UINT32_MAX, 19, 19}, {3, 0, 2, 13, 0},
        {0, 0, 2, 13, 13}, {4, 0, 2, 13, 13}, {UINT32_MAX, UINT32_MAX, UINT32_MAX, 13, 13},
    };
    for (size_t i = 0; i < sizeof marks / sizeof marks[0]; i++) {
        const uint32_t rows[] = {marks[i].kind, marks[i].offset, marks[i].depth, 0};
        lend_builder(PATCH_JUMP, 0);
        memcpy(lent_at(TF_TABLE_MARKS), rows, sizeof rows);
        remember();
        marked(PATCH_JUMP, "a tampered label", marks[i].label);
        lend_builder(EMIT_JUMP_TO, 0);
        memcpy((uint32_t *)lent_at(TF_TABLE_MARKS) + TF_MARK_CELLS, rows, sizeof rows);
        remember();
        marked(EMIT_JUMP_TO, "a tampered target", marks[i].target);
    }
}

static uint64_t random_number(void)
{
    static uint64_t seed = 0x9E3779B97F4A7C15u;
    seed ^= seed << 13, seed ^= seed >> 7, seed ^= seed << 17;
    return seed;
}

/* Small and honest most of the time, else one at some border. */
static uint64_t any_number(void)
{
    static const uint64_t borders[16] = {0, 1, 2, 255, 256, 65535, 65536, 65537, 1048576, 1048577, UINT32_MAX,
                                         (uint64_t)UINT32_MAX + 1, UINT64_MAX / 6, UINT64_MAX / 4, UINT64_MAX - 1,
                                         UINT64_MAX};
    return random_number() % 4 != 0 ? random_number() % 6 : borders[random_number() % 16];
}

static tf_answer any_emission(void)
{
    static const uint16_t names[300];
    return emit((uint8_t)(random_number() % 18), (uint8_t)(random_number() % 132), (uint16_t)any_number(),
                (uint32_t)any_number(), (uint8_t)any_number(), names, any_number() % 300);
}

/* Anything at all: no call may go past what is lent, and a refused one may change nothing. */
static void anything(int rounds)
{
    int wrong = 0;
    for (int round = 0; round < rounds; round++) {
        int export = (int)(random_number() % EXPORTS);
        lend_builder(export, random_number() % 8);
        for (uint64_t changes = random_number() % 4; changes > 0; changes--)
            state()[random_number() % TF_STATE_CELLS] = any_number();
        uint32_t *marks = lent_at(TF_TABLE_MARKS);
        for (uint64_t changes = random_number() % 3; changes > 0 && marks != NULL; changes--)
            marks[random_number() % lent[TF_TABLE_MARKS].length] = (uint32_t)any_number();
        int table = (int)(random_number() % ARRAYS);
        if (random_number() % 2 == 0 && lent[table].length > 0)
            relend(table, random_number() % lent[table].length);
        remember();
        tf_answer answer = export == EMIT ? any_emission() : call(export);
        wrong += tf_refusal(answer) > TF_UNSOUND || (answer != 0 && !all_kept());
        wrong += answer == 0 && lent[STATE].length < TF_STATE_CELLS;
    }
    report("anything", wrong == 0);
}

int main(void)
{
    raise_fences();
    for (int export = NEW; export < EXPORTS; export++) {
        lengths(export);
        short_states(export);
        tampered_counts(export);
        tampered_cells(export);
        absent(export);
        nulls(export);
    }
    large_arguments();
    unused_arguments();
    looked();
    tampered_marks();
    anything(20000);
    drop_fences();
    return verdict("lent");
}
