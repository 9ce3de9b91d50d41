/* Checks the depths of compiled code and prints its listing with a depth in front of each line: the depth of the
 * stack before the instruction, `-` where no path from a start leads to it. Behind the line of the code's end stands
 * how much stack the code needs.
 *
 * Usage: check [--strict] FILE [OFFSET:DEPTH ..]        (`-` reads standard input; without starts: 0:0)
 * Exit status: 0 where depths can be given, 1 where the code is refused, 2 where the words or the file are no good. */
#include "parts.h"

#include <ctype.h>
#include <errno.h>
#include <string.h>

/* A number of digits alone up to the character `end`, at most `most`; the text behind that character, or null. */
static const char *read_number(const char *text, char end, uint32_t *number)
{
    char *behind;
    errno = 0;
    unsigned long long value = isdigit((unsigned char)*text) ? strtoull(text, &behind, 10) : UINT64_MAX;
    if (value > UINT32_MAX || errno != 0 || *behind != end)
        return NULL;
    *number = (uint32_t)value;
    return behind + 1;
}

static const char *in_words(uint32_t refusal)
{
    switch (refusal) {
    case TF_UNKNOWN_OPCODE: return "a byte stands where an opcode should, and is none";
    case TF_TOO_LARGE: return "the code is over 1,048,576 bytes";
    case TF_BAD_STARTS: return "a start is at no instruction and not at the end, or its depth is over 65,535";
    case TF_CUT_SHORT: return "an instruction is cut short by the code's end";
    case TF_NO_DEPTHS: return "no depths can be given";
    case TF_TOO_FEW_VALUES: return "an instruction needs more values than the stack holds";
    default: return "refused";
    }
}

/* Where the jump at an offset leads. */
static long target(const uint8_t *code, size_t length, size_t at)
{
    uint64_t cell[TF_STEP_CELLS] = {0};
    tf_step(code, length, at, cell, TF_STEP_CELLS);
    return (long)at + 3 + (cell[TF_STEP_A] < 32768 ? (long)cell[TF_STEP_A] : (long)cell[TF_STEP_A] - 65536);
}

/* The whole listing of code that the check has accepted: the library's bytes, handed on unread. */
static void print_all(const uint8_t *code, size_t length, const uint32_t *depths)
{
    static uint8_t text[65536];
    uint64_t told[TF_LIST_CELLS] = {0, 0};
    while (tf_check_listing(code, length, depths, length + 1, (size_t)told[TF_LIST_NEXT], text, sizeof text, told,
                            TF_LIST_CELLS) == 1)
        fwrite(text, 1, (size_t)told[TF_LIST_LENGTH], stdout);
}

/* Why no depths can be given, as tf_explain tells it. */
static void print_reason(const uint8_t *code, size_t length, const uint64_t told[TF_REASON_CELLS])
{
    size_t at = (size_t)told[TF_REASON_OFFSET];
    unsigned depth = (unsigned)told[TF_REASON_DEPTH], other = (unsigned)told[TF_REASON_OTHER_DEPTH];
    switch (told[TF_REASON_KIND]) {
    case TF_REASON_TWO_DEPTHS:
        printf("at offset %zu the depth is %u, and %u on another way\n", at, depth, other);
        break;
    case TF_REASON_NO_PLACE:
        printf("the jump at offset %zu leads to %ld, where no instruction starts\n", at, target(code, length, at));
        break;
    case TF_REASON_TOO_FEW:
        printf("it needs %u, and the depth is %u\n", (unsigned)told[TF_REASON_NEED], depth);
        break;
    default:
        printf("at offset %zu the instruction takes the depth %u below 0, or above 65,535\n", at, depth);
    }
}

static int check(uint8_t mode, const uint8_t *code, size_t length, const uint32_t *starts, size_t count,
                 uint32_t *depths, uint32_t *work)
{
    uint64_t told[TF_REASON_CELLS];
    uint32_t greatest;
    tf_answer answer = tf_explain(mode, code, length, starts, count, depths, length + 1, work, length + 1, &greatest,
                                  told, TF_REASON_CELLS);
    uint32_t refusal = tf_refusal(answer);
    if (refusal == 0) {
        print_all(code, length, depths);
        printf("stack %u\n", (unsigned)greatest);
        return 0;
    }
    if (refusal == TF_UNKNOWN_OPCODE || refusal == TF_CUT_SHORT || refusal == TF_TOO_FEW_VALUES)
        printf("refused %u at offset %u: %s\n", (unsigned)refusal, (unsigned)tf_value(answer), in_words(refusal));
    else
        printf("refused %u: %s\n", (unsigned)refusal, in_words(refusal));
    if (refusal == TF_NO_DEPTHS || refusal == TF_TOO_FEW_VALUES)
        print_reason(code, length, told);
    return 1;
}

static int bad(const char *why, const char *what)
{
    fprintf(stderr, "check: %s %s\n", why, what);
    return 2;
}

int main(int count, char **words)
{
    uint8_t mode = count > 1 && strcmp(words[1], "--strict") == 0 ? TF_STRICT : TF_NET;
    if (mode == TF_STRICT) {
        words++;
        count--;
    }
    if (count < 2)
        return bad("usage: check [--strict] FILE [OFFSET:DEPTH ..]", "");
    /* two numbers a start, and room for the one that is taken where none is given */
    uint32_t *starts = calloc((size_t)count * 2, sizeof *starts);
    size_t given = 0;
    for (int i = 2; starts != NULL && i < count; i++) {
        const char *depth = read_number(words[i], ':', &starts[given++]);
        if (depth == NULL || read_number(depth, '\0', &starts[given++]) == NULL) {
            free(starts);
            return bad("no start OFFSET:DEPTH:", words[i]);
        }
    }
    FILE *file = strcmp(words[1], "-") == 0 ? stdin : fopen(words[1], "rb");
    size_t length = 0;
    uint8_t *code = file == NULL ? NULL : read_all(file, &length);
    uint32_t *depths = code == NULL ? NULL : malloc((length + 1) * sizeof *depths);
    uint32_t *work = code == NULL ? NULL : malloc((length + 1) * sizeof *work);
    int status = 2;
    if (starts == NULL || depths == NULL || work == NULL)
        bad("can't read", words[1]);
    else
        status = check(mode, code, length, starts, count == 2 ? 2 : given, depths, work);
    if (file != NULL)
        fclose(file);
    free(work);
    free(depths);
    free(code);
    free(starts);
    return status;
}
