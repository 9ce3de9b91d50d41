/* Compiles a listing, which may have been corrected by hand: the bytes of its instructions go to standard output. Their
 * depths are not looked at; that is what check.c is for.
 *
 * Usage: compile LISTING        (`-` reads standard input)
 * Exit status: 0 where every line was read, 1 where one is refused, 2 where the words or the file are no good. */
#include "parts.h"

#include <string.h>

/* The most bytes that a listing shows. */
enum { CODE_MOST = 65536 };

static const char *in_words(uint32_t refusal)
{
    switch (refusal) {
    case TF_NOT_A_LINE: return "not a line that a listing has";
    case TF_DISAGREES: return "the offset or the target is not the one that results";
    case TF_FULL: return "with this line the code is over 65,536 bytes";
    default: return "refused";
    }
}

static int compile(const char *name, const uint8_t *text, size_t length)
{
    static uint8_t code[CODE_MOST];
    tf_answer answer = tf_read_listing(text, length, code, sizeof code);
    uint32_t refusal = tf_refusal(answer);
    if (refusal != 0) {
        fprintf(stderr, "%s:%u: %s (%u)\n", name, (unsigned)tf_named(answer), in_words(refusal), (unsigned)refusal);
        return 1;
    }
    return fwrite(code, 1, (size_t)tf_value(answer), stdout) == (size_t)tf_value(answer) ? 0 : 2;
}

int main(int count, char **words)
{
    if (count != 2) {
        fprintf(stderr, "usage: compile LISTING\n");
        return 2;
    }
    FILE *file = strcmp(words[1], "-") == 0 ? stdin : fopen(words[1], "rb");
    size_t length = 0;
    uint8_t *text = file == NULL ? NULL : read_all(file, &length);
    int status = 2;
    if (text == NULL)
        fprintf(stderr, "compile: can't read %s\n", words[1]);
    else
        status = compile(words[1], text, length);
    if (file != NULL)
        fclose(file);
    free(text);
    return status;
}
