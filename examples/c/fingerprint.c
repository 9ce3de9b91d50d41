/* Prints the fingerprint of the opcode table in 16 hexadecimal digits. Given the one that another installation printed, it
 * says whether code may go from one to the other: exit status 0, or 1 where some opcode has another name or shape there,
 * and 2 where the argument is no fingerprint. */
#include "tokenfinch.h"

#include <inttypes.h>
#include <stdio.h>
#include <stdlib.h>
#include <string.h>

/* Whether a word is 16 hexadecimal digits; then number is what they say. */
static int read_fingerprint(const char *word, uint64_t *number)
{
    if (strlen(word) != 16 || strspn(word, "0123456789abcdef") != 16)
        return 0;
    *number = strtoull(word, NULL, 16);
    return 1;
}

int main(int count, char **words)
{
    uint64_t ours = tf_fingerprint(), theirs;
    if (count == 1) {
        printf("%016" PRIx64 "\n", ours);
        return 0;
    }
    if (count != 2 || !read_fingerprint(words[1], &theirs)) {
        fprintf(stderr, "usage: fingerprint [16 hexadecimal digits]\n");
        return 2;
    }
    if (theirs != ours) {
        printf("the opcode tables differ: %016" PRIx64 " here\n", ours);
        return 1;
    }
    printf("the opcode tables agree\n");
    return 0;
}
