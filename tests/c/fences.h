/* Arrays to lend. Behind each stands a page that can't be read or written, so that a call which goes one element too
 * far ends the program; before each stands a guard. What is lent is remembered, so that a changed element is seen. */
#ifndef FENCES_H
#define FENCES_H

#include "checks.h"

#include <stdlib.h>
#include <string.h>
#include <sys/mman.h>
#include <unistd.h>

enum { STATE = 0, LINES = TF_TABLE_TEXT + 1, GREATEST, ARRAYS, ROOM = 1 << 21, GUARD = 64, FILLED = 0x23 };

/* By the numbers of the tables; the state is number 0, and the last two a text that is read and a greatest depth. */
static struct { uint8_t *fence, *was; size_t element, length; } lent[ARRAYS] = {
    {0, 0, sizeof(uint64_t), 0}, {0, 0, sizeof(uint8_t), 0},  {0, 0, sizeof(uint32_t), 0},
    {0, 0, sizeof(uint32_t), 0}, {0, 0, sizeof(uint64_t), 0}, {0, 0, sizeof(uint64_t), 0},
    {0, 0, sizeof(uint32_t), 0}, {0, 0, sizeof(uint32_t), 0}, {0, 0, sizeof(uint64_t), 0},
    {0, 0, sizeof(uint8_t), 0},  {0, 0, sizeof(uint32_t), 0},
};

static void raise_fences(void)
{
    size_t page = (size_t)sysconf(_SC_PAGESIZE);
    for (int i = 0; i < ARRAYS; i++) {
        uint8_t *base = mmap(NULL, ROOM + page, PROT_READ | PROT_WRITE, MAP_PRIVATE | MAP_ANONYMOUS, -1, 0);
        lent[i].was = malloc(ROOM);
        if (base == MAP_FAILED || lent[i].was == NULL || mprotect(base + ROOM, page, PROT_NONE) != 0) {
            printf("c: FAILED: no memory for the fences\n");
            exit(1);
        }
        lent[i].fence = base + ROOM;
    }
}

static void drop_fences(void)
{
    for (int i = 0; i < ARRAYS; i++)
        free(lent[i].was);
}

static size_t lent_bytes(int i) { return lent[i].element * lent[i].length; }

/* Where an array begins; null where it has no elements. */
static void *lent_at(int i) { return lent[i].length == 0 ? NULL : lent[i].fence - lent_bytes(i); }

/* Lends so many elements, all bytes of which are FILLED. */
static void lend(int i, size_t length)
{
    lent[i].length = length;
    memset(lent[i].fence - lent_bytes(i) - GUARD, FILLED, lent_bytes(i) + GUARD);
}

/* An array longer or shorter at its end, with what it holds. */
static inline void relend(int i, size_t length)
{
    size_t kept = lent[i].element * (length < lent[i].length ? length : lent[i].length);
    memcpy(lent[i].was, lent[i].fence - lent_bytes(i), kept);
    lend(i, length);
    memcpy(lent[i].fence - lent_bytes(i), lent[i].was, kept);
}

static void remember(void)
{
    for (int i = 0; i < ARRAYS; i++)
        memcpy(lent[i].was, lent[i].fence - lent_bytes(i) - GUARD, lent_bytes(i) + GUARD);
}

/* Whether an array, or each, is as it was remembered. */
static int kept(int i)
{
    return memcmp(lent[i].was, lent[i].fence - lent_bytes(i) - GUARD, lent_bytes(i) + GUARD) == 0;
}

static int all_kept(void)
{
    int same = 1;
    for (int i = 0; i < ARRAYS; i++)
        same &= kept(i);
    return same;
}

/* Whether the guards still stand, and every element from `first` on is FILLED. */
static int blank_from(int i, size_t first)
{
    const uint8_t *begin = lent[i].fence - lent_bytes(i), *at;
    for (at = begin - GUARD; at < lent[i].fence; at++)
        if ((at < begin || at >= begin + first * lent[i].element) && *at != FILLED)
            return 0;
    return 1;
}

#endif
