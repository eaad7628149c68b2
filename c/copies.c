/* Runs the copies and fills of c/memory.c, under the names that .ci/calls gives them, beside the C library's: every place, distance and
   count within a buffer, and so every alignment with every count up to that of a state and beyond it. */
#include <stddef.h>
#include <stdio.h>
#include <string.h>

void *own_memcpy(void *restrict to, const void *restrict from, size_t count);
void *own_memmove(void *to, const void *from, size_t count);
void *own_memset(void *to, int value, size_t count);

/* A state has 192 bytes. */
enum { ROOM = 192 + 16 };

static unsigned char ours[ROOM], theirs[ROOM], source[ROOM], fresh[ROOM];
static unsigned long runs, others;

static void begin(void)
{
    memcpy(ours, fresh, ROOM);
    memcpy(theirs, fresh, ROOM);
}

/* One of ours was run, and gave a place; and theirs. */
static void compare(const void *gave, const void *place)
{
    runs++;
    others += gave != place || memcmp(ours, theirs, ROOM) != 0;
}

int main(void)
{
    for (size_t i = 0; i < ROOM; i++) {
        fresh[i] = (unsigned char)(7 * i + 1);
        source[i] = (unsigned char)(11 * i + 5);
    }
    for (size_t to = 0; to < ROOM; to++) {
        for (size_t from = 0; from < ROOM; from++) {
            for (size_t count = 0; to + count <= ROOM && from + count <= ROOM; count++) {
                begin();
                memcpy(theirs + to, source + from, count);
                compare(own_memcpy(ours + to, source + from, count), ours + to);
                begin();
                memmove(theirs + to, theirs + from, count);
                compare(own_memmove(ours + to, ours + from, count), ours + to);
                begin();
                memset(theirs + to, (int)(from + 0x100), count);
                compare(own_memset(ours + to, (int)(from + 0x100), count), ours + to);
            }
        }
    }
    printf("copies and fills: %lu as the C library's, %lu others\n", runs - others, others);
    return others != 0;
}
