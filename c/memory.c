/* Copies and fills for the libraries of the boards, which link no C library: a compiler may call these where a state or a record is copied.
   They are compiled without builtins, so that none becomes a call of itself, and are local to the archive: a program keeps its own.

   What is copied is mostly words of 32 bits, in places that a compiler chose. Two places that lie alike go by words, several at a time, and
   the bytes before the first whole word and after the last go one by one. Other places go by bytes, since a word that isn't aligned may
   fault. */

typedef __SIZE_TYPE__ size;
typedef __UINTPTR_TYPE__ address;
typedef unsigned char byte;
typedef __UINT32_TYPE__ __attribute__((may_alias)) word;
typedef size __attribute__((may_alias)) wide;

void *memcpy(void *to, const void *from, size count);
void *memmove(void *to, const void *from, size count);
void *memset(void *to, int value, size count);

/* Whether two places are equally far from a whole number of so many bytes. */
static inline int alike(const byte *one, const byte *other, size bytes)
{
    return ((address)one - (address)other) % bytes == 0;
}

/* Copies n of a type. All are read before one is written, as places that overlap need. */
#define COPY(type, n)                                                     \
    do {                                                                  \
        type held[n];                                                     \
        for (size i = 0; i < (n); i++) held[i] = ((const type *)from)[i]; \
        for (size i = 0; i < (n); i++) ((type *)to)[i] = held[i];         \
    } while (0)

/* The same, where so many are left, and moves on. */
#define COPY_UP(type, n)             \
    do {                             \
        COPY(type, n);               \
        to += (n) * sizeof(type);    \
        from += (n) * sizeof(type);  \
        count -= (n) * sizeof(type); \
    } while (0)

/* Copies by a type what is left but less than one of it: eight at a time, and then four, two and one. */
#define COPY_BY(type)                                       \
    do {                                                    \
        while (count >= 8 * sizeof(type)) COPY_UP(type, 8); \
        if (count >= 4 * sizeof(type)) COPY_UP(type, 4);    \
        if (count >= 2 * sizeof(type)) COPY_UP(type, 2);    \
        if (count >= sizeof(type)) COPY_UP(type, 1);        \
    } while (0)

/* From the lowest byte to the highest. */
static void *up(void *start, const byte *from, size count)
{
    byte *to = start;
    if (alike(to, from, sizeof(word))) {
        while (count > 0 && (address)to % sizeof(word) != 0) COPY_UP(byte, 1);
        if (alike(to, from, sizeof(wide))) {
            if (count >= sizeof(word) && (address)to % sizeof(wide) != 0) COPY_UP(word, 1);
            COPY_BY(wide);
        }
        COPY_BY(word);
    }
    while (count > 0) COPY_UP(byte, 1);
    return start;
}

/* From the highest byte to the lowest. */
static void *down(void *start, const byte *from, size count)
{
    byte *to = start;
    to += count;
    from += count;
    if (alike(to, from, sizeof(word))) {
        for (; count > 0 && (address)to % sizeof(word) != 0; count--) *--to = *--from;
        for (; count >= 4 * sizeof(word); count -= 4 * sizeof(word)) {
            to -= 4 * sizeof(word);
            from -= 4 * sizeof(word);
            COPY(word, 4);
        }
    }
    for (; count > 0; count--) *--to = *--from;
    return start;
}

void *memcpy(void *to, const void *from, size count)
{
    return up(to, from, count);
}

void *memmove(void *to, const void *from, size count)
{
    return (address)to - (address)from >= count ? up(to, from, count) : down(to, from, count);
}

void *memset(void *to, int value, size count)
{
    byte *t = to;
    const word filled = (word)-1 / 255 * (byte)value;
    for (; count > 0 && (address)t % sizeof(word) != 0; count--) *t++ = (byte)value;
    for (; count >= 4 * sizeof(word); count -= 4 * sizeof(word), t += 4 * sizeof(word)) {
        for (size i = 0; i < 4; i++) ((word *)t)[i] = filled;
    }
    for (; count >= sizeof(word); count -= sizeof(word), t += sizeof(word)) *(word *)t = filled;
    for (; count > 0; count--) *t++ = (byte)value;
    return to;
}

#ifdef __ARM_EABI__
/* The names that a compiler for 32-bit Arm calls them by (the Run-time ABI for the Arm Architecture), where the places are aligned to so
   many bytes. A fill has its count before its value. */
#define NAMES(end)                                                     \
    void __aeabi_memcpy##end(void *to, const void *from, size count);  \
    void __aeabi_memmove##end(void *to, const void *from, size count); \
    void __aeabi_memset##end(void *to, size count, int value);         \
    void __aeabi_memclr##end(void *to, size count);                    \
    void __aeabi_memcpy##end(void *to, const void *from, size count)   \
    {                                                                  \
        memcpy(to, from, count);                                       \
    }                                                                  \
    void __aeabi_memmove##end(void *to, const void *from, size count)  \
    {                                                                  \
        memmove(to, from, count);                                      \
    }                                                                  \
    void __aeabi_memset##end(void *to, size count, int value)          \
    {                                                                  \
        memset(to, value, count);                                      \
    }                                                                  \
    void __aeabi_memclr##end(void *to, size count)                     \
    {                                                                  \
        memset(to, 0, count);                                          \
    }                                                                  \
    _Static_assert(1, #end)

NAMES();
NAMES(4);
NAMES(8);
#endif
