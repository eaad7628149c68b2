/* System registers as functions: SYSTEM_REGISTER(X); defines read_X and write_X. What is asserted is true, and takes the semicolon. */
#ifndef SYSTEM_H
#define SYSTEM_H

#include <stdint.h>

#define SYSTEM_REGISTER(name)                                  \
    static inline uint64_t read_##name(void)                   \
    {                                                          \
        uint64_t value;                                        \
        __asm__ volatile("mrs %0, " #name : "=r"(value));      \
        return value;                                          \
    }                                                          \
    static inline void write_##name(uint64_t value)            \
    {                                                          \
        __asm__ volatile("msr " #name ", %0" : : "r"(value));  \
    }                                                          \
    _Static_assert(sizeof(#name) != 0, #name)

#endif
