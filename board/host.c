/* Text, files and the end of the run, by semihosting. */
#include "board.h"

enum { SYS_OPEN = 0x01, SYS_CLOSE = 0x02, SYS_WRITE = 0x05, SYS_EXIT = 0x18 };

static uint64_t host(uint64_t operation, const uint64_t *parameters)
{
    register uint64_t x0 __asm__("x0") = operation;
    register const uint64_t *x1 __asm__("x1") = parameters;

    __asm__ volatile("hlt #0xF000" : "+r"(x0) : "r"(x1) : "memory");
    return x0;
}

static uint64_t length_of(const char *text)
{
    uint64_t length = 0;

    while (text[length] != 0)
        length++;
    return length;
}

void write_file(const char *name, const void *bytes, uint64_t length)
{
    const uint64_t binary = 5; /* mode "wb" */
    uint64_t handle = host(SYS_OPEN, (uint64_t[]){(uintptr_t)name, binary, length_of(name)});

    host(SYS_WRITE, (uint64_t[]){handle, (uintptr_t)bytes, length});
    host(SYS_CLOSE, (uint64_t[]){handle});
}

/* Standard output has the name ":tt". */
static void put(const char *text, uint64_t length)
{
    const uint64_t text_mode = 4; /* mode "w" */
    static uint64_t handle;

    if (handle == 0)
        handle = host(SYS_OPEN, (uint64_t[]){(uintptr_t)":tt", text_mode, 3});
    host(SYS_WRITE, (uint64_t[]){handle, (uintptr_t)text, length});
}

static void put_number(uint64_t number, uint32_t base, int digits)
{
    char text[20];
    int at = sizeof text;

    for (int n = 0; n < digits || number != 0; n++, number /= base)
        text[--at] = "0123456789abcdef"[number % base];
    put(text + at, sizeof text - (uint64_t)at);
}

/* %s a text, %u a number, %x and %b the 8 and the 2 hexadecimal digits of one. */
void print_list(const char *format, va_list values)
{
    for (; *format != 0; format++) {
        if (*format != '%') {
            put(format, 1);
            continue;
        }
        format++;
        if (*format == 's') {
            const char *text = va_arg(values, const char *);
            put(text, length_of(text));
        } else if (*format == 'u') {
            put_number(va_arg(values, uint32_t), 10, 1);
        } else {
            put_number(va_arg(values, uint32_t), 16, *format == 'x' ? 8 : 2);
        }
    }
}

void print(const char *format, ...)
{
    va_list values;

    va_start(values, format);
    print_list(format, values);
    va_end(values);
}

_Noreturn void leave(uint32_t code)
{
    const uint64_t application_exit = 0x20026;

    for (;;)
        host(SYS_EXIT, (uint64_t[]){application_exit, code});
}
