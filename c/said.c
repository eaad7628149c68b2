/* Answers the questions of the program `explain` through the exported calls: reads its lines from standard input, and writes what is said
   of each to standard output. */
#include "knucklepin.h"

#include <stdbool.h>
#include <stdio.h>
#include <string.h>

enum { LINE = 256, TEXT = 8192 };

static int digit(char c)
{
    if (c >= '0' && c <= '9') return c - '0';
    if (c >= 'a' && c <= 'f') return c - 'a' + 10;
    if (c >= 'A' && c <= 'F') return c - 'A' + 10;
    return -1;
}

/* So many hexadecimal digits at a place of a line. */
static bool number(const char *place, size_t digits, uint64_t *value)
{
    *value = 0;
    for (size_t i = 0; i < digits; i++) {
        int d = digit(place[i]);
        if (d < 0) return false;
        *value = *value * 16 + (uint64_t)d;
    }
    return true;
}

/* A word is `E ESR`, a whole trap `E ESR FAR HPFAR`, and a word of the short form `short E HSR`. */
static uint64_t said(const char *line, size_t length, uint8_t *text)
{
    uint64_t edition, first, second, third;
    if (length == 16 && memcmp(line, "short ", 6) == 0 && line[7] == ' ' && number(line + 6, 1, &edition) && number(line + 8, 8, &first)) {
        const struct knucklepin_hsr hsr = {(uint32_t)first};
        return knucklepin_explain_short((uint32_t)edition, hsr, text, TEXT);
    }
    if ((length == 18 || length == 52) && line[1] == ' ' && number(line, 1, &edition) && number(line + 2, 16, &first)) {
        const struct knucklepin_esr esr = {first};
        if (length == 18) return knucklepin_explain_word((uint32_t)edition, esr, text, TEXT);
        if (line[18] == ' ' && line[35] == ' ' && number(line + 19, 16, &second) && number(line + 36, 16, &third)) {
            const struct knucklepin_far far = {second};
            const struct knucklepin_hpfar hpfar = {third};
            return knucklepin_explain_trap((uint32_t)edition, esr, far, hpfar, text, TEXT);
        }
    }
    memcpy(text, "no line\n", 8);
    return 8;
}

int main(void)
{
    static char line[LINE];
    static uint8_t text[TEXT];
    size_t length = 0;
    for (int c = getchar();; c = getchar()) {
        if (c == EOF && length == 0) return 0;
        if (c != EOF && c != '\n') {
            /* What is longer than any question is none, whatever it holds. */
            if (length < LINE) line[length++] = (char)c;
            continue;
        }
        fwrite(text, 1, (size_t)said(line, length, text), stdout);
        if (c == EOF) return 0;
        length = 0;
    }
}
