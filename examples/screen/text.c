#define _POSIX_C_SOURCE 200809L
#include "text.h"

#include <stdarg.h>
#include <stdint.h>
#include <stdlib.h>
#include <string.h>

#include "screen.h"

void *need_memory(void *memory)
{
    if (memory == NULL) {
        complain("there is not enough memory");
        exit(FAILED);
    }
    return memory;
}

/* Characters that are not to be seen, or that turn the writing round: two ends of each range. */
static int hidden(uint32_t c)
{
    static const uint32_t ranges[][2] = {{0x7f, 0x9f},     {0xad, 0xad},     {0x61c, 0x61c},   {0x180e, 0x180e}, {0x200b, 0x200f},
                                         {0x2028, 0x202e}, {0x2060, 0x206f}, {0xd800, 0xdfff}, {0xfeff, 0xfeff}, {0xfff0, 0xfffb}};
    if (c < 0x20 || c > 0xeffff)
        return 1;
    for (size_t i = 0; i < sizeof ranges / sizeof *ranges; i++)
        if (c >= ranges[i][0] && c <= ranges[i][1])
            return 1;
    return 0;
}

/* How many bytes the visible character here has; 0 if there is none. */
static size_t visible_bytes(const unsigned char *s)
{
    static const uint32_t least[] = {0, 0, 0x80, 0x800, 0x10000};
    size_t length = s[0] < 0x80 ? 1 : s[0] < 0xc0 ? 0 : s[0] < 0xe0 ? 2 : s[0] < 0xf0 ? 3 : s[0] < 0xf8 ? 4 : 0;
    if (length < 2)
        return length == 1 && !hidden(s[0]);
    uint32_t c = s[0] & (0x7fU >> length);
    for (size_t i = 1; i < length; i++) {
        if ((s[i] & 0xc0) != 0x80)
            return 0;
        c = c << 6 | (s[i] & 0x3fU);
    }
    return c >= least[length] && !hidden(c) ? length : 0;
}

void make_visible(char *text)
{
    while (*text != '\0') {
        size_t length = visible_bytes((const unsigned char *)text);
        if (length == 0) {
            *text = '?';
            length = 1;
        }
        text += length;
    }
}

char *visible_copy(const char *text)
{
    char *copy = need_memory(strdup(text));
    make_visible(copy);
    return copy;
}

/* A byte that is not the first of its character. */
static int goes_on(char byte) { return ((unsigned char)byte & 0xc0) == 0x80; }

size_t characters(const char *text)
{
    size_t count = 0;
    for (; *text != '\0'; text++)
        count += !goes_on(*text);
    return count;
}

void add_text(char *to, size_t room, const char *format, ...)
{
    size_t used = strlen(to);
    va_list values;
    va_start(values, format);
    int length = vsnprintf(to + used, room - used, format, values);
    va_end(values);
    if (length < 0 || (size_t)length < room - used)
        return;
    size_t end = room - sizeof "...";
    while (end > 0 && goes_on(to[end]))
        end--;
    strcpy(to + end, "...");
}

void put_lines(FILE *to, size_t at, size_t indent, const char *text)
{
    size_t gap = 0; /* the blanks before the word at hand */
    for (size_t words = 0; *text != '\0'; words++) {
        size_t length = strcspn(text, " ");
        size_t wide = 0;
        for (size_t i = 0; i < length; i++)
            wide += !goes_on(text[i]);
        if (words > 0 && at + gap + wide > LINE_COLUMNS) {
            fprintf(to, "\n%*s", (int)indent, "");
            at = indent;
        } else {
            fprintf(to, "%*s", (int)gap, "");
            at += gap;
        }
        fwrite(text, 1, length, to);
        at += wide;
        gap = strspn(text + length, " ");
        text += length + gap;
    }
    fputc('\n', to);
}

const char *plural(unsigned long long count, const char *one, const char *many) { return count == 1 ? one : many; }
