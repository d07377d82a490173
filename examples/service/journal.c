#define _DEFAULT_SOURCE
#include "journal.h"

#include <fcntl.h>
#include <stdarg.h>
#include <stdio.h>
#include <stdlib.h>
#include <string.h>
#include <unistd.h>

enum { TOP_LINE = 2048 };

/* The length of the file up to its last line's end. */
static off_t whole_lines(int file)
{
    off_t length = lseek(file, 0, SEEK_END);
    char last = '\n';
    while (length > 0 && pread(file, &last, 1, length - 1) == 1 && last != '\n')
        length--;
    return length;
}

int journal_open(struct journal *j, const char *path)
{
    j->file = open(path, O_RDWR | O_CREAT | O_APPEND, 0644);
    return j->file < 0 ? -1 : ftruncate(j->file, whole_lines(j->file));
}

/* A box whose log cannot be written ends: otherwise the desk would see another site. */
static void put_line(const struct journal *j, char *line, size_t length)
{
    line[length] = '\n';
    if (write(j->file, line, length + 1) != (ssize_t)(length + 1)) {
        perror("log");
        exit(1);
    }
}

static size_t add(char *line, size_t length, const char *format, va_list more)
{
    return length + (size_t)vsnprintf(line + length, TOP_LINE - length, format, more);
}

void journal_write(const struct journal *j, const char *format, ...)
{
    char line[TOP_LINE + 1];
    va_list more;
    va_start(more, format);
    put_line(j, line, add(line, 0, format, more));
    va_end(more);
}

void journal_call(const struct journal *j, struct place at, const char *format, ...)
{
    char line[TOP_LINE + 1];
    const char *phase = at.phase == NEGOTIATION ? "negotiation" : "distribution";
    int length = snprintf(line, TOP_LINE, "%u %s ", at.round, phase);
    va_list more;
    va_start(more, format);
    put_line(j, line, add(line, (size_t)length, format, more));
    va_end(more);
}

void journal_area(const struct journal *j, struct place at, const uint8_t *area, size_t length)
{
    char hex[TOP_LINE];
    for (size_t i = 0; i < length && 2 * i + 2 < sizeof hex; i++)
        snprintf(hex + 2 * i, 3, "%02x", area[i]);
    journal_call(j, at, "area %s", hex);
}
