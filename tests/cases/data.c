#include "data.h"

#include <errno.h>
#include <stdio.h>
#include <stdlib.h>
#include <string.h>

static unsigned row;

void malformed(const char *what)
{
    printf("line %u: %s\n", row, what);
    exit(2);
}

char *word(char **text)
{
    char *from = *text;

    *text += strcspn(from, " ");
    if (**text == ' ') {
        *(*text)++ = '\0';
    }
    return from;
}

uint64_t number(char **text, uint64_t most)
{
    char *from = word(text);
    char *end;
    unsigned long long value;

    errno = 0;
    value = strtoull(from, &end, 10);
    if (*from < '0' || *from > '9' || *end != '\0' || errno != 0 || value > most) {
        malformed("this is no number, or too high a one");
    }
    return value;
}

uint64_t last_number(char *text, uint64_t most)
{
    uint64_t value = number(&text, most);

    if (*text != '\0') {
        malformed("there is more behind the last number");
    }
    return value;
}

size_t bytes_of(const char *text, uint8_t bytes[ROOM])
{
    static const char digits[] = "0123456789abcdef";
    size_t len = strlen(text) / 2;

    if (strcmp(text, "-") == 0) {
        return 0;
    }
    if (len == 0 || text[2 * len] != '\0' || text[strspn(text, digits)] != '\0') {
        malformed("these are no bytes in hex");
    }
    for (size_t i = 0; i < len; i++) {
        bytes[i] = (uint8_t)((strchr(digits, text[2 * i]) - digits) * 16 + (strchr(digits, text[2 * i + 1]) - digits));
    }
    return len;
}

void by_rule(uint8_t *bytes, size_t len)
{
    for (size_t i = 0; i < len; i++) {
        bytes[i] = (uint8_t)(i * 7 + 3);
    }
}

int begins(char *line, const char *word, char **rest)
{
    size_t len = strlen(word);

    *rest = line + len + (line[len] == ' ');
    return strncmp(line, word, len) == 0 && (line[len] == ' ' || line[len] == '\0');
}

int all(const uint8_t *bytes, size_t len, uint8_t byte)
{
    while (len > 0 && bytes[len - 1] == byte) {
        len--;
    }
    return len == 0;
}

void read_file(void (*read_line)(char *line))
{
    static char line[ROOM];

    while (fgets(line, sizeof line, stdin) != NULL) {
        size_t len = strcspn(line, "\n");
        row++;
        if (line[len] == '\0') {
            malformed("the line is too long, or has no end");
        }
        line[len] = '\0';
        if (line[0] != '\0' && line[0] != '#') {
            read_line(line);
        }
    }
}
