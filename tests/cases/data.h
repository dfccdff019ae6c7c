/* Reads a data file of cases line by line: what the programs that run cases share. */
#ifndef DATA_H
#define DATA_H

#include <stddef.h>
#include <stdint.h>

/* A longer line, or more bytes in one, is refused. */
enum { ROOM = 65536 };

/* Ends the program: the data file is not as its head says. */
_Noreturn void malformed(const char *what);

/* The word that a text begins with; the text goes on behind it. */
char *word(char **text);

/* The number that a text begins with, at most this; the text goes on behind it. */
uint64_t number(char **text, uint64_t most);

/* The number that is the whole of a text, at most this. */
uint64_t last_number(char *text, uint64_t most);

/* Reads bytes in hex, or - for none; gives how many they are. */
size_t bytes_of(const char *text, uint8_t bytes[ROOM]);

/* Fills bytes by the rule that data files name: byte i is i * 7 + 3, of which the lowest eight bits. */
void by_rule(uint8_t *bytes, size_t len);

/* Says whether a line begins with a word, and where the words behind it are. */
int begins(char *line, const char *word, char **rest);

/* Says whether some bytes are all the same one. */
int all(const uint8_t *bytes, size_t len, uint8_t byte);

/* Reads the data file on standard input, and hands on each line that says something. */
void read_file(void (*read_line)(char *line));

#endif
