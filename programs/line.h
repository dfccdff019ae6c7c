/* What the programs share: a raw serial line and its speed, waiting with a limit, the end by a signal, and the words
 * for numbers. */
#ifndef LINE_H
#define LINE_H

#include <signal.h>
#include <stdbool.h>
#include <stddef.h>
#include <stdint.h>
#include <termios.h>

/* No wait is longer without a look at stop_signal. */
#define SLICE_MS 250

/* The exit codes that the programs share; each has its own besides. */
enum { END_DONE = 0, END_USAGE = 2, END_FILE = 3, END_PORT = 4, END_REFUSED = 7 };

/* What became of bytes that were to be written. */
enum written { WRITTEN, WRITE_TIME_UP, WRITE_FAILED };

/* The program's name, for its messages; each program defines it. */
extern const char program[];

/* The signal that asked for the end, or 0. */
extern volatile sig_atomic_t stop_signal;

/* Sees to it that standard input, output and error are open, so that no port or file takes their place. */
void keep_standard(void);

/* Lets the signals that ask for the end set stop_signal, unless they are ignored, and ignores broken pipes. */
void catch_stops(void);

/* The milliseconds of a clock that never goes back. */
uint64_t now_ms(void);

/* Says whether a terminal can be set to so many bits a second. */
bool known_speed(uint64_t baud);

/* The bits a second that a terminal is set to; 0 where that is no speed with a name. */
uint64_t speed_of(int fd);

/* The milliseconds that bytes take on a line of so many bits a second, rounded up; 0 where the speed is 0. */
uint64_t line_ms(uint64_t baud, size_t bytes);

/* Sets a terminal to raw bytes and to a speed, or keeps its speed for 0, and gives the settings that it had; 0 where
 * that went well, else -1 with errno. */
int make_raw(int fd, uint64_t baud, struct termios *found);

/* Opens a pseudo-terminal, raw, of a speed (0: the fastest) and not blocking, and its far end, so that hosts may come
 * and go; gives its path, or NULL with errno. */
const char *open_pty(int *master, int *slave, uint64_t baud);

/* Writes a path and a line end to a file, which is there whole or not at all; false with errno. */
bool write_port_file(const char *file, const char *path);

/* Writes all bytes to a descriptor that does not block, waiting at most limit_ms for each next one to be taken. */
enum written write_all(int fd, const uint8_t *bytes, size_t len, uint64_t limit_ms);

/* Writes bytes as a text of printable characters to out, which has room for 4 characters a byte and one more. */
void escape(char *out, const uint8_t *bytes, size_t len);

/* Reads a decimal number from 0 to most that is the whole text; false where it is not one. */
bool read_number(const char *text, uint64_t most, uint64_t *number);

/* Reads a number from least to most that an option was given, or ends the program for bad usage. */
uint64_t number_of(const char *option, const char *text, uint64_t least, uint64_t most);

/* Reads a speed that an option was given, or ends the program for bad usage. */
uint64_t speed_given(const char *option, const char *text);

/* Ends the program for bad usage, with one line on standard error. */
void end_usage(const char *format, ...) __attribute__((format(printf, 1, 2), noreturn));

/* Ends the program with a code after all that it printed, or for file trouble where that could not be written. */
void end_printed(int code) __attribute__((noreturn));

/* Ends the program after its version. */
void end_version(void) __attribute__((noreturn));

/* The words for a refusal's number, as in belagunthi.h. */
const char *refusal_words(uint32_t refusal);

/* The same for the refusal of a line of so many bytes: bad text with its place in the line. They stand until the next
 * call. */
const char *line_refusal_words(uint32_t refusal, uint32_t place, size_t line_len);

/* The name of a return code, from the protocol's list. */
const char *rc_name(uint32_t rc);

#endif
