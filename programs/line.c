/* What the programs share: a raw serial line and its speed, waiting with a limit, the end by a signal, and the words
 * for numbers. */
#define _GNU_SOURCE
#include "line.h"

#include <errno.h>
#include <fcntl.h>
#include <poll.h>
#include <stdarg.h>
#include <stdio.h>
#include <stdlib.h>
#include <string.h>
#include <time.h>
#include <unistd.h>

#include "belagunthi.h"

/* The speeds that have a name, and the fastest that every machine and emulator has. */
static const struct {
    uint64_t baud;
    speed_t name;
} speeds[] = {
    {1200, B1200},       {2400, B2400},       {4800, B4800},       {9600, B9600},       {19200, B19200},
    {38400, B38400},     {57600, B57600},     {115200, B115200},   {230400, B230400},   {460800, B460800},
    {500000, B500000},   {576000, B576000},   {921600, B921600},   {1000000, B1000000}, {1152000, B1152000},
    {1500000, B1500000}, {2000000, B2000000}, {2500000, B2500000}, {3000000, B3000000}, {3500000, B3500000},
    {4000000, B4000000},
};
enum { SPEEDS = sizeof speeds / sizeof speeds[0], FASTEST = 460800 };

/* The bits that a byte takes on the line: a start bit, eight, a stop bit, and one for clocks that differ. */
enum { BITS_A_BYTE = 11 };

volatile sig_atomic_t stop_signal;

/* Sees to it that standard input, output and error are open, so that no port or file takes their place. */
void keep_standard(void)
{
    int fd;

    do {
        fd = open("/dev/null", O_RDWR);
    } while (fd >= 0 && fd <= STDERR_FILENO);
    if (fd >= 0) {
        close(fd);
    }
}

/* Notes which signal asked for the end. */
static void note_stop(int number)
{
    stop_signal = number;
}

/* Lets the signals that ask for the end set stop_signal, unless they are ignored, and ignores broken pipes. */
void catch_stops(void)
{
    static const int stops[] = {SIGHUP, SIGINT, SIGQUIT, SIGTERM};
    struct sigaction note = {.sa_handler = note_stop};
    struct sigaction had;

    for (size_t i = 0; i < sizeof stops / sizeof stops[0]; i++) {
        if (sigaction(stops[i], NULL, &had) == 0 && had.sa_handler != SIG_IGN) {
            sigaction(stops[i], &note, NULL);
        }
    }
    signal(SIGPIPE, SIG_IGN);
}

/* The milliseconds of a clock that never goes back. */
uint64_t now_ms(void)
{
    struct timespec now = {0, 0};

    clock_gettime(CLOCK_MONOTONIC, &now);
    return (uint64_t)now.tv_sec * 1000 + (uint64_t)now.tv_nsec / 1000000;
}

/* Says whether a terminal can be set to so many bits a second. */
bool known_speed(uint64_t baud)
{
    for (size_t i = 0; i < SPEEDS; i++) {
        if (speeds[i].baud == baud) {
            return true;
        }
    }
    return false;
}

/* The bits a second that a terminal is set to; 0 where that is no speed with a name. */
uint64_t speed_of(int fd)
{
    struct termios mode;

    for (size_t i = 0; tcgetattr(fd, &mode) == 0 && i < SPEEDS; i++) {
        if (speeds[i].name == cfgetospeed(&mode)) {
            return speeds[i].baud;
        }
    }
    return 0;
}

/* The milliseconds that bytes take on a line of so many bits a second, rounded up; 0 where the speed is 0. */
uint64_t line_ms(uint64_t baud, size_t bytes)
{
    return baud == 0 ? 0 : ((uint64_t)bytes * BITS_A_BYTE * 1000 + baud - 1) / baud;
}

/* Sets a terminal to raw bytes and to a speed, or keeps its speed for 0, and gives the settings that it had; 0 where
 * that went well, else -1 with errno. */
int make_raw(int fd, uint64_t baud, struct termios *found)
{
    struct termios mode;

    if (tcgetattr(fd, found) != 0) {
        return -1;
    }
    mode = *found;
    cfmakeraw(&mode);
    mode.c_cflag |= CLOCAL | CREAD;
    mode.c_cc[VMIN] = 1;
    mode.c_cc[VTIME] = 0;
    for (size_t i = 0; i < SPEEDS; i++) {
        if (speeds[i].baud == baud && cfsetspeed(&mode, speeds[i].name) != 0) {
            return -1;
        }
    }
    if (tcsetattr(fd, TCSANOW, &mode) != 0) {
        return -1;
    }
    if (baud != 0 && speed_of(fd) != baud) {
        errno = EINVAL;
        return -1;
    }
    return 0;
}

/* Opens a pseudo-terminal, raw, of a speed (0: the fastest) and not blocking, and its far end, so that hosts may come
 * and go; gives its path, or NULL with errno. */
const char *open_pty(int *master, int *slave, uint64_t baud)
{
    struct termios found;
    const char *path;

    *master = posix_openpt(O_RDWR | O_NOCTTY | O_CLOEXEC);
    if (*master < 0 || grantpt(*master) != 0 || unlockpt(*master) != 0) {
        return NULL;
    }
    path = ptsname(*master);
    *slave = path == NULL ? -1 : open(path, O_RDWR | O_NOCTTY | O_CLOEXEC);
    if (*slave < 0 || make_raw(*slave, baud == 0 ? FASTEST : baud, &found) != 0 ||
        fcntl(*master, F_SETFL, O_NONBLOCK) != 0) {
        return NULL;
    }
    return path;
}

/* Writes a path and a line end to a file, which is there whole or not at all; false with errno. */
bool write_port_file(const char *file, const char *path)
{
    char *draft;
    FILE *out;
    bool good;

    if (asprintf(&draft, "%s.draft", file) < 0) {
        return false;
    }
    out = fopen(draft, "w");
    good = out != NULL && fprintf(out, "%s\n", path) > 0;
    good = out != NULL && fclose(out) == 0 && good && rename(draft, file) == 0;
    if (!good && out != NULL) {
        int why = errno;
        unlink(draft);
        errno = why;
    }
    free(draft);
    return good;
}

/* Writes all bytes to a descriptor that does not block, waiting at most limit_ms for each next one to be taken. */
enum written write_all(int fd, const uint8_t *bytes, size_t len, uint64_t limit_ms)
{
    uint64_t until = now_ms() + limit_ms;

    while (len > 0) {
        ssize_t done = write(fd, bytes, len);
        if (done > 0) {
            bytes += done;
            len -= (size_t)done;
            until = now_ms() + limit_ms;
            continue;
        }
        if (done < 0 && errno != EAGAIN && errno != EINTR) {
            return WRITE_FAILED;
        }
        uint64_t now = now_ms();
        if (now >= until || stop_signal != 0) {
            return WRITE_TIME_UP;
        }
        struct pollfd wait = {.fd = fd, .events = POLLOUT};
        if (poll(&wait, 1, until - now < SLICE_MS ? (int)(until - now) : SLICE_MS) < 0 && errno != EINTR) {
            return WRITE_FAILED;
        }
        if ((wait.revents & (POLLERR | POLLHUP | POLLNVAL)) != 0) {
            errno = EIO;
            return WRITE_FAILED;
        }
    }
    return WRITTEN;
}

/* Writes bytes as a text of printable characters to out, which has room for 4 characters a byte and one more. */
void escape(char *out, const uint8_t *bytes, size_t len)
{
    static const char digits[] = "0123456789abcdef";

    for (size_t i = 0; i < len; i++) {
        if (bytes[i] >= ' ' && bytes[i] <= '~' && bytes[i] != '\\') {
            *out++ = (char)bytes[i];
            continue;
        }
        *out++ = '\\';
        if (bytes[i] == '\\') {
            *out++ = '\\';
        } else {
            *out++ = 'x';
            *out++ = digits[bytes[i] >> 4];
            *out++ = digits[bytes[i] & 15];
        }
    }
    *out = '\0';
}

/* Reads a decimal number from 0 to most that is the whole text; false where it is not one. */
bool read_number(const char *text, uint64_t most, uint64_t *number)
{
    uint64_t value = 0;

    if (*text == '\0') {
        return false;
    }
    for (; *text != '\0'; text++) {
        if (*text < '0' || *text > '9') {
            return false;
        }
        uint64_t digit = (uint64_t)(*text - '0');
        if (value > most / 10 || value * 10 > most - digit) {
            return false;
        }
        value = value * 10 + digit;
    }
    *number = value;
    return true;
}

/* Ends the program for bad usage, with one line on standard error. */
void end_usage(const char *format, ...)
{
    va_list words;

    va_start(words, format);
    fprintf(stderr, "%s: ", program);
    vfprintf(stderr, format, words);
    fprintf(stderr, "\n");
    va_end(words);
    exit(END_USAGE);
}

/* Ends the program with a code after all that it printed, or for file trouble where that could not be written. */
void end_printed(int code)
{
    if (ferror(stdout) != 0 || fflush(stdout) != 0) {
        fprintf(stderr, "%s: standard output could not be written: %s\n", program, strerror(errno));
        exit(END_FILE);
    }
    exit(code);
}

/* Ends the program after its version. */
void end_version(void)
{
    printf("%s (Belagunthi) %s\n", program, BG_VERSION_TEXT);
    end_printed(END_DONE);
}

/* Reads a number from least to most that an option was given, or ends the program for bad usage. */
uint64_t number_of(const char *option, const char *text, uint64_t least, uint64_t most)
{
    uint64_t number;

    if (!read_number(text, most, &number) || number < least) {
        end_usage("--%s wants a number from %llu to %llu, not '%s'", option, (unsigned long long)least,
                  (unsigned long long)most, text);
    }
    return number;
}

/* Reads a speed that an option was given, or ends the program for bad usage. */
uint64_t speed_given(const char *option, const char *text)
{
    uint64_t baud;

    if (!read_number(text, UINT64_MAX, &baud) || !known_speed(baud)) {
        end_usage("--%s wants a speed of serial lines, as 9600, 19200, 57600 or 115200, not '%s'", option, text);
    }
    return baud;
}

/* The words for a refusal's number, as in belagunthi.h. */
const char *refusal_words(uint32_t refusal)
{
    static const char *const words[] = {
        "no refusal",
        "the layout, the session record or the collector's record is impossible",
        "the line is over 127 bytes",
        "the line is under 3 bytes, has no marker, or no 0A at its end",
        "the line's text is not well-formed Base64",
        "a partial frame, and no packet is open",
        "an initial frame with under 2 raw bytes, or a total under 10",
        "the body is longer than the packet buffer",
        "more bytes came than total says",
        "the CRC differs",
        "not a packet of the kind asked for",
        "the reply buffer is under 32 bytes",
        "what the sender or a writer cannot send; a lump over 256 bytes; no recording",
        "the frame number is not below the frame count",
    };

    return refusal < sizeof words / sizeof words[0] ? words[refusal] : "a refusal of no known number";
}

/* The words for the refusal of a line of so many bytes: bad text with its place in the line, which is that of the 0A
 * where the text is only too short. They stand until the next call. */
const char *line_refusal_words(uint32_t refusal, uint32_t place, size_t line_len)
{
    static char words[64];

    if (refusal != BG_BAD_TEXT) {
        return refusal_words(refusal);
    }
    if (place + 1u == line_len) {
        snprintf(words, sizeof words, "the text ends too early, at place %u", place);
    } else {
        snprintf(words, sizeof words, "the text at place %u is not Base64", place);
    }
    return words;
}

/* The name of a return code, from the protocol's list. */
const char *rc_name(uint32_t rc)
{
    static const char *const names[] = {
        "MGMT_ERR_EOK, success",
        "MGMT_ERR_EUNKNOWN, unknown error",
        "MGMT_ERR_ENOMEM, out of memory",
        "MGMT_ERR_EINVAL, invalid value",
        "MGMT_ERR_ETIMEOUT, operation timed out",
        "MGMT_ERR_ENOENT, no such entry",
        "MGMT_ERR_EBADSTATE, bad state for the operation",
        "MGMT_ERR_EMSGSIZE, response too large",
        "MGMT_ERR_ENOTSUP, operation not supported",
        "MGMT_ERR_ECORRUPT, data corruption detected",
        "MGMT_ERR_EBUSY, resource busy",
        "MGMT_ERR_EACCESSDENIED, access denied",
        "MGMT_ERR_UNSUPPORTED_TOO_OLD, unsupported format, too old",
        "MGMT_ERR_UNSUPPORTED_TOO_NEW, unsupported format, too new",
    };

    return rc < sizeof names / sizeof names[0] ? names[rc] : "a code that the protocol does not name";
}
