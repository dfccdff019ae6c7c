/* What needs no archive: the published vectors of SHA-256 (FIPS 180-4's examples), rows of progress for every width,
 * escaped texts, numbers, speeds and the words for refusals. */
#include <stdio.h>
#include <stdlib.h>
#include <string.h>

#include "line.h"
#include "progress.h"
#include "sha256.h"

const char program[] = "vectors";

/* Compares the SHA-256 of a message with the published one; gives 1 where they differ. */
static int differs(const char *name, const uint8_t *bytes, size_t len, const char *wanted)
{
    uint8_t digest[32];
    char hex[65];

    sha256(bytes, len, digest);
    for (int i = 0; i < 32; i++) {
        snprintf(hex + 2 * i, 3, "%02x", digest[i]);
    }
    if (strcmp(hex, wanted) == 0) {
        return 0;
    }
    printf("SHA-256 of %s: %s, not %s\n", name, hex, wanted);
    return 1;
}

/* Writes rows of progress for a width; gives 1 where one has another width or a byte after it changed. */
static int shows_badly(size_t columns)
{
    static const struct progress all[] = {
        {0, 1, 0, 0, 0},
        {1, 1, 0, 1, 0},
        {500, 1000, 0, 2000, 3},
        {500, 1000, 500, 2000, 3},
        {1, 1048576, 0, 600000, 4294967295u},
        {1048576, 1048576, 1048576, UINT64_MAX / 1048576 / 1000, 1},
    };
    char row[PROGRESS_ROOM];

    for (size_t i = 0; i < sizeof all / sizeof all[0]; i++) {
        memset(row, '!', sizeof row);
        progress_row(row, columns, &all[i]);
        if (strlen(row) != columns || (columns + 1 < sizeof row && row[columns + 1] != '!')) {
            printf("a row of %zu columns: '%s'\n", columns, row);
            return 1;
        }
    }
    return 0;
}

/* Compares a text with the one that is wanted; gives 1 where they differ. */
static int text_differs(const char *what, const char *text, const char *wanted)
{
    if (strcmp(text, wanted) == 0) {
        return 0;
    }
    printf("%s: '%s', not '%s'\n", what, text, wanted);
    return 1;
}

/* Compares words of progress, with speed and time left. */
static int words_differ(void)
{
    char words[PROGRESS_ROOM];
    int bad = 0;

    progress_words(words, 100, &(struct progress){6000, 20000, 1000, 2000, 3});
    bad += text_differs("words", words, "30%, 6000 of 20000 bytes, 2.5 kB/s, 0:06 left, 3 retries");
    progress_words(words, 40, &(struct progress){6000, 20000, 1000, 2000, 3});
    bad += text_differs("40 columns", words, "30%, 2.5 kB/s, 0:06 left");
    progress_words(words, 100, &(struct progress){1, 20000, 0, 1000, 0});
    bad += text_differs("hours", words, "0%, 1 of 20000 bytes, 0.0 kB/s, 5:33:19 left, 0 retries");
    progress_words(words, 100, &(struct progress){0, 20000, 0, 9000, 4});
    return bad + text_differs("silence", words, "0%, 0 of 20000 bytes, 4 retries");
}

/* Compares escaped bytes, numbers, speeds and times of the line. */
static int small_things_differ(void)
{
    static const uint8_t bytes[] = {0, 'a', 0x1B, ' ', '~', 0x7F, 0xFF, '\\'};
    char text[4 * sizeof bytes + 1];
    uint64_t number = 7;
    int bad = 0;

    escape(text, bytes, sizeof bytes);
    bad += text_differs("escaped", text, "\\x00a\\x1b ~\\x7f\\xff\\\\");
    escape(text, bytes, 0);
    bad += text_differs("escaped nothing", text, "");
    bad += read_number("", 10, &number) || read_number("-1", 10, &number) || read_number("11", 10, &number) ||
           read_number("1x", 10, &number) || read_number("18446744073709551616", UINT64_MAX, &number) || number != 7;
    bad += !read_number("18446744073709551615", UINT64_MAX, &number) || number != UINT64_MAX;
    bad += !read_number("10", 10, &number) || number != 10;
    bad += !known_speed(9600) || known_speed(0) || known_speed(9601);
    bad += line_ms(9600, 960) != 1100 || line_ms(0, 960) != 0 || line_ms(115200, 1) != 1;
    if (bad > 0) {
        printf("%d of the small things differ\n", bad);
    }
    return bad;
}

/* Compares the words for the refusal of a line: bad text with its place, others as they are without one. */
static int refusals_differ(void)
{
    int bad = 0;

    bad += text_differs("bad text", line_refusal_words(4, 17, 30), "the text at place 17 is not Base64");
    bad += text_differs("bad text, last", line_refusal_words(4, 125, 127), "the text at place 125 is not Base64");
    bad += text_differs("short text", line_refusal_words(4, 5, 6), "the text ends too early, at place 5");
    bad += text_differs("short text, full", line_refusal_words(4, 126, 127), "the text ends too early, at place 126");
    for (uint32_t refusal = 0; refusal < 15; refusal++) {
        if (refusal != 4) {
            bad += text_differs("another refusal", line_refusal_words(refusal, 17, 18), refusal_words(refusal));
        }
    }
    return bad;
}

/* Runs the vectors. */
int main(void)
{
    const char *two = "abcdbcdecdefdefgefghfghighijhijkijkljklmklmnlmnomnopnopq";
    const char *four = "abcdefghbcdefghicdefghijdefghijkefghijklfghijklmghijklmnhijklmno"
                       "ijklmnopjklmnopqklmnopqrlmnopqrsmnopqrstnopqrstu";
    uint8_t *million = malloc(1000000);
    int bad = 0;

    if (million == NULL) {
        return 1;
    }
    memset(million, 'a', 1000000);
    bad += differs("nothing", NULL, 0, "e3b0c44298fc1c149afbf4c8996fb92427ae41e4649b934ca495991b7852b855");
    bad += differs("abc", (const uint8_t *)"abc", 3,
                   "ba7816bf8f01cfea414140de5dae2223b00361a396177a9cb410ff61f20015ad");
    bad += differs("448 bits", (const uint8_t *)two, strlen(two),
                   "248d6a61d20638b8e5c026930c3e6039a33ce45964ff2167f6ecedd419db06c1");
    bad += differs("896 bits", (const uint8_t *)four, strlen(four),
                   "cf5b16a778af8380036ce59e7b0492370b249b11e8f07a51afac45037afee9d1");
    bad += differs("a million a", million, 1000000,
                   "cdc76e5c9914fb9281a1c7e284d73e67f1809a48a497200e046d39ccc7112cd0");
    free(million);
    for (size_t columns = 0; columns < PROGRESS_ROOM; columns++) {
        bad += shows_badly(columns);
    }
    bad += words_differ();
    bad += small_things_differ();
    bad += refusals_differ();
    return bad == 0 ? 0 : 1;
}
