/* Reads lines of four tapes in hex digits, HEX / HEX / HEX / HEX, from standard input: scheme, opening, certificate and
 * bans. Hands each line's tapes to kiosk_check, and prints the answer in decimal on a line of its own. */
#define _POSIX_C_SOURCE 200809L

#include <inttypes.h>
#include <stdio.h>
#include <stdlib.h>
#include <sys/types.h>

#include "../../include/kiosk.h"

struct tape {
    uint8_t *bytes;
    size_t len;
};

static int digit(char c)
{
    if (c >= '0' && c <= '9')
        return c - '0';
    if (c >= 'A' && c <= 'F')
        return c - 'A' + 10;
    if (c >= 'a' && c <= 'f')
        return c - 'a' + 10;
    return -1;
}

/* Reads pairs of digits, with spaces between them, up to what is no pair, and goes on from there. */
static struct tape read_tape(const char **text, size_t most)
{
    /* In the end each tape has memory of its own, just as long as it is, so that a checked run shows a read past it. */
    struct tape tape = {malloc(most > 0 ? most : 1), 0};
    if (tape.bytes == NULL)
        return tape;
    for (;;) {
        while (**text == ' ')
            ++*text;
        int high = digit(**text);
        int low = high < 0 ? -1 : digit((*text)[1]);
        if (low < 0)
            break;
        tape.bytes[tape.len++] = (uint8_t)(high << 4 | low);
        *text += 2;
    }
    uint8_t *fitted = realloc(tape.bytes, tape.len > 0 ? tape.len : 1);
    if (fitted != NULL)
        tape.bytes = fitted;
    return tape;
}

/* Prints what a line's four tapes are answered. Says no where they can't be read. */
static int answer(const char *line, size_t length)
{
    struct tape tapes[4] = {{NULL, 0}};
    const char *text = line;
    int is_read = 1;
    for (size_t i = 0; i < 4; ++i) {
        tapes[i] = read_tape(&text, length / 2);
        char end = i < 3 ? '/' : '\n';
        is_read = is_read && tapes[i].bytes != NULL && *text == end;
        if (is_read)
            ++text;
    }
    if (is_read) {
        uint32_t code = kiosk_check(tapes[0].bytes, tapes[0].len, tapes[1].bytes, tapes[1].len,
                                    tapes[2].bytes, tapes[2].len, tapes[3].bytes, tapes[3].len);
        printf("%" PRIu32 "\n", code);
    }
    for (size_t i = 0; i < 4; ++i)
        free(tapes[i].bytes);
    return is_read;
}

int main(void)
{
    char *line = NULL;
    size_t room = 0;
    ssize_t length;
    int status = EXIT_SUCCESS;
    while (status == EXIT_SUCCESS && (length = getline(&line, &room, stdin)) > 0) {
        if (!answer(line, (size_t)length)) {
            fputs("a line is not four tapes\n", stderr);
            status = EXIT_FAILURE;
        }
    }
    if (ferror(stdin) || fflush(stdout) != 0)
        status = EXIT_FAILURE;
    free(line);
    return status;
}
