/*
 * Makes the calls that standard input lists and writes what came back from each, a line for a line. The lines of both are told
 * in compare/src/bin/calls.rs, which writes the calls, and what came back from them on x86-64. Where a call wrote past what it
 * says, or beside its output, the line ends in "past".
 */
#define _POSIX_C_SOURCE 200809L
#include "escp.h"
#include <errno.h>
#include <stdio.h>
#include <stdlib.h>
#include <string.h>

enum {
    FILL = 0xE5, /* what every output byte is before a call */
    BESIDE = 64  /* bytes before and after an output that are looked at too */
};

/* Added to a column, whose parameter has sixteen bits: what a register has above them must not count. Volatile, to be added. */
static volatile size_t above = 0xA50000;

_Static_assert(sizeof(escp_state) == 4 * ESCP_REGISTERS, "a state has no padding");
_Static_assert(sizeof(size_t) == 8, "lengths have 64 bits");

static unsigned long line_number;

static void stop(const char *problem)
{
    fprintf(stderr, "calls: line %lu: %s\n", line_number, problem);
    exit(2);
}

static void *memory(size_t length)
{
    void *bytes = malloc(length);
    if (bytes == NULL)
        stop("there is not enough memory");
    return bytes;
}

/* The next number of a line. */
static size_t number(char **at)
{
    char *end;
    errno = 0;
    size_t value = strtoul(*at, &end, 10);
    if (end == *at || errno != 0)
        stop("a number is missing, or too large");
    *at = end;
    return value;
}

static int digit(char letter)
{
    if (letter >= '0' && letter <= '9')
        return letter - '0';
    if (letter >= 'a' && letter <= 'f')
        return letter - 'a' + 10;
    return -1;
}

/* The bytes at the end of a line, for the caller to free. */
static uint8_t *bytes_of(char *at, size_t *length)
{
    at += strspn(at, " ");
    size_t digits = strcmp(at, "-") == 0 ? 0 : strlen(at);
    uint8_t *bytes = memory(digits / 2 + 1);
    for (size_t index = 0; index < digits / 2; index++) {
        int high = digit(at[2 * index]), low = digit(at[2 * index + 1]);
        if (high < 0 || low < 0)
            stop("the bytes are not in hex");
        bytes[index] = (uint8_t)(16 * high + low);
    }
    if (digits % 2 != 0)
        stop("the bytes are not in hex");
    *length = digits / 2;
    return bytes;
}

static void print_bytes(const uint8_t *bytes, size_t length)
{
    static const char digits[] = "0123456789abcdef";
    for (size_t index = 0; index < length; index++) {
        putchar_unlocked(digits[bytes[index] >> 4]);
        putchar_unlocked(digits[bytes[index] & 15]);
    }
    if (length == 0)
        putchar_unlocked('-');
}

/* An output of so many bytes, all FILL as those beside it, for the caller to free from BESIDE before it on. */
static uint8_t *output(size_t room)
{
    uint8_t *bytes = memory(room + 2 * BESIDE);
    memset(bytes, FILL, room + 2 * BESIDE);
    return bytes + BESIDE;
}

/* Prints what was written to an output, and frees it. */
static void print_output(uint8_t *out, size_t room, size_t written)
{
    size_t before = 0, after = written;
    print_bytes(out, written <= room ? written : room);
    while (before < BESIDE && *(out - 1 - before) == FILL)
        before++;
    while (after < room + BESIDE && out[after] == FILL)
        after++;
    if (before != BESIDE || after != room + BESIDE)
        printf(" past");
    free(out - BESIDE);
}

/* Prints the registers that a call has changed. */
static void print_changes(const escp_state *state, const escp_state *old)
{
    uint32_t now[ESCP_REGISTERS], before[ESCP_REGISTERS];
    memcpy(now, state, sizeof now);
    memcpy(before, old, sizeof before);
    for (unsigned index = 0; index < ESCP_REGISTERS; index++)
        if (now[index] != before[index])
            printf(" %u=%lu", index, (unsigned long)now[index]);
}

static void start(escp_state *state, char *at)
{
    escp_state before = *state;
    escp_settings settings;
    settings.resolution = (uint32_t)number(&at);
    settings.auto_feed = (uint32_t)number(&at);
    settings.width = (uint32_t)number(&at);
    printf("%d", escp_start(state, &settings));
    print_changes(state, &before);
}

static void reading(escp_state *state, char *at)
{
    escp_state before = *state;
    escp_counts counts;
    size_t allowance = number(&at), room = number(&at), length;
    uint8_t *input = bytes_of(at, &length), *out = output(room);
    int answer = escp_read(state, input, length, allowance, out, room, &counts);
    printf("%d %zu %zu ", answer, counts.read, counts.written);
    print_output(out, room, counts.written);
    print_changes(state, &before);
    free(input);
}

static void slot(char *at)
{
    escp_part part;
    size_t from = number(&at) + above, to = number(&at) + above, length;
    uint8_t *records = bytes_of(at, &length);
    int answer = escp_slot(records, length, (uint16_t)from, (uint16_t)to, &part);
    printf("%d %zu %zu", answer, part.offset, part.length);
    free(records);
}

static void card(char *at)
{
    size_t room = number(&at), length, written;
    uint8_t *letters = bytes_of(at, &length), *out = output(room);
    int answer = escp_write(letters, length, out, room, &written);
    printf("%d %zu ", answer, written);
    print_output(out, room, written);
    free(letters);
}

static void set_all(escp_state *state, char *at)
{
    uint32_t registers[ESCP_REGISTERS];
    for (unsigned index = 0; index < ESCP_REGISTERS; index++)
        registers[index] = (uint32_t)number(&at);
    memcpy(state, registers, sizeof registers);
    printf("state");
}

/* What comes after a word at the beginning of a line; NULL if it is another. */
static char *after(char *line, const char *word)
{
    size_t length = strlen(word);
    return strncmp(line, word, length) == 0 ? line + length : NULL;
}

static void perform(escp_state *state, char *line)
{
    char *at;
    if (strcmp(line, "list") == 0) {
        memset(state, 0, sizeof *state);
        printf("list");
    } else if ((at = after(line, "state ")) != NULL) {
        set_all(state, at);
    } else if ((at = after(line, "start ")) != NULL) {
        start(state, at);
    } else if ((at = after(line, "read ")) != NULL) {
        reading(state, at);
    } else if ((at = after(line, "slot ")) != NULL) {
        slot(at);
    } else if ((at = after(line, "write ")) != NULL) {
        card(at);
    } else {
        stop("this is no call");
    }
    putchar('\n');
}

int main(int count, char **words)
{
    escp_state state;
    char *line = NULL;
    size_t room = 0;
    ssize_t length;
    (void)words;
    if (count != 1) {
        fprintf(stderr, "calls: takes no argument, and the calls on standard input\n");
        return 2;
    }
    memset(&state, 0, sizeof state);
    while ((length = getline(&line, &room, stdin)) > 0) {
        line_number++;
        if (line[length - 1] == '\n')
            line[length - 1] = '\0';
        perform(&state, line);
    }
    free(line);
    if (ferror(stdin) || fflush(stdout) != 0) {
        fprintf(stderr, "calls: reading or writing failed\n");
        return 1;
    }
    return 0;
}
