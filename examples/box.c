/*
 * A box that runs on: reads ESC/P from standard input, in pieces as they come, and at each line fed tells what stands now
 * in each of a card's seven slots, and what was passed over since the last time. Where letters came since, a page that
 * ends is told too, as it was, before the next one, on which nothing stands. Input may go on for ever: the memory is all
 * there from the beginning.
 *
 *     box [DOTS [WIDTH]] < INPUT     at 300 dots to the inch, or 203, on paper of this width in 1/3600 inch
 *
 * It knows its card: a heading in the first row, whose number in a slot does not count as a word there, and words that
 * begin at their slot's tab stop and end before the next.
 * Where longer ones may come, a box must look at what stands beside a slot too, as the program card does.
 */
#define _POSIX_C_SOURCE 200809L /* for read */

#include "escp.h"

#include <errno.h>
#include <stdio.h>
#include <stdlib.h>
#include <string.h>
#include <unistd.h>

enum {
    PIECE = 4096,                /* bytes of input asked for at a time; fewer may come */
    SLOTS = 7,                   /* of a card: each begins at a tab stop, and goes up to the next */
    HEADING = 0,                 /* the row of a card in which the slots' numbers stand */
    MOST_DOTS = 2400,            /* across the widest paper at 300 to the inch: every letter's column is below */
    MOST_LETTERS = 4 * MOST_DOTS /* of a list: at most half of them are left where it is thinned */
};

/* The letters that stand on the present page, as they came, but for those that `thin` lets go. */
typedef struct list {
    uint8_t bytes[MOST_LETTERS * ESCP_RECORD_SIZE];
    size_t length;
    size_t shielded; /* as many bytes are there for good: no CL voids what stands before an LN */
} list;

/* What was passed over since it was last told. */
typedef struct passed {
    unsigned long count;
    uint8_t byte, reason; /* of the first */
} passed;

typedef struct box {
    escp_state state;
    list letters;
    passed passed;
} box;

static uint16_t column_of(const uint8_t *bytes)
{
    escp_record record;
    escp_fill_record(&record, bytes);
    return record.column;
}

/*
 * Lets go of each letter of a list that a newer one in the same column hides; gives the bytes left.
 *
 * escp_slot then answers the same for all columns, now and after whatever comes. Where the older letter lies in the
 * columns asked for, so does the newer one, which is found before it. A page turned takes both away. A CL takes both or
 * neither, as long as both stand before the last LN, or both after it. (So a letter before it is not let go for one
 * after it: where a CL voids that one, the older is the answer again.) Records other than TX count for nothing where no
 * LN turns a page and no CL comes behind them, so the list has none.
 */
static size_t thin(uint8_t *bytes, size_t length)
{
    static size_t newest[MOST_DOTS];
    size_t kept = 0;

    for (size_t at = 0; at < length; at += ESCP_RECORD_SIZE)
        newest[column_of(bytes + at)] = at;
    for (size_t at = 0; at < length; at += ESCP_RECORD_SIZE)
        if (newest[column_of(bytes + at)] == at) {
            memmove(bytes + kept, bytes + at, ESCP_RECORD_SIZE);
            kept += ESCP_RECORD_SIZE;
        }
    return kept;
}

/* A letter comes. Where there is no room, those since the last LN are thinned: as many as there are columns are left. */
static void add_letter(list *list, const uint8_t *bytes)
{
    if (list->length == sizeof list->bytes)
        list->length = list->shielded + thin(list->bytes + list->shielded, list->length - list->shielded);
    memcpy(list->bytes + list->length, bytes, ESCP_RECORD_SIZE);
    list->length += ESCP_RECORD_SIZE;
}

/* A line is fed: what came since the last LN is there for good, and hides what stood there before. */
static void shield(list *list)
{
    if (list->length > list->shielded)
        list->length = thin(list->bytes, list->length);
    list->shielded = list->length;
}

/* Whether a record turns the page, or sets a new top: another sheet. */
static int ends_page(const escp_record *record)
{
    return record->mark == ESCP_LN && record->pages > 0;
}

/* What a record, of these bytes, does to the list. */
static void take_record(list *list, const escp_record *record, const uint8_t *bytes)
{
    switch (record->mark) {
    case ESCP_TX:
        add_letter(list, bytes);
        break;
    case ESCP_LN:
        if (ends_page(record))
            list->length = list->shielded = 0;
        shield(list);
        break;
    case ESCP_CL:
        list->length = list->shielded;
        break;
    }
}

/* What an answer says is wrong, or NULL. */
static const char *problem_of(uint8_t answer)
{
    switch (answer) {
    case ESCP_INPUT_USED:
    case ESCP_OUTPUT_FULL:
        return NULL;
    case ESCP_SETTINGS_REFUSED:
        return "300 or 203 dots to the inch, paper of 7200 to 28800 units";
    default:
        return "an answer that the reader does not give here";
    }
}

/* The dot column at which a slot begins, counted from 0: its stop's, or past the last one the right margin's. */
static uint32_t begin_of(const escp_state *state, uint32_t slot)
{
    uint32_t units = state->right;
    if (slot < SLOTS && slot < state->columns.count) {
        uint32_t stop = state->left + state->columns.stops[slot] * state->column_width;
        if (stop < units)
            units = stop;
    }
    return escp_dot(units, state->dots_across);
}

/*
 * Finds the newest letter from a column up to another, which is not included; without one its mark is 0. (The list ends
 * with a record, so no answer but 0 comes.)
 */
static void find_letter(const list *list, uint32_t from, uint32_t end, escp_record *letter)
{
    escp_part part = {0, 0};
    if (from < end)
        escp_slot(list->bytes, list->length, (uint16_t)from, (uint16_t)(end - 1), &part);
    letter->mark = 0;
    if (part.length > 0)
        escp_fill_record(letter, list->bytes + part.offset);
}

/* A letter as it is told: what is no ASCII would want the code tables. */
static char sign_of(uint8_t byte)
{
    return byte >= 0x20 && byte <= 0x7E ? (char)byte : '?';
}

/* Whether a word is the number of its slot, counted from 1, in the heading. */
static int is_number(const char *word, uint16_t row, unsigned slot)
{
    return row == HEADING && word[0] == (char)('0' + slot) && word[1] == '\0';
}

/*
 * Tells what stands in a slot, from a column up to another. The newest letter is the last one. The letter before it is
 * the newest to the left of it, if in the same row, and so on.
 */
static void tell_word(const list *list, unsigned slot, uint32_t from, uint32_t end)
{
    char word[MOST_DOTS + 1];
    size_t at = MOST_DOTS;
    escp_record letter, first = {0};

    word[at] = '\0';
    find_letter(list, from, end, &letter);
    while (letter.mark == ESCP_TX && (at == MOST_DOTS || letter.row == first.row)) {
        first = letter;
        word[--at] = sign_of(letter.byte);
        find_letter(list, from, letter.column, &letter);
    }
    if (at == MOST_DOTS || is_number(word + at, first.row, slot))
        puts("nothing");
    else
        printf("%s at column %u, row %u\n", word + at, (unsigned)first.column, (unsigned)first.row);
}

static const char *reason_of(uint8_t reason)
{
    switch (reason) {
    case ESCP_UNLISTED:
        return "not listed";
    case ESCP_NOT_ALLOWED:
        return "an argument or a setting that is not allowed";
    case ESCP_PAST_LIMITS:
        return "past margin, page or stop limits";
    case ESCP_NO_FIT:
        return "does not fit";
    case ESCP_NO_STOP:
        return "no stop to the right";
    default:
        return "for another reason";
    }
}

/*
 * Tells what stands in each slot by the stops and margins of a state, after this word of why. The driver counts slots
 * from 1, the electricians from 0. Then what was passed over since it was last told.
 */
static void tell(box *box, const escp_state *state, const char *why)
{
    printf("%s, row %u\n", why, (unsigned)escp_dot(state->down, state->dots_down));
    for (unsigned slot = 0; slot < SLOTS; slot++) {
        printf("slot %u (electricians: %u): ", slot + 1, slot);
        tell_word(&box->letters, slot + 1, begin_of(state, slot), begin_of(state, slot + 1));
    }
    if (box->passed.count > 0)
        printf("passed over: %lu, the first %02Xh: %s\n", box->passed.count, (unsigned)box->passed.byte,
               reason_of(box->passed.reason));
    box->passed.count = 0;
}

static const char *feed_of(const escp_record *record)
{
    if (record->pages == ESCP_NEW_TOP)
        return "new top";
    return record->pages > 0 ? "page turned" : "line fed";
}

/*
 * Takes the records of a byte, before which the state was this one: letters to the list, and at each line fed tells the
 * slots. A line that ends with its page, or with ESC @, which sets other stops, is told before they are gone.
 */
static void take_records(box *box, const escp_state *before, const uint8_t *bytes, size_t length)
{
    for (size_t at = 0; at < length; at += ESCP_RECORD_SIZE) {
        escp_record record;
        escp_fill_record(&record, bytes + at);
        if (record.mark == ESCP_NO && box->passed.count++ == 0) {
            box->passed.byte = record.byte;
            box->passed.reason = record.reason;
        }
        if (ends_page(&record) && box->letters.length > box->letters.shielded)
            tell(box, before, "page ends");
        take_record(&box->letters, &record, bytes + at);
        if (record.mark == ESCP_LN)
            tell(box, &box->state, feed_of(&record));
    }
}

/*
 * Reads a piece of input by a call for each byte, so that the stops and margins in force before and after it are known.
 * What is wrong, or NULL.
 */
static const char *take_piece(box *box, const uint8_t *input, size_t length)
{
    const char *problem = NULL;
    for (size_t at = 0; problem == NULL && at < length; at++) {
        uint8_t out[ESCP_ROOM];
        escp_counts counts;
        escp_state before = box->state;
        problem = problem_of(escp_read(&box->state, input + at, 1, SIZE_MAX, out, sizeof out, &counts));
        take_records(box, &before, out, counts.written);
    }
    return problem;
}

/* Reads all that comes. What was told is written before more is waited for. What is wrong, or NULL. */
static const char *run(box *box, int input)
{
    uint8_t bytes[PIECE];
    const char *problem = NULL;
    for (;;) {
        ssize_t length = read(input, bytes, sizeof bytes);
        if (length < 0 && errno == EINTR)
            continue;
        if (length < 0)
            return strerror(errno);
        if (length == 0)
            tell(box, &box->state, box->state.kind == ESCP_NOTHING ? "end of input" : "end of input, within a command");
        else
            problem = take_piece(box, bytes, (size_t)length);
        if (problem == NULL && fflush(stdout) != 0)
            problem = strerror(errno);
        if (problem != NULL || length == 0)
            return problem;
    }
}

/* A word as a number; 0, which no start takes, if it is none. */
static uint32_t number(const char *word)
{
    char *end;
    unsigned long value = strtoul(word, &end, 10);
    return *word >= '0' && *word <= '9' && *end == '\0' && value <= UINT32_MAX ? (uint32_t)value : 0;
}

int main(int argc, char **argv)
{
    static box box;
    escp_settings settings = {300, 0, 28800};
    const char *problem = argc > 3 ? "takes dots to the inch and a width at most" : NULL;

    if (argc > 1)
        settings.resolution = number(argv[1]);
    if (argc > 2)
        settings.width = number(argv[2]);
    if (problem == NULL)
        problem = problem_of(escp_start(&box.state, &settings));
    if (problem == NULL)
        problem = run(&box, STDIN_FILENO);
    if (problem != NULL)
        fprintf(stderr, "box: %s\n", problem);
    return problem != NULL;
}
