/*
 * Reads ESC/P from standard input in pieces of five bytes and shows the page as it stands at the end: its lines of
 * letters, how many bytes of images are on it, and what stands now in each of a card's seven slots.
 *
 *     card [DOTS [WIDTH]] < INPUT     at 300 dots to the inch, or 203, on paper of this width in 1/3600 inch
 */
#include "escp.h"

#include <stdbool.h>
#include <stdio.h>
#include <stdlib.h>

enum {
    PIECE = 5,       /* bytes of input to a call */
    MOST = 1000,     /* records */
    SLOTS = 7,       /* of a card: each begins at a tab stop, and goes up to the next */
    HEADING = 0,     /* the row of a card in which the slots' numbers stand */
    MOST_DOTS = 2400 /* across the paper, so that no word has more letters */
};

/* All records, in order. (Those of the pages before the present one could be let go.) */
typedef struct list {
    uint8_t bytes[MOST * ESCP_RECORD_SIZE];
    size_t length;
} list;

/* A page: its letters and its image bytes, in the order in which they were printed. */
typedef struct page {
    escp_record placed[MOST];
    size_t count;
    size_t line; /* as many of them are there for good: a CL voids only what came after */
} page;

/* What a record does to the page. */
static void take_record(page *page, const escp_record *record)
{
    switch (record->mark) {
    case ESCP_TX:
    case ESCP_IM:
        page->placed[page->count++] = *record;
        break;
    case ESCP_LN:
        /* A page turned, or a new top: another sheet. */
        if (record->pages > 0)
            page->count = 0;
        page->line = page->count;
        break;
    case ESCP_CL:
        page->count = page->line;
        break;
    }
}

/* The page that the records leave. There is room on it for each of them. */
static void take_list(page *page, const list *list)
{
    for (size_t at = 0; at < list->length; at += ESCP_RECORD_SIZE) {
        escp_record record;
        escp_fill_record(&record, list->bytes + at);
        take_record(page, &record);
    }
}

/* What an answer says is wrong, or NULL. */
static const char *problem_of(uint8_t answer)
{
    switch (answer) {
    case ESCP_INPUT_USED:
        return NULL;
    case ESCP_ALLOWANCE_USED:
        return "input is left over: the allowance is used";
    case ESCP_OUTPUT_FULL:
        return "input is left over: the list is full";
    case ESCP_SETTINGS_REFUSED:
        return "300 or 203 dots to the inch, paper of 7200 to 28800 units";
    case ESCP_STATE_REFUSED:
        return "the state is none that the reader left";
    case ESCP_LENGTH_REFUSED:
        return "the list ends within a record";
    default:
        return "an answer that is none of the reader's";
    }
}

/* Reads a piece of input; its records go to the list's end. What is wrong, or NULL. */
static const char *take_piece(list *list, escp_state *state, const uint8_t *input, size_t length)
{
    escp_counts counts;
    uint8_t answer = escp_read(state, input, length, length, list->bytes + list->length,
                               sizeof list->bytes - list->length, &counts);
    list->length += counts.written;
    return problem_of(answer);
}

/* Whether a letter stands apart from the one before it, by their exact places. */
static bool stands_apart(const escp_record *before, const escp_record *letter, uint32_t dots)
{
    uint32_t end = escp_place(before->column, before->rest, dots) + before->advance;
    return escp_place(letter->column, letter->rest, dots) > end;
}

/* Prints the lines of letters, and how many image bytes there are. */
static void print_lines(const page *page, uint32_t dots)
{
    const escp_record *before = NULL;
    size_t images = 0;
    for (size_t at = 0; at < page->count; at++) {
        const escp_record *placed = &page->placed[at];
        if (placed->mark != ESCP_TX) {
            images++;
            continue;
        }
        if (before == NULL || before->row != placed->row)
            printf("%srow %u: ", before == NULL ? "" : "\n", (unsigned)placed->row);
        else if (stands_apart(before, placed, dots))
            putchar(' ');
        putchar(placed->byte);
        before = placed;
    }
    printf("%simage bytes: %zu\n", before == NULL ? "" : "\n", images);
}

/* The dot column at which a slot begins, counted from 0: its stop's, or past the last one the right margin's. */
static uint16_t begin_of(const escp_state *state, uint32_t slot)
{
    uint32_t units = state->right;
    if (slot < SLOTS && slot < state->columns.count) {
        uint32_t stop = state->left + state->columns.stops[slot] * state->column_width;
        if (stop < units)
            units = stop;
    }
    return (uint16_t)escp_dot(units, state->dots_across);
}

/* Finds the newest letter from one column to another, both included; without one its mark is 0. What is wrong, or NULL. */
static const char *find_letter(const list *list, uint16_t from, uint16_t to, escp_record *letter)
{
    escp_part part;
    const char *problem = problem_of(escp_slot(list->bytes, list->length, from, to, &part));
    letter->mark = 0;
    if (part.length > 0)
        escp_fill_record(letter, list->bytes + part.offset);
    return problem;
}

/*
 * Prints the word that stands now from one column to another, both included, below the heading. The newest letter ends
 * it. The letter before that is the newest to the left of it, if in the same row, and so on. What is wrong, or NULL.
 */
static const char *print_word(const list *list, uint16_t from, uint16_t to)
{
    char word[MOST_DOTS + 1] = "";
    size_t at = MOST_DOTS;
    escp_record letter, first = {0};
    const char *problem;

    while ((problem = find_letter(list, from, to, &letter)) == NULL && letter.mark == ESCP_TX) {
        if (letter.row == HEADING || (at < MOST_DOTS && letter.row != first.row))
            break;
        first = letter;
        word[--at] = (char)letter.byte;
        if (letter.column == from)
            break;
        to = (uint16_t)(letter.column - 1);
    }
    if (problem != NULL)
        return problem;
    if (at == MOST_DOTS)
        puts("nothing");
    else
        printf("%s at column %u, row %u\n", word + at, (unsigned)first.column, (unsigned)first.row);
    return NULL;
}

/* Prints what stands in each slot now. The driver counts slots from 1, the electricians from 0. What is wrong, or NULL. */
static const char *print_slots(const list *list, const escp_state *state)
{
    const char *problem = NULL;
    for (unsigned slot = 0; problem == NULL && slot < SLOTS; slot++) {
        printf("slot %u (electricians: %u): ", slot + 1, slot);
        problem = print_word(list, begin_of(state, slot), (uint16_t)(begin_of(state, slot + 1) - 1));
    }
    return problem;
}

/* A word as a number; 0, which no start takes, if it is none. */
static uint32_t number(const char *word)
{
    char *end;
    unsigned long value = strtoul(word, &end, 10);
    return *word >= '0' && *word <= '9' && *end == '\0' && value <= UINT32_MAX ? (uint32_t)value : 0;
}

/* Says what is wrong. */
static int fail(const char *problem)
{
    fprintf(stderr, "card: %s\n", problem);
    return 1;
}

int main(int argc, char **argv)
{
    static list read;
    static page shown;
    escp_settings settings = {300, 0, 28800};
    escp_state state;
    uint8_t input[PIECE];
    size_t length;
    const char *problem;

    if (argc > 1)
        settings.resolution = number(argv[1]);
    if (argc > 2)
        settings.width = number(argv[2]);
    problem = problem_of(escp_start(&state, &settings));
    while (problem == NULL && (length = fread(input, 1, PIECE, stdin)) > 0)
        problem = take_piece(&read, &state, input, length);
    if (problem != NULL)
        return fail(problem);
    take_list(&shown, &read);
    print_lines(&shown, settings.resolution);
    problem = print_slots(&read, &state);
    return problem == NULL ? 0 : fail(problem);
}
