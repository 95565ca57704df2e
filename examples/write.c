/*
 * Writes a card: two lines of a heading and a state, their letters at places in units of 1/3600 inch. Then reads it back in
 * pieces of seven bytes and shows each letter at its dots, and its exact place across again.
 *
 *     write [DOTS]     at 300 dots to the inch, or 203
 */
#include "escp.h"

#include <stdio.h>
#include <stdlib.h>

enum {
    MOST = 100, /* letters */
    PIECE = 7,  /* bytes of the card to a call */
    WIDTH = 360 /* of a letter of 10 cpi */
};

/* Letters, as a list. */
typedef struct letters {
    uint8_t bytes[MOST * ESCP_LETTER_SIZE];
    size_t length;
} letters;

/* Adds the letters of a word, one beside the other. */
static void add_word(letters *letters, const char *word, uint16_t across, uint16_t down)
{
    for (; *word != 0; word++) {
        escp_put_letter(letters->bytes + letters->length, (uint8_t)*word, across, down);
        letters->length += ESCP_LETTER_SIZE;
        across += WIDTH;
    }
}

/* Shows the letters of the records, at so many dots to the inch across. */
static void show(const uint8_t *out, size_t length, uint32_t dots)
{
    for (size_t at = 0; at < length; at += ESCP_RECORD_SIZE) {
        escp_record record;
        escp_fill_record(&record, out + at);
        if (record.mark == ESCP_TX)
            printf("%c at column %u, row %u, %u units across\n", record.byte, record.column, record.row,
                   (unsigned)escp_place(record.column, record.rest, dots));
        else if (record.mark != ESCP_LN)
            printf("a record that no card gives\n");
    }
}

int main(int count, char **words)
{
    static letters letters;
    static uint8_t card[ESCP_CARD_BEGIN + MOST * ESCP_LETTER_MOST];
    escp_settings settings = {count > 1 ? (uint32_t)strtoul(words[1], NULL, 10) : 300, 0, 28800};
    escp_state state;
    size_t written;
    add_word(&letters, "4", 14400, 0);
    add_word(&letters, "FREE", 14420, 600);
    uint8_t answer = escp_write(letters.bytes, letters.length, card, sizeof card, &written);
    if (answer != ESCP_WRITTEN || escp_start(&state, &settings) != ESCP_INPUT_USED) {
        fprintf(stderr, "write: refused\n");
        return 1;
    }
    printf("%zu letters in %zu bytes\n", letters.length / ESCP_LETTER_SIZE, written);
    for (size_t at = 0; at < written; at += PIECE) {
        uint8_t out[PIECE * ESCP_ROOM];
        escp_counts counts;
        size_t length = written - at < PIECE ? written - at : PIECE;
        answer = escp_read(&state, card + at, length, SIZE_MAX, out, sizeof out, &counts);
        if (answer != ESCP_INPUT_USED)
            return 1;
        show(out, counts.written, state.dots_across);
    }
    return 0;
}
