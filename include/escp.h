/*
 * Ierbulosc: reads the ESC/P legacy page language. Bytes come in, placed records come out.
 *
 * The library is target/staticlib/libierbulosc.a, made by `./build ierbulosc`, for x86-64 Linux. Its functions keep
 * nothing between calls, allocate nothing and always return. What they do is proved in crates/ierbulosc and the
 * crates below it. A test (rust/tests/header.rs) holds the declarations here against the exported functions and the
 * registers' layout in Rattle; that the words here say the same as the proofs is for their reader to compare.
 *
 * For AArch64 and for RISC-V of 64 bits `boards/library` compiles the same proved code, and tests run it under emulation.
 * The proofs are of the code, with a size_t of 64 bits; no proof covers what a compiler makes of it, for any processor.
 * Processors of other sizes, or with the high byte first, are not for it.
 *
 *     escp_settings settings = {300, 0, 28800};
 *     escp_state state;
 *     escp_counts counts;
 *     escp_part part;
 *     escp_start(&state, &settings);
 *     answer = escp_read(&state, input, input_length, SIZE_MAX, out, out_length, &counts);
 *     for (at = 0; at < counts.written; at += ESCP_RECORD_SIZE) {
 *         escp_record record;
 *         escp_fill_record(&record, out + at);
 *         if (record.mark == ESCP_TX)
 *             ... the letter record.byte at record.column, record.row ...
 *     }
 *     answer = escp_slot(out, counts.written, 1200, 1499, &part);
 *     if (part.length > 0)
 *         ... the record at out + part.offset is what stands in the columns 1200 to 1499 now ...
 *
 * escp_write goes the other way: letters and their places come in, and ESC/P that puts them there comes out.
 *
 * Input may come in pieces of any length, cut anywhere, even inside a command: the records are those of the whole.
 */
#ifndef ESCP_H
#define ESCP_H

#include <stddef.h>
#include <stdint.h>

/* The version of header and library, as text, and for #if as 10000 x major + 100 x minor + patch. */
#define ESCP_VERSION "0.1.0"
#define ESCP_VERSION_NUMBER 100

/*
 * What a call needs. Of other libraries memcpy and memset, and nothing else, but where a processor has no multiplier or
 * divider, the compiler's own. At most 512 bytes of stack below its caller on x86-64, and 1,024 on the other processors, as
 * measured (docs/SPEED.md has the figures). No heap, no file, no clock, no lock; no memory of its own that is written.
 *
 * Threads: calls may run at the same time, as long as none writes what another reads or writes: a state is for one call
 * at a time. Signal handlers may make calls, with a state and an output that no interrupted call works on; a call that
 * is interrupted goes on as if nothing had been. On a board without an operating system an interrupt must leave the
 * registers that it uses as they were, those of SSE among them (on AArch64 those of SIMD), and on x86-64 the 128 bytes
 * below the stack pointer, as the calling convention of Linux has it.
 *
 * Time: a reading call takes time with the bytes that it reads, which the allowance bounds, escp_slot with the records
 * from the newest back to the one found, or to where the page begins, and escp_write with the letters.
 */

#ifdef __cplusplus
extern "C" {
#endif

/* The answers of a start and of reading. */
enum {
    ESCP_INPUT_USED = 0,       /* all of the input was read; a start: done */
    ESCP_ALLOWANCE_USED = 1,   /* as many bytes as allowed were read, and input is left */
    ESCP_OUTPUT_FULL = 2,      /* under ESCP_ROOM bytes of output are left, and input and allowance are left */
    ESCP_SETTINGS_REFUSED = 3, /* a start: the resolution or the width is none that is taken */
    ESCP_STATE_REFUSED = 4     /* the state's numbers are not as given below */
};

/* Sizes. */
enum {
    ESCP_RECORD_SIZE = 16,            /* the bytes of a record */
    ESCP_ROOM = 2 * ESCP_RECORD_SIZE, /* must be left in the output to read a byte, which writes at most 2 records */
    ESCP_REGISTERS = 244,             /* the numbers of a state */
    ESCP_TAB_STOPS = 32,              /* the room of a list of tab stops */
    ESCP_COLUMNS = 32,                /* the most horizontal tab stops */
    ESCP_LINES = 16,                  /* the most vertical tab stops of a channel */
    ESCP_CHANNELS = 8,                /* the vertical channels, 0 to 7 */
    ESCP_CHANNEL_STOPS = 128          /* the places of their stops, sixteen a channel */
};

/*
 * What a start is asked for. Any numbers whatever may be passed; those that it does not take are refused. (A struct, so
 * that a setting can be added without another call: it is then appended, and callers set it and are compiled anew.)
 */
typedef struct escp_settings {
    uint32_t resolution; /* dots to the inch: 300, or 203 (203 across and 200 down) */
    uint32_t auto_feed;  /* any number but 0: CR feeds a line */
    uint32_t width;      /* of the paper, in units of 1/3600 inch: 7200 to 28800 (80 columns at 10 cpi) */
} escp_settings;

/*
 * The state of the printer: ESCP_REGISTERS numbers of 32 bits, without padding. It is the caller's, to keep, copy,
 * compare, store or read; the library has no other memory.
 *
 * Lengths are in units of 1/3600 inch. A flag is 0 or 1. The numbers below are those that this library leaves. Any
 * others may stand in a state that is passed: escp_read tests it first, and refuses it with answer 4, as it came, if a
 * single one is not as said here.
 */

/*
 * A list of tab stops, of which the first `count` are held, ascending strictly. Horizontal ones are columns, from 1 to
 * 255, and at most ESCP_COLUMNS. Vertical ones are distances from the top, from 1 to 79199, and at most ESCP_LINES.
 * Stops past `count` are not looked at, and may be any number.
 */
typedef struct escp_stops {
    uint32_t count;
    uint32_t stops[ESCP_TAB_STOPS];
} escp_stops;

/* What is waited for. */
enum {
    ESCP_NOTHING = 0,
    ESCP_SECOND_BYTE = 1,     /* an escape's second byte */
    ESCP_FIRST_ARGUMENT = 2,  /* the first argument of an escape, or its only one; the third byte of ESC i; the mode of ESC * */
    ESCP_SECOND_ARGUMENT = 3, /* the second argument; that of ESC C after 0; that of ESC i after "a"; the low byte of ESC * */
    ESCP_STOP_LIST = 4,       /* a byte of a tab stop list that sets stops */
    ESCP_IMAGE_DATA = 5,      /* image data */
    ESCP_THIRD_ARGUMENT = 6,  /* the third argument: the high byte of ESC * */
    ESCP_DROPPED_LIST = 7     /* a byte of the list of ESC b with a channel above 7 */
};

/*
 * The vertical channels. Channel m has the sixteen places from 16 m on; its count is 0 if it was never set, else one more
 * than the stops that it holds, at most 17. These are distances from the top, from 1 to 79199, and ascend strictly; places
 * past them are not looked at, and may be any numbers.
 */
typedef struct escp_channels {
    uint32_t counts[ESCP_CHANNELS];
    uint32_t stops[ESCP_CHANNEL_STOPS];
} escp_channels;

typedef struct escp_state {
    /*
     * What is waited for. The command is an escape's second byte: of kind 2 one that takes arguments, as 41h for ESC A,
     * or i, which takes a third byte; of kind 3 one that takes two ($, \, K, L, Y or Z), or C, whose first argument is
     * then 0, or i, whose third byte is then 61h, "a", or *, whose first argument is then a mode that is listed; of kind 4
     * D, or B for a vertical list, of ESC B or ESC b; of kind 6 *. Kinds 5 and 7 have none. A number that the kind does not
     * use is 0.
     *
     * The modes of images, by number: 0, 1, 2, 3, 4 and 6 have one byte a column, 60, 30, 30, 15, 45 and 40 units wide; 32,
     * 33, 38, 39 and 40 have three, 60, 30, 40, 20 and 10 units wide. The data of ESC K, L, Y and Z are modes 0, 1, 2 and 3.
     */
    uint32_t kind;          /* ESCP_NOTHING to ESCP_DROPPED_LIST */
    uint32_t command;       /* kinds 2, 3, 4 and 6 */
    uint32_t argument;      /* kinds 3 and 6: the last that came, 0 to 255, of C 0, of i 61h, of * in kind 3 the mode's number;
                               kinds 4 and 7: the list byte before, 0 at the beginning */
    uint32_t image_mode;    /* kinds 5 and 6: the mode's number; kind 4, B: the channel that the list sets, 0 to 7 */
    uint32_t image_byte;    /* kind 5: which byte of its column comes next: 1 to 3 in modes of three bytes, 1 in the others */
    uint32_t image_columns; /* kind 5: the image columns left, the begun one included, 1 to 65535 */

    /* Where the next letter stands. */
    uint32_t across; /* from the left of the paper; left to right, both included */
    uint32_t down;   /* from the top of the page; less than the edge, which is page - skip */

    /* Margins, page length, perforation skip and line amount. */
    uint32_t left;  /* below right */
    uint32_t right; /* at most paper_width */
    uint32_t page;  /* 3600 to 79200 */
    uint32_t skip;  /* at most page - 3600 */
    uint32_t line;  /* at most 5100 */

    /* The settings of the start. */
    uint32_t dots_across; /* dots to the inch across: 300 or 203 */
    uint32_t dots_down;   /* down, by dots_across: 300 or 200 */
    uint32_t auto_feed;   /* flag: CR feeds a line */
    uint32_t paper_width; /* 7200 to 28800 */

    /* What the width of a letter depends on. */
    uint32_t pitch;        /* letters of an inch: 10, 12 or 15 */
    uint32_t spacing;      /* ESC SP, 0 to 127 */
    uint32_t wide;         /* flag: ESC W 1 */
    uint32_t wide_once;    /* flag: SO, to the end of the line */
    uint32_t reduced;      /* flag: SI */
    uint32_t proportional; /* flag: ESC p 1 */

    /* How a letter looks. */
    uint32_t bold;          /* flag: ESC E */
    uint32_t double_strike; /* flag: ESC G */
    uint32_t italic;        /* flag: ESC 4 */
    uint32_t underline;     /* flag: ESC - 1 */
    uint32_t superscript;   /* flag: ESC S 0 */
    uint32_t subscript;     /* flag: ESC S 1 */
    uint32_t font;          /* ESC k, 0 to 255 */
    uint32_t country;       /* ESC R, 0 to 13 or 64 */
    uint32_t outline;       /* ESC q, 0 to 3 */
    uint32_t double_height; /* flag: ESC w 1 */
    uint32_t italic_table;  /* flag: ESC t 0 */
    uint32_t download;      /* flag: ESC % 1 */

    uint32_t draft;        /* flag: ESC x 0 */
    uint32_t upper_prints; /* flag: 80h to 9Fh are letters (ESC 6) */

    /* What follows from the settings above, kept: it must agree with them. */
    uint32_t style;        /* the style bits of a TX */
    uint32_t advance;      /* the width of a letter */
    uint32_t column_width; /* the width that stops and margins count in: 360 if proportional, else the advance */
    uint32_t advance_dots; /* the advance in dots across: the whole dots, and 65,536 x what is over, in 1/3600 dot */

    /*
     * Tab stops. The gathered ones, horizontal of ESC D or vertical of ESC B and ESC b, are looked at only while such a list
     * is waited for (kind 4), and may be any numbers else; the last of them is then not above the list byte before, or for
     * vertical ones that byte times the line amount.
     */
    uint32_t chosen;        /* the channel that VT uses, 0 to 7 */
    escp_stops columns;     /* horizontal, in force */
    escp_stops gathered;    /* of a list that has not ended */
    escp_channels channels; /* vertical, in force */
} escp_state;

/* How many bytes of input a call read, and how many bytes of output it wrote. */
typedef struct escp_counts {
    size_t read;
    size_t written;
} escp_counts;

/*
 * Starts a printer with these settings. What *state held before does not matter. Neither pointer may be NULL, nor may
 * *state and *settings overlap.
 *
 * 0: *state is the power-on state of these settings.
 * 3: the resolution is neither 300 nor 203, or the width is not from 7200 to 28800; *state is the power-on state for 300 dots,
 *    automatic line feed off, a width of 28800.
 */
uint8_t escp_start(escp_state *state, const escp_settings *settings);

/*
 * Reads input into records: at most `allowance` bytes of it, and as long as ESCP_ROOM bytes of output are left. Before
 * each byte it tests for the answers 0, 1, 2, in this order.
 *
 * 0, 1, 2: *state is the new state; counts->read bytes of the input were read; counts->written bytes were written at the
 *    beginning of the output, a multiple of ESCP_RECORD_SIZE. To go on after 1 or 2, pass the rest of the input.
 * 4: a number of *state is not as given above. It is tested before all else. *state stays
 *    as it was, and both counts are 0.
 * The output past counts->written stays as it was. *counts is written whatever the answer; what it held does not matter.
 *
 * Input and output may be empty (length 0). No pointer may be NULL, even of an empty one: nothing promises what happens
 * then. No two of *state, the output and *counts may overlap, nor one of them with the input.
 */
uint8_t escp_read(escp_state *state, const uint8_t *input, size_t input_length, size_t allowance, uint8_t *out,
                  size_t out_length, escp_counts *counts);

/* The marks of records: two letters, the first in the low byte. */
enum {
    ESCP_TX = 0x5854, /* a letter: all fields but pages and reason */
    ESCP_IM = 0x4D49, /* a byte of image data: column, row, byte, font, advance, rest */
    ESCP_LN = 0x4E4C, /* a line fed or a page turned: the new row, pages */
    ESCP_CL = 0x4C43, /* the TX and IM since the last LN, CL or start are void */
    ESCP_NO = 0x4F4E  /* what was passed over: byte, reason */
};

/* The pages of an LN that are none: the page begins anew, at its top (ESC C, ESC @). */
enum { ESCP_NEW_TOP = 255 };

/* The reasons of a NO. */
enum {
    ESCP_UNLISTED = 1,    /* no control byte, escape or third byte of ESC i that is listed */
    ESCP_NOT_ALLOWED = 2, /* an argument or a setting that is not allowed; a mode of ESC * that is not listed */
    ESCP_PAST_LIMITS = 3, /* past margin, page or stop limits */
    ESCP_NO_FIT = 4,      /* a letter or an image column that does not fit */
    ESCP_NO_STOP = 5      /* no stop to the right */
};

/* The style bits of a TX. */
enum {
    ESCP_BOLD = 0x0001,          /* ESC E */
    ESCP_DOUBLE_STRIKE = 0x0002, /* ESC G */
    ESCP_ITALIC = 0x0004,        /* ESC 4 */
    ESCP_UNDERLINE = 0x0008,     /* ESC - 1 */
    ESCP_SUPERSCRIPT = 0x0010,   /* ESC S 0 */
    ESCP_SUBSCRIPT = 0x0020,     /* ESC S 1 */
    ESCP_DOUBLE_WIDTH = 0x0040,  /* ESC W 1, SO: its advance is doubled already */
    ESCP_DOUBLE_HEIGHT = 0x0080, /* ESC w 1 */
    ESCP_OUTLINE = 0x0100,       /* ESC q 1 and 3 */
    ESCP_SHADOW = 0x0200,        /* ESC q 2 and 3 */
    ESCP_PROPORTIONAL = 0x0400,  /* ESC p 1 */
    ESCP_REDUCED = 0x0800,       /* SI: its advance is reduced already */
    ESCP_ITALIC_TABLE = 0x1000,  /* ESC t 0: of the two code tables the italic one; its upper half is the lower in italics */
    ESCP_DOWNLOAD = 0x2000       /* ESC % 1: a character that was downloaded */
};

/*
 * A record by its fields. Those that its mark does not name are 0.
 *
 * The byte of a NO is the letter, image byte or list byte that was passed over, else the control byte or the escape's
 * second byte, as received; where a third byte of ESC i is unlisted, that third byte.
 *
 * Style bits, from the lowest: bold, double strike, italic, underline, superscript, subscript, double width, double
 * height, two bits of the ESC q number, proportional, reduced, italic code table, download set.
 *
 * The rest is how far the exact place is off the dot column, in 1/3600 dot: from -1800 to 1799, more than 0 to the right.
 * Column and rest together are that place (escp_place).
 */
typedef struct escp_record {
    uint16_t mark;    /* ESCP_TX, ESCP_IM, ESCP_LN, ESCP_CL or ESCP_NO */
    uint16_t column;  /* dot column */
    uint16_t row;     /* dot row */
    uint8_t byte;     /* TX, IM: as received; NO: see above */
    uint8_t font;     /* TX: the ESC k number; IM: which byte of its column, 1 to 3 from the top, where one has three, else 0 */
    uint16_t style;   /* bits, see above */
    uint8_t country;  /* the ESC R number */
    uint16_t advance; /* in units of 1/3600 inch; IM: the width of its column, in each of its bytes */
    int16_t rest;     /* TX, IM: of the exact place across, see above */
    uint8_t pages;    /* LN: the pages turned, or ESCP_NEW_TOP */
    uint8_t reason;   /* NO: ESCP_UNLISTED to ESCP_NO_STOP */
} escp_record;

/* The number at two bytes of a record, the low one first. */
static inline uint16_t escp_two_bytes(const uint8_t *bytes)
{
    return (uint16_t)(bytes[0] + 256u * bytes[1]);
}

/* A number of two bytes, as a signed one. */
static inline int16_t escp_signed(uint16_t number)
{
    return (int16_t)(number < 0x8000u ? number : (int32_t)number - 0x10000);
}

/*
 * Fills *record from the ESCP_RECORD_SIZE bytes of a record: mark (2 bytes), column (2), row (2), byte, font, style (2),
 * country, zero, advance (2), rest (2). An LN has its pages where others have the byte, and a NO its reason in place of
 * a style.
 */
static inline void escp_fill_record(escp_record *record, const uint8_t *bytes)
{
    record->mark = escp_two_bytes(bytes);
    record->column = escp_two_bytes(bytes + 2);
    record->row = escp_two_bytes(bytes + 4);
    record->byte = bytes[6];
    record->font = bytes[7];
    record->style = escp_two_bytes(bytes + 8);
    record->country = bytes[10];
    record->advance = escp_two_bytes(bytes + 12);
    record->rest = escp_signed(escp_two_bytes(bytes + 14));
    record->pages = 0;
    record->reason = 0;
    if (record->mark == ESCP_LN) {
        record->pages = record->byte;
        record->byte = 0;
    }
    if (record->mark == ESCP_NO) {
        record->reason = (uint8_t)record->style;
        record->style = 0;
    }
}

/*
 * Geometry: where a record lies on the paper.
 *
 * Every letter and image column has an exact place in units of 1/3600 inch, across from the left of the paper and down
 * from the top of the page. The record has the nearest dots of it: dot = (units x D + 1800) div 3600, where D is
 * dots_across of the state for a column and dots_down for a row (escp_dot). Only places are rounded: widths, feeds and
 * stops add up in units. So the dots of an advance are not to be added up: at 203 dots letters of 360 units stand at 0,
 * 20, 41, 61. What rounding took off or put on across is the rest of a TX or an IM, units x D - 3600 x dot, so that who
 * draws between dots has the exact place across too (escp_place). A letter's cell goes from its place to the right by its
 * advance, spacing included; how high it is the papers leave open.
 *
 * A horizontal tab stop of n columns lies at left + n x column_width units, with the numbers of the state now: stops
 * move with the left margin, the pitch and the width of letters. HT goes only to those at or before `right`. So a slot
 * that begins at a stop begins at the dot column escp_dot(state->left + n * state->column_width, state->dots_across). A
 * vertical stop, of whichever channel, is units from the top.
 *
 * Of an image byte the highest bit, 80h, is on top. A bit that is set is a dot, as wide as its column: `advance` units.
 * A column of one byte (font 0) has 8 dots, ESCP_DOT_OF_ONE units apart down; one of three (font 1, 2 and 3, from the
 * top) has 24, ESCP_DOT_OF_THREE units apart. All three of its bytes have the column's place and row. The first dot
 * begins at the row, and either kind is 480 units high. (Document 002 has columns of three bytes so. For those of one it
 * has no number; they are taken to fill the same height, that of document 000's line buffer, 48/360 inch.)
 */

/* How far apart the dots of an image byte lie down, in units: where a column has one byte, and where it has three. */
enum {
    ESCP_DOT_OF_ONE = 60,
    ESCP_DOT_OF_THREE = 20
};

/* The dot nearest to a place in units, at so many dots to the inch; places up to 14000000. */
static inline uint32_t escp_dot(uint32_t units, uint32_t dots)
{
    return (units * dots + 1800u) / 3600u;
}

/* The exact place across of a TX or an IM, in units, from its dot column and rest; dots is dots_across of the state. */
static inline uint32_t escp_place(uint16_t column, int16_t rest, uint32_t dots)
{
    return (uint32_t)(3600 * (int32_t)column + rest) / dots;
}

/* How far below its row a dot of an image byte begins, in units: of dots 0 to 7, from the top, of a byte with this font. */
static inline uint32_t escp_dot_below(uint8_t font, uint32_t dot)
{
    if (font == 0)
        return dot * ESCP_DOT_OF_ONE;
    return ((font - 1u) * 8u + dot) * ESCP_DOT_OF_THREE;
}

/* The answers of escp_slot. They are its own: of another call the same number may say something else. */
enum {
    ESCP_ANSWERED = 0,      /* the record was found, or there is none */
    ESCP_LENGTH_REFUSED = 5 /* the list's length is no multiple of ESCP_RECORD_SIZE */
};

/* A part of a list of records: the bytes before it, and its own. */
typedef struct escp_part {
    size_t offset;
    size_t length;
} escp_part;

/*
 * What may be let go of a list, at any time, so that escp_slot answers the same, now and when more is joined to it:
 *
 * - all up to the last LN whose pages are not 0, and that LN;
 * - a CL, with all since the LN or CL before it, or since the list's beginning;
 * - IM and NO, and what has no mark of a record;
 * - an LN of 0 pages, where no TX is left between it and the LN or CL before it, or the list's beginning;
 * - where no CL is left, a TX that a newer one with the same column hides, if an LN comes after both, or after neither.
 *   (Not one that an LN comes after for one that none does: a CL to come may void the newer one, and the older is the
 *   answer again.)
 *
 * So two letters for each dot column are enough, 4,800 of the widest paper, and an LN between them. examples/box.c runs
 * on in that.
 */

/*
 * Finds what stands under a slot now: of a list of records, the last TX that survives on the present page and whose
 * column lies from `from` to `to`, both included. The list is the output of reading calls, joined in order.
 *
 * The present page begins after the last LN whose pages are not 0 (ESCP_NEW_TOP counts); without such an LN, at the
 * list's beginning. On it a CL voids the TX since the last LN of any pages, CL, or the list's beginning; the others
 * survive. So a TX on the present page is void if the first LN or CL after it is a CL. A TX lies where its column says,
 * however far to the right its letter reaches. Records with any other mark count for nothing. Records of several starts
 * joined are one list: a start leaves no record, and begins no page.
 *
 * 0: *part is that record's bytes in the list, ESCP_RECORD_SIZE of them at records + part->offset. If there is no such
 *    record, as where `from` is above `to` or the list is empty, *part is empty: its offset and its length are 0.
 * 5: `length` is no multiple of ESCP_RECORD_SIZE. It is tested before all else. *part is empty, as above.
 * *part is written whatever the answer; what it held does not matter. The list, which may be any bytes, stays as it was:
 * the record found is a part of it and no copy. The search begins at the newest record, and ends where the answer is
 * certain: at the record found, or where the present page begins.
 *
 * The list may be empty (length 0). Neither pointer may be NULL, even of an empty list: nothing promises what happens
 * then. *part may not overlap the list.
 */
uint8_t escp_slot(const uint8_t *records, size_t length, uint16_t from, uint16_t to, escp_part *part);

/* Sizes of a list of letters, and of what it is written by. */
enum {
    ESCP_LETTER_SIZE = 5, /* the bytes of a letter */
    ESCP_CARD_BEGIN = 2,  /* the bytes that a card begins with: ESC @ */
    ESCP_LETTER_MOST = 33 /* the most bytes that a letter is written by: eight ESC J, ESC $, ESC \, the letter */
};

/* Lays a letter and its place in units down as the ESCP_LETTER_SIZE bytes of a list: the byte, across (2 bytes), down (2). */
static inline void escp_put_letter(uint8_t *bytes, uint8_t byte, uint16_t across, uint16_t down)
{
    bytes[0] = byte;
    bytes[1] = (uint8_t)(across % 256u);
    bytes[2] = (uint8_t)(across / 256u);
    bytes[3] = (uint8_t)(down % 256u);
    bytes[4] = (uint8_t)(down / 256u);
}

/* The answers of escp_write, besides ESCP_LENGTH_REFUSED: here, that the list's length is no multiple of ESCP_LETTER_SIZE. */
enum {
    ESCP_WRITTEN = 0,       /* the card is written */
    ESCP_BYTE_REFUSED = 8,  /* a letter's byte is not from 20h to 7Eh */
    ESCP_PLACE_REFUSED = 9, /* a letter's place is none that is taken */
    ESCP_ROOM_REFUSED = 10  /* the output is shorter than ESCP_CARD_BEGIN, and ESCP_LETTER_MOST for each letter */
};

/*
 * Writes a card: letters with places in units of 1/3600 inch from the left of the paper and from the top of the page, as
 * ESC/P that begins with ESC @. Read from a start at a width of 28800, automatic line feed off, at 300 or 203 dots, it
 * prints these letters at exactly these places, in this order: plain TX of 10 cpi (advance 360; style, font and country
 * 0), and no others. Its first record is the LN of ESC @; no page is turned, nothing is passed over, and nothing is
 * waited for at its end.
 *
 * Places are multiples of 20, across at most 28440, down at most 39580 and not less than that of the letter before.
 *
 * 0: *written bytes were written at the beginning of the output. Without letters they are ESC @ alone.
 * 5: `letters_length` is no multiple of ESCP_LETTER_SIZE. It is tested before all else.
 * 8, 9: of the first letter that cannot be written: its byte, or else its place.
 * 10: the output is shorter than ESCP_CARD_BEGIN + ESCP_LETTER_MOST * n bytes for n letters, though fewer may be
 *    written. It is tested last.
 * After 5, 8, 9 and 10 *written is 0. The output past *written stays as it was. *written is written whatever the
 * answer; what it held does not matter.
 *
 * List and output may be empty (length 0). No pointer may be NULL, even of an empty one: nothing promises what happens
 * then. The output and *written may not overlap, nor one of them with the list.
 */
uint8_t escp_write(const uint8_t *letters, size_t letters_length, uint8_t *out, size_t out_length, size_t *written);

#ifdef __cplusplus
}
#endif

#endif
