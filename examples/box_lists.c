/*
 * Holds the list that examples/box.c keeps against the list of all records: of both, escp_slot has to give the same
 * record, for all columns, at every moment.
 *
 *     box_lists lists COUNT        compares so many inputs
 *     box_lists noise BYTES        writes so many bytes of made-up input
 */
#define main box_main
#include "box.c"
#undef main

enum {
    LONG = 2 * MOST_LETTERS,             /* parts of input, with more letters than a list has room for */
    SHORT = 200,                         /* parts of input */
    MOST_INPUT = 6 * (LONG + 3 * SHORT), /* bytes: a part has at most six */
    MOST_RECORDS = 2 * MOST_INPUT        /* a byte writes at most two */
};

/* The next of a row of made-up numbers, below a limit. */
static uint32_t made_up(uint32_t limit)
{
    static uint64_t now = 0x9E3779B97F4A7C15u;
    now ^= now << 13;
    now ^= now >> 7;
    now ^= now << 17;
    return (uint32_t)(now >> 32) % limit;
}

/* Bytes of input; each ? among them is a made-up byte. */
typedef struct part {
    const char *bytes;
    size_t length;
} part;

/* What is drawn from. Letters far to the right soon want an automatic line, so places there are among the feeds. */
static const part feeds[] = {{"\n", 1}, {"\v", 1}, {"\033J?", 3}, {"\033J\000", 3}, {"\033$?\001", 4}, {"\t", 1}, {"??", 2}};
static const part pages[] = {{"\f", 1}, {"\033@", 2}, {"\033C\021", 3}, {"\033C\000\013", 4}};
static const part margins[] = {{"\033l?", 3}, {"\033l\000", 3}, {"\033Q\120", 3}, {"\033Q?", 3}};
static const part others[] = {{"\r", 1},        {"\r", 1},    {"\r", 1},    {"\r", 1},        {"\b", 1},
                              {"\033P", 2},     {"\033M", 2}, {"\033g", 2}, {"\033$?\000", 4}, {"\017", 1},
                              {"\033 \001", 3}, {"\022", 1},  {"\r", 1},    {"\0333\001", 3},  {"\033K\002\000\377?", 6}};

#define ANY_OF(parts) (&(parts)[made_up(sizeof(parts) / sizeof(parts)[0])])

/* Of 1000 parts of an input so many feed, turn pages, set margins. */
typedef struct habits {
    uint32_t feeds, pages, margins;
} habits;

static const part *make_part(const habits *habits)
{
    static const part letter = {"?", 1};
    uint32_t kind = made_up(1000);
    if (kind < habits->feeds)
        return ANY_OF(feeds);
    if (kind < habits->feeds + habits->pages)
        return ANY_OF(pages);
    if (kind < habits->feeds + habits->pages + habits->margins)
        return ANY_OF(margins);
    return kind < 600 ? &letter : ANY_OF(others);
}

/* A byte of a part: where it is made up, and the part is of one byte, a letter. */
static uint8_t byte_of(const part *part, size_t at)
{
    if (part->bytes[at] != '?')
        return (uint8_t)part->bytes[at];
    return (uint8_t)(part->length > 1 ? made_up(256) : 0x20 + made_up(95));
}

/* Adds so many parts to an input. */
static size_t make_parts(uint8_t *input, uint32_t count, const habits *habits)
{
    size_t length = 0;
    while (count-- > 0) {
        const part *part = make_part(habits);
        for (size_t at = 0; at < part->length; at++)
            input[length++] = byte_of(part, at);
    }
    return length;
}

/* A line, then another that is overprinted until the list is full, and voided. */
static size_t make_overprinted(uint8_t *input)
{
    static const habits none = {0, 0, 0};
    size_t length = sizeof "\033@STATE" - 1;
    memcpy(input, "\033@STATE", length);
    length += make_parts(input + length, SHORT / 4, &none);
    input[length++] = '\n';
    length += make_parts(input + length, LONG, &none);
    memcpy(input + length, "\033Q\120", 3);
    return length + 3;
}

/* An input of two habits, one after the other; one of 16 has an overprinted line between. */
static size_t make_input(uint8_t *input)
{
    static const uint32_t often[] = {0, 1, 10, 60};
    habits first = {often[made_up(4)], often[made_up(4)], often[made_up(4)]};
    habits last = {often[made_up(4)], often[made_up(4)], often[made_up(4)]};
    size_t length = make_parts(input, made_up(SHORT), &first);
    if (made_up(16) == 0)
        length += make_overprinted(input + length);
    return length + make_parts(input + length, made_up(SHORT), &last);
}

static int differ(const uint8_t *all, size_t length, const list *kept, uint32_t from, uint32_t to)
{
    escp_part one, other;
    escp_slot(all, length, (uint16_t)from, (uint16_t)to, &one);
    escp_slot(kept->bytes, kept->length, (uint16_t)from, (uint16_t)to, &other);
    return one.length != other.length || memcmp(all + one.offset, kept->bytes + other.offset, one.length) != 0;
}

/* Whether the answers differ for some columns: made-up ones, and now and then each one by itself. */
static int any_differ(const uint8_t *all, size_t length, const list *kept)
{
    uint32_t from = made_up(MOST_DOTS), wide = made_up(3) > 0 ? made_up(100) : made_up(MOST_DOTS);
    if (differ(all, length, kept, from, from + wide))
        return 1;
    if (made_up(2000) > 0)
        return 0;
    for (uint32_t column = 0; column < MOST_DOTS; column++)
        if (differ(all, length, kept, column, column))
            return 1;
    return 0;
}

/* How many letters came, and how many of them where the box's list was full. */
typedef struct tried {
    size_t letters, full;
} tried;

/* Reads an input, and compares after each record; whether the answers ever differ. */
static int compare(const uint8_t *input, size_t length, tried *tried)
{
    static uint8_t all[MOST_RECORDS * ESCP_RECORD_SIZE];
    static list kept;
    escp_settings settings = {made_up(2) > 0 ? 300 : 203, 0, 28800};
    escp_state state;
    escp_counts counts;

    kept.length = kept.shielded = 0;
    escp_start(&state, &settings);
    if (escp_read(&state, input, length, SIZE_MAX, all, sizeof all, &counts) != ESCP_INPUT_USED)
        return 1;
    for (size_t at = 0; at < counts.written; at += ESCP_RECORD_SIZE) {
        escp_record record;
        escp_fill_record(&record, all + at);
        tried->letters += record.mark == ESCP_TX;
        tried->full += record.mark == ESCP_TX && kept.length == sizeof kept.bytes;
        take_record(&kept, &record, all + at);
        if (any_differ(all, at + ESCP_RECORD_SIZE, &kept))
            return 1;
    }
    return 0;
}

/* Some inputs must have filled the box's list. */
static int compare_lists(unsigned long count)
{
    static uint8_t input[MOST_INPUT];
    tried tried = {0, 0};
    for (unsigned long at = 0; at < count; at++)
        if (compare(input, make_input(input), &tried)) {
            fprintf(stderr, "box_lists: input %lu: the box's list and the whole one have different answers\n", at);
            return 1;
        }
    printf("%lu inputs, %zu letters, %zu where the list was full: the box's list has the answers of the whole one\n",
           count, tried.letters, tried.full);
    return tried.full == 0;
}

static int write_noise(unsigned long bytes)
{
    while (bytes-- > 0)
        putchar((int)made_up(256));
    return fflush(stdout) != 0;
}

int main(int argc, char **argv)
{
    unsigned long count = argc == 3 ? strtoul(argv[2], NULL, 10) : 0;
    if (count > 0 && strcmp(argv[1], "lists") == 0)
        return compare_lists(count);
    if (count > 0 && strcmp(argv[1], "noise") == 0)
        return write_noise(count);
    fprintf(stderr, "box_lists: takes lists COUNT or noise BYTES\n");
    return 2;
}
