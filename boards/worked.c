/*
 * Reads the worked cases as the program `worked` is given them (crates/worked/stdin) and writes the lines of each: its records
 * in hex, the answers that are not 0, and an empty line. What it should write is crates/worked/stdout.
 */
#include "escp.h"
#include <stdio.h>

enum {
    HEAD = 11, /* the bytes before an input: dots, allowance, room, length and width, two bytes each, and the automatic feed */
    MOST = 65535 /* the longest input, and output */
};

static void print_answer(int answer)
{
    if (answer != ESCP_INPUT_USED)
        printf("answer %d\n", answer);
}

static void print_records(const uint8_t *bytes, size_t length)
{
    for (size_t index = 0; index < length; index++)
        printf("%02x%s", bytes[index], (index + 1) % ESCP_RECORD_SIZE == 0 ? "\n" : "");
}

/* Starts as the head says, and reads the input by calls with its allowance and room, until all is read or a call reads nothing. */
static void run(const uint8_t *head, const uint8_t *input, size_t length)
{
    static uint8_t out[MOST];
    escp_settings settings = {escp_two_bytes(head), head[10], escp_two_bytes(head + 8)};
    escp_state state;
    escp_counts counts;
    print_answer(escp_start(&state, &settings));
    do {
        int answer = escp_read(&state, input, length, escp_two_bytes(head + 2), out, escp_two_bytes(head + 4), &counts);
        print_records(out, counts.written);
        print_answer(answer);
        input += counts.read;
        length -= counts.read;
    } while (length > 0 && counts.read > 0);
    printf("\n");
}

int main(int count, char **words)
{
    static uint8_t head[HEAD], input[MOST];
    size_t length;
    (void)words;
    if (count != 1) {
        fprintf(stderr, "worked: takes no argument, and the cases on standard input\n");
        return 2;
    }
    while ((length = fread(head, 1, HEAD, stdin)) == HEAD) {
        size_t due = escp_two_bytes(head + 6);
        if (fread(input, 1, due, stdin) != due)
            break;
        run(head, input, due);
    }
    if (length != 0 || ferror(stdin) || fflush(stdout) != 0) {
        fprintf(stderr, "worked: reading or writing failed, or a case is not whole\n");
        return 1;
    }
    return 0;
}
