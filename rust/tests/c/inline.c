/* Prints what the header's own functions give, for rust/tests/inline.rs. */
#include "escp.h"

#include <stdio.h>

static void print_record(const uint8_t *bytes)
{
    escp_record record;
    escp_fill_record(&record, bytes);
    printf("record %u %u %u %u %u %u %u %u %d %u %u\n", (unsigned)record.mark, (unsigned)record.column,
           (unsigned)record.row, (unsigned)record.byte, (unsigned)record.font, (unsigned)record.style,
           (unsigned)record.country, (unsigned)record.advance, (int)record.rest, (unsigned)record.pages,
           (unsigned)record.reason);
}

static void print_letter(uint8_t byte, uint16_t across, uint16_t down)
{
    uint8_t bytes[ESCP_LETTER_SIZE];
    escp_put_letter(bytes, byte, across, down);
    printf("letter");
    for (unsigned at = 0; at < ESCP_LETTER_SIZE; at++)
        printf(" %u", (unsigned)bytes[at]);
    printf("\n");
}

int main(void)
{
    static const unsigned marks[] = {ESCP_TX, ESCP_IM, ESCP_LN, ESCP_CL, ESCP_NO};
    static const uint32_t dots[] = {300, 203, 200};
    uint8_t bytes[ESCP_RECORD_SIZE];

    printf("version %s %d\n", ESCP_VERSION, ESCP_VERSION_NUMBER);
    for (unsigned font = 0; font <= 3; font++)
        for (uint32_t dot = 0; dot < 8; dot++)
            printf("below %u\n", (unsigned)escp_dot_below((uint8_t)font, dot));
    for (unsigned at = 0; at < 3; at++)
        for (uint32_t units = 0; units < 100000; units += 7)
            printf("dot %u\n", (unsigned)escp_dot(units, dots[at]));
    printf("dot %u\n", (unsigned)escp_dot(14000000, 300));
    for (unsigned at = 0; at < 2; at++)
        for (unsigned column = 1; column < 65536; column += 97)
            for (int rest = -1800; rest < 1800; rest += 37)
                printf("place %u\n", (unsigned)escp_place((uint16_t)column, (int16_t)rest, dots[at]));
    for (unsigned at = 0; at < 5; at++) {
        for (unsigned byte = 0; byte < ESCP_RECORD_SIZE; byte++)
            bytes[byte] = (uint8_t)(0x21 + 7 * byte);
        bytes[0] = (uint8_t)(marks[at] & 0xFF);
        bytes[1] = (uint8_t)(marks[at] >> 8);
        print_record(bytes);
    }
    for (unsigned at = 0; at < 256; at++)
        print_letter((uint8_t)at, (uint16_t)(257 * at), (uint16_t)(65535 - 251 * at));
    return 0;
}
