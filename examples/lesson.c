/* A lesson in a file: written from its entries, checked, and played again from power-on. A packet is armed at endpoint 2;
 * the host's ACK of its first IN is lost, so that the same packet comes again with the same PID. */
#include <stdio.h>

#include "max3420e.h"

enum { ENTRIES = 7, BODIES = 18, FILE_BYTES = 2 + ENTRIES * MAX3420E_LESSON_ROW + BODIES };

/* The entries: kinds, ticks (they wrap), lengths of the bodies, and the bodies one after the other. */
static const uint8_t kinds[ENTRIES] = {
    MAX3420E_ENTRY_EVENT,    MAX3420E_ENTRY_EVENT,
    MAX3420E_ENTRY_TRANSFER, MAX3420E_ENTRY_TRANSFER, MAX3420E_ENTRY_TRANSFER,
    MAX3420E_ENTRY_EVENT,    MAX3420E_ENTRY_EVENT
};
static const uint32_t ticks[ENTRIES] = {4294967000u, 4294967003u, 4294967200u, 4294967250u, 4294967290u, 4, 5};
static const uint16_t lengths[ENTRIES] = {1, 1, 2, 4, 2, 4, 4};
static const uint8_t bodies[BODIES] = {
    MAX3420E_POWER_ON,
    MAX3420E_STABLE,
    0x7A, 0x08,                 /* USBCTL: CONNECT */
    0x12, 0x11, 0x22, 0x33,     /* three bytes to EP2INFIFO */
    0x3A, 0x03,                 /* EP2INBC: they are armed */
    MAX3420E_IN_TOKEN, 0, 2, 0, /* address 0, endpoint 2; no ACK reaches the chip */
    MAX3420E_IN_TOKEN, 0, 2, 1  /* the same, acknowledged */
};

/* Prints what a replay wrote: for each entry its refusal, PID, count and bytes. */
static void print_results(const uint8_t *output, size_t size)
{
    size_t at = 0;
    for (unsigned i = 0; i < ENTRIES && at < size; i++) {
        unsigned count = output[at + 2] | output[at + 3] << 8;
        printf("entry %u: tick %lu, %lu later, refusal %u, PID %02X, bytes", i, (unsigned long)ticks[i],
               (unsigned long)max3420e_elapsed(ticks[i > 0 ? i - 1 : 0], ticks[i]), (unsigned)output[at],
               (unsigned)output[at + 1]);
        for (unsigned j = 0; j < count; j++)
            printf(" %02X", (unsigned)output[at + 4 + j]);
        printf("\n");
        at += 4 + count;
    }
}

int main(void)
{
    static uint8_t file[FILE_BYTES];
    static uint8_t output[FILE_BYTES + 68 * ENTRIES]; /* room enough whatever the calls are answered */
    max3420e_lesson_answer written = max3420e_write_lesson(kinds, ENTRIES, ticks, ENTRIES, lengths, ENTRIES, bodies,
                                                           sizeof bodies, file, sizeof file);
    printf("written: refusal %u, %u bytes\n", (unsigned)written.refusal, (unsigned)written.count);
    max3420e_lesson_answer checked = max3420e_check_lesson(file, written.count);
    printf("checked: refusal %u, %u entries\n", (unsigned)checked.refusal, (unsigned)checked.count);
    max3420e_replay_answer played = max3420e_replay(file, written.count, output, sizeof output);
    printf("played: refusal %u, %u bytes, INT pin %u\n", (unsigned)played.refusal, (unsigned)played.count,
           (unsigned)played.pin);
    print_results(output, played.count);
    file[2 + 3 * MAX3420E_LESSON_ROW] = 3; /* entry 3 with a kind that there is not */
    checked = max3420e_check_lesson(file, written.count);
    printf("a bad kind: refusal %u, entry %u\n", (unsigned)checked.refusal, (unsigned)checked.found);
    return played.refusal;
}
