/* Packets of the bus: those of a SETUP, an OUT and an IN are written one after the other, then read back. A bit that is
 * turned in the OUT's data makes that packet bad and the OUT no event; the others are as they were. Then the run is cut. */
#include <stdio.h>

#include "max3420e.h"

static const uint8_t asked[MAX3420E_SETUP] = {0x80, 0x06, 0x00, 0x01, 0x00, 0x00, 0x40, 0x00}; /* GET_DESCRIPTOR, device */
static const uint8_t sent[3] = {0x11, 0x22, 0x33};

static const char *const names[] = {"end", "event", "wrong complement", "wrong length", "wrong check"};

static void print_bytes(const uint8_t *bytes, size_t count)
{
    for (size_t i = 0; i < count; i++)
        printf(" %02X", (unsigned)bytes[i]);
    printf("\n");
}

/* All items of a run, the end among them. */
static void print_items(const uint8_t *run, size_t length)
{
    max3420e_item item = {0};
    do {
        item = max3420e_next_item(run, length, item.next);
        printf("%s at %u, skipped %u", names[item.found], (unsigned)item.place, (unsigned)item.skipped);
        if (item.found == MAX3420E_FOUND_EVENT) {
            printf(": event %u, address %u, endpoint %u, DATA1 %u, acknowledged %u, payload", (unsigned)item.code,
                   (unsigned)item.address, (unsigned)item.endpoint, (unsigned)item.data1, (unsigned)item.acknowledged);
            print_bytes(run + item.start, item.count);
        } else
            printf("\n");
    } while (item.found != MAX3420E_FOUND_END);
}

int main(void)
{
    static uint8_t run[3 * MAX3420E_EVENT_PACKETS];
    size_t size = 0;
    max3420e_packets_answer setup = max3420e_write_packets(MAX3420E_SETUP_TOKEN, 0, 0, 0, 0, 0, asked, sizeof asked,
                                                           run, sizeof run);
    size += setup.count;
    max3420e_packets_answer out = max3420e_write_packets(MAX3420E_OUT_TOKEN, 3, 1, 0, 1, 0, sent, sizeof sent,
                                                         run + size, sizeof run - size);
    size += out.count;
    max3420e_packets_answer in = max3420e_write_packets(MAX3420E_IN_TOKEN, 3, 3, 0, 0, 1, sent, 0, run + size,
                                                        sizeof run - size);
    size += in.count;
    printf("refusals %u, %u, %u\n", (unsigned)setup.refusal, (unsigned)out.refusal, (unsigned)in.refusal);
    printf("SETUP:"), print_bytes(run, setup.count);
    printf("OUT:"), print_bytes(run + setup.count, out.count);
    printf("IN:"), print_bytes(run + size - in.count, in.count);
    printf("\nread back:\n");
    print_items(run, size);
    run[setup.count + 8] ^= 0x01; /* behind the OUT's token and its data's length and PID, 5, 2 and 1 bytes */
    printf("\na bit turned:\n");
    print_items(run, size);
    printf("\nthe last byte missing:\n");
    print_items(run, size - 1);
    return 0;
}
