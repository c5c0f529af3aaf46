/* The board of firmware.c on the model, and a host that enumerates it, halts and frees endpoint 3 and takes three
 * reports. Prints what the host sees; exit status 1 if that is not what it should be. */
#include <stdio.h>

#include "firmware.h"
#include "max3420e.h"

/* ---- The board: a chip and its INT line. */

static max3420e_chip chip;
static uint8_t int_pin;
static int faults;

static void expect(int holds, const char *what)
{
    if (!holds) {
        printf("  unexpected: %s\n", what);
        faults++;
    }
}

static void store(const max3420e_answer *answer)
{
    expect(answer->refusal == MAX3420E_ACCEPTED, "a refusal");
    chip = answer->chip;
    int_pin = answer->pin;
}

void spi(const uint8_t *send, uint8_t *receive, size_t n)
{
    max3420e_answer answer = max3420e_transfer(chip, send, n, receive, n);
    store(&answer);
}

int int_is_low(void) { return int_pin == MAX3420E_PIN_LOW; }

/* ---- The host. */

static uint8_t address;
static uint8_t packet[MAX3420E_BUFFER];

static max3420e_answer event(uint8_t code, uint8_t endpoint, const uint8_t *payload, size_t n)
{
    const uint8_t damaged = 0, data1 = 1, acknowledged = 1;
    max3420e_answer answer = max3420e_event(chip, code, 0, address, endpoint, damaged, data1, acknowledged, payload, n,
                                            packet, sizeof packet);
    store(&answer);
    return answer;
}

static max3420e_answer plain(uint8_t code) { return event(code, 0, (const uint8_t *)"", 0); }

/* An IN, or an empty OUT. NAK means that the firmware is not ready: it gets to run, and the host asks again. */
static max3420e_answer token(uint8_t code, uint8_t endpoint)
{
    max3420e_answer answer = event(code, endpoint, (const uint8_t *)"", 0);
    for (int tries = 0; answer.pid == MAX3420E_NAK && tries < 3; tries++) {
        run_firmware();
        answer = event(code, endpoint, (const uint8_t *)"", 0);
    }
    return answer;
}

static void print_bytes(const uint8_t *bytes, size_t n)
{
    for (size_t i = 0; i < n; i++)
        printf(" %02X", (unsigned)bytes[i]);
}

enum { STALLED = -1 };

/* A control transfer: SETUP, data if any, status. `wanted`: how many bytes the device should send, or STALLED. */
static void control(const char *name, int wanted, const uint8_t setup[MAX3420E_SETUP])
{
    int reads = (setup[0] & 0x80) != 0 && (setup[6] | setup[7]) != 0;
    printf("%-28s", name);
    print_bytes(setup, MAX3420E_SETUP);
    expect(event(MAX3420E_SETUP_TOKEN, 0, setup, MAX3420E_SETUP).pid == MAX3420E_ACK, "SETUP is not acknowledged");
    max3420e_answer answer = token(MAX3420E_IN_TOKEN, 0);
    if (answer.pid == MAX3420E_STALL) {
        printf(" : stall\n");
        expect(wanted == STALLED, "STALL");
        return;
    }
    printf(" :");
    print_bytes(packet, answer.count);
    puts(answer.count > 0 ? "" : " ack");
    expect(answer.pid == MAX3420E_DATA1 && answer.count == wanted, "the packet");
    if (reads)
        expect(token(MAX3420E_OUT_TOKEN, 0).pid == MAX3420E_ACK, "the status stage");
}

#define CONTROL(name, wanted, ...) control(name, wanted, (const uint8_t[MAX3420E_SETUP]){__VA_ARGS__})

static void bus_reset(void)
{
    printf("bus reset\n");
    address = 0;
    plain(MAX3420E_RESET_START);
    run_firmware();
    plain(MAX3420E_RESET_END);
    run_firmware();
}

static void enumerate(void)
{
    bus_reset();
    CONTROL("device descriptor, start", 8, 0x80, 6, 0, 1, 0, 0, 8, 0);
    bus_reset(); /* a host that now knows the packet size starts over */
    CONTROL("device descriptor", 18, 0x80, 6, 0, 1, 0, 0, 18, 0);
    CONTROL("set address", 0, 0x00, 5, 3, 0, 0, 0, 0, 0);
    address = 3;
    CONTROL("configuration, start", 9, 0x80, 6, 0, 2, 0, 0, 9, 0);
    CONTROL("configuration, all", 34, 0x80, 6, 0, 2, 0, 0, 255, 0);
    CONTROL("languages", 4, 0x80, 6, 0, 3, 0, 0, 255, 0);
    CONTROL("string 1", 16, 0x80, 6, 1, 3, 9, 4, 255, 0);
    CONTROL("string 2", 22, 0x80, 6, 2, 3, 9, 4, 255, 0);
    CONTROL("string 3", 10, 0x80, 6, 3, 3, 9, 4, 255, 0);
    CONTROL("string 200, not there", STALLED, 0x80, 6, 200, 3, 9, 4, 255, 0);
    CONTROL("interface, not configured", STALLED, 0x81, 10, 0, 0, 0, 0, 1, 0);
    CONTROL("set configuration", 0, 0x00, 9, 1, 0, 0, 0, 0, 0);
    CONTROL("report descriptor", 40, 0x81, 6, 0, 0x22, 0, 0, 255, 0);
    CONTROL("configuration", 1, 0x80, 8, 0, 0, 0, 0, 1, 0);
    CONTROL("set interface", 0, 0x01, 11, 0, 0, 0, 0, 0, 0);
    CONTROL("interface", 1, 0x81, 10, 0, 0, 0, 0, 1, 0);
    CONTROL("remote wakeup on", 0, 0x00, 3, 1, 0, 0, 0, 0, 0);
    CONTROL("device status", 2, 0x80, 0, 0, 0, 0, 0, 2, 0);
}

/* A stalled request in between does not end the halt. */
static void halt_and_free(void)
{
    CONTROL("halt endpoint 3", 0, 0x02, 3, 0, 0, 0x83, 0, 0, 0);
    CONTROL("set idle, not known", STALLED, 0x21, 10, 0, 0, 0, 0, 0, 0);
    expect(token(MAX3420E_IN_TOKEN, 3).pid == MAX3420E_STALL, "endpoint 3 is not halted");
    CONTROL("endpoint 3 status", 2, 0x82, 0, 0, 0, 0x83, 0, 2, 0);
    expect(packet[0] == 1, "the status tells no halt");
    CONTROL("free endpoint 3", 0, 0x02, 1, 0, 0, 0x83, 0, 0, 0);
}

static void take_report(unsigned number)
{
    max3420e_answer answer = token(MAX3420E_IN_TOKEN, 3);
    long temperature = packet[0] | (long)packet[1] << 8, depth = packet[2] | (long)packet[3] << 8;
    if (temperature >= 32768)
        temperature -= 65536;
    printf("report %u:", (unsigned)packet[4]);
    print_bytes(packet, answer.count);
    printf(" : %ld hundredths of a degree, %ld mm\n", temperature, depth);
    expect(answer.pid == (number % 2 ? MAX3420E_DATA1 : MAX3420E_DATA0), "the toggle");
    expect(answer.count == 5 && packet[4] == number, "the report");
}

int main(void)
{
    chip = max3420e_power_on();
    plain(MAX3420E_POWER_ON);
    initialize();
    plain(MAX3420E_STABLE); /* after initialize(): its chip reset stops the oscillator */
    plain(MAX3420E_VBUS_ON);
    printf("powered, connected\n");
    enumerate();
    halt_and_free();
    for (unsigned number = 0; number < 3; number++)
        take_report(number);
    expect(token(MAX3420E_IN_TOKEN, 3).pid == MAX3420E_NAK, "a fourth report");
    printf("%s\n", faults == 0 ? "done" : "failed");
    return faults != 0;
}
