/* Firmware of a snow probe: USB enumeration, and reports on endpoint 3. It knows the chip by spi() and the INT line only,
 * so it runs on hardware as it runs on the model (host.c plays board and host). The structure is that of a vendor's
 * sample: wreg, rreg and bursts, a service routine for the IRQ bits, a switch on bRequest.
 *   cc -std=c99 -Iinclude examples/firmware.c examples/host.c target/staticlib/libcapi.a -o firmware && ./firmware */
#include "firmware.h"

#include <string.h>

/* ---- Registers and bits, by the maker's names. */

enum { EP0FIFO = 0, EP3INFIFO = 3, SUDFIFO = 4, EP0BC = 5, EP3INBC = 8, EPSTALLS = 9, CLRTOGS = 10, EPIRQ = 11, EPIEN = 12,
       USBIRQ = 13, USBIEN = 14, USBCTL = 15, CPUCTL = 16, PINCTL = 17, FNADDR = 19 };
enum { STLSTAT = 0x20, STLEP3IN = 0x10, STLEP2IN = 0x08, STLEP1OUT = 0x04, STLEP0OUT = 0x02, STLEP0IN = 0x01,
       CTGEP3IN = 0x10, CTGEP2IN = 0x08, CTGEP1OUT = 0x04, SUDAVIRQ = 0x20, IN3BAVIRQ = 0x10, URESDNIRQ = 0x80, URESIRQ = 0x08,
       VBGATE = 0x40, CHIPRES = 0x20, CONNECT = 0x08, IE = 0x01, FDUPSPI = 0x10, INTLEVEL = 0x08 };

enum { READ = 0x00, WRITE = 0x02, ACK_STATUS = 0x01 }; /* bits of the command byte */
enum { BUFFER = 64 };                                  /* bytes of a packet, at most */

static uint8_t exchange(unsigned reg, unsigned mode, uint8_t value)
{
    uint8_t send[2], receive[2];
    send[0] = (uint8_t)(reg << 3 | mode);
    send[1] = value;
    spi(send, receive, sizeof send);
    return receive[1];
}

static void wreg(unsigned reg, uint8_t value) { exchange(reg, WRITE, value); }
static void wreg_as(unsigned reg, uint8_t value) { exchange(reg, WRITE | ACK_STATUS, value); }
static uint8_t rreg(unsigned reg) { return exchange(reg, READ, 0); }

static void readbytes(unsigned reg, uint8_t *bytes, size_t n)
{
    uint8_t send[BUFFER + 1] = {0}, receive[BUFFER + 1];
    send[0] = (uint8_t)(reg << 3 | READ);
    spi(send, receive, n + 1);
    memcpy(bytes, receive + 1, n);
}

static void writebytes(unsigned reg, const uint8_t *bytes, size_t n)
{
    uint8_t send[BUFFER + 1], receive[BUFFER + 1];
    send[0] = (uint8_t)(reg << 3 | WRITE);
    memcpy(send + 1, bytes, n);
    spi(send, receive, n + 1);
}

/* ---- Descriptors. None is over 64 bytes, so that each goes in one packet. */

static const uint8_t report_descriptor[] = {
    0x06, 0x00, 0xFF, 0x09, 0x01, 0xA1, 0x01,                                           /* a vendor's collection */
    0x09, 0x02, 0x16, 0x60, 0xF0, 0x26, 0xD0, 0x07, 0x75, 0x10, 0x95, 0x01, 0x81, 0x02, /* temperature, -4000..2000 */
    0x09, 0x03, 0x15, 0x00, 0x26, 0xB8, 0x0B, 0x81, 0x02,                               /* depth, 0..3000 */
    0x09, 0x04, 0x26, 0xFF, 0x00, 0x75, 0x08, 0x81, 0x02,                               /* sequence number */
    0xC0};
static const uint8_t device_descriptor[] = {18, 1, 0x00, 0x02, 0, 0, 0, 64, 0x09, 0x12, 0x01, 0x00, 0x00, 0x01, 1, 2, 3, 1};
static const uint8_t configuration_descriptor[] = {
    9, 2, 34, 0, 1, 1, 0, 0xE0, 1,                                        /* self-powered, remote wakeup, 2 mA */
    9, 4, 0, 0, 1, 3, 0, 0, 0,                                            /* one HID interface */
    9, 0x21, 0x11, 0x01, 0, 1, 0x22, (uint8_t)sizeof report_descriptor, 0, /* HID */
    7, 5, 0x83, 3, 64, 0, 10};                                            /* endpoint 3 IN, interrupt, 10 ms */
static const uint8_t hid_at = 18;
static const char *const strings[] = {"", "Example", "Snow probe", "0001"};

/* ---- The firmware's own state. */

static uint8_t configuration, wakeup, halted, sequence;
static const struct { int16_t temperature; uint16_t depth; } readings[] = {{-1234, 0}, {-56, 1500}, {2000, 3000}};

/* Enable bits stand where their IRQ bits do. A bus reset clears EPIEN, so this is called again after each. IN3BAVIRQ is
 * 1 from the start; it asks for a report once there is a host that takes one. */
static void enable_irqs(void)
{
    wreg(EPIEN, configuration ? SUDAVIRQ | IN3BAVIRQ : SUDAVIRQ);
    wreg(USBIEN, URESIRQ | URESDNIRQ);
}

void initialize(void)
{
    wreg(PINCTL, FDUPSPI | INTLEVEL); /* first, so that later reads are full-duplex */
    wreg(USBCTL, CHIPRES);
    wreg(USBCTL, 0);
    wreg(USBCTL, CONNECT | VBGATE); /* self-powered: no pull-up while VBUS is off */
    enable_irqs();
    wreg(CPUCTL, IE);
}

/* 0x23 alone would drop the halts of the other endpoints: their bits are kept. */
static void stall_ep0(void)
{
    uint8_t halts = rreg(EPSTALLS) & (STLEP3IN | STLEP2IN | STLEP1OUT);
    wreg(EPSTALLS, halts | STLSTAT | STLEP0OUT | STLEP0IN);
}

static void acknowledge(void) { exchange(FNADDR, READ | ACK_STATUS, 0); } /* a read for the sake of its command byte */

/* Fields of the setup bytes. All sixteen bits count: 0183 is not endpoint 83. */
static unsigned wvalue(const uint8_t *setup) { return setup[2] | (unsigned)setup[3] << 8; }
static unsigned windex(const uint8_t *setup) { return setup[4] | (unsigned)setup[5] << 8; }
static unsigned wlength(const uint8_t *setup) { return setup[6] | (unsigned)setup[7] << 8; }

/* The smaller of what is asked and what there is; nothing to send is just acknowledged. */
static void send(const uint8_t *setup, const uint8_t *bytes, size_t n)
{
    if (n > wlength(setup))
        n = wlength(setup);
    if (n == 0) {
        acknowledge();
        return;
    }
    writebytes(EP0FIFO, bytes, n);
    wreg_as(EP0BC, (uint8_t)n);
}

/* The index comes from the host, so it is checked before it is used. */
static void send_string(const uint8_t *setup)
{
    uint8_t bytes[BUFFER] = {4, 3, 0x09, 0x04};
    unsigned index = setup[2];
    if (index >= sizeof strings / sizeof strings[0]) {
        stall_ep0();
        return;
    }
    size_t letters = strlen(strings[index]); /* at most 31 */
    for (size_t i = 0; i < letters; i++)
        bytes[2 + 2 * i] = (uint8_t)strings[index][i], bytes[3 + 2 * i] = 0;
    if (index > 0)
        bytes[0] = (uint8_t)(2 + 2 * letters);
    send(setup, bytes, bytes[0]);
}

static void get_descriptor(const uint8_t *setup)
{
    switch (setup[0] << 8 | setup[3]) { /* recipient and descriptor type */
    case 0x8001: send(setup, device_descriptor, sizeof device_descriptor); break;
    case 0x8002: send(setup, configuration_descriptor, sizeof configuration_descriptor); break;
    case 0x8003: send_string(setup); break;
    case 0x8121: send(setup, configuration_descriptor + hid_at, configuration_descriptor[hid_at]); break;
    case 0x8122: send(setup, report_descriptor, sizeof report_descriptor); break;
    default: stall_ep0();
    }
}

static void get_status(const uint8_t *setup)
{
    uint8_t status[2] = {0, 0}, known = 0;
    switch ((uint32_t)setup[0] << 16 | windex(setup)) { /* recipient and its number */
    case 0x800000: known = 1, status[0] = (uint8_t)(1 | wakeup << 1); break; /* self-powered */
    case 0x810000: known = configuration; break;
    case 0x820000: case 0x820080: known = 1; break;
    case 0x820083: known = configuration, status[0] = halted; break;
    }
    if (known)
        send(setup, status, sizeof status);
    else
        stall_ep0();
}

/* EPSTALLS and CLRTOGS hold no IRQ bits, so reading, changing and writing back loses nothing. */
static void set_halt(uint8_t on)
{
    uint8_t stalls = rreg(EPSTALLS) & (uint8_t)~STLEP3IN;
    halted = on;
    wreg(EPSTALLS, on ? stalls | STLEP3IN : stalls);
    if (!on)
        wreg(CLRTOGS, rreg(CLRTOGS) | CTGEP3IN);
    acknowledge();
}

static void feature(const uint8_t *setup, uint8_t on)
{
    if (setup[0] == 0x02 && wvalue(setup) == 0 && windex(setup) == 0x83 && configuration) {
        set_halt(on);
    } else if (setup[0] == 0x00 && wvalue(setup) == 1) {
        wakeup = on;
        acknowledge();
    } else {
        stall_ep0();
    }
}

static void set_configuration(const uint8_t *setup)
{
    if (wvalue(setup) > 1) {
        stall_ep0();
        return;
    }
    configuration = (uint8_t)wvalue(setup);
    wreg(CLRTOGS, rreg(CLRTOGS) | CTGEP1OUT | CTGEP2IN | CTGEP3IN);
    enable_irqs();
    set_halt(0); /* ends a halt, and acknowledges */
}

/* Interface 0 has one setting, 0. */
static void interface(const uint8_t *setup, int set)
{
    static const uint8_t setting = 0;
    if (!configuration || windex(setup) != 0 || wvalue(setup) != 0)
        stall_ep0();
    else if (set)
        acknowledge();
    else
        send(setup, &setting, 1);
}

static void do_setup(void)
{
    uint8_t setup[8];
    readbytes(SUDFIFO, setup, sizeof setup);
    switch ((setup[0] & 0x60) == 0 ? setup[1] : 0xFF) { /* class and vendor requests are stalled */
    case 0x00: get_status(setup); break;
    case 0x01: feature(setup, 0); break;
    case 0x03: feature(setup, 1); break;
    case 0x05: acknowledge(); break; /* the chip takes the address by itself */
    case 0x06: get_descriptor(setup); break;
    case 0x08: send(setup, &configuration, 1); break;
    case 0x09: set_configuration(setup); break;
    case 0x0A: interface(setup, 0); break;
    case 0x0B: interface(setup, 1); break;
    default: stall_ep0();
    }
}

/* The byte count arms the packet and clears IN3BAVIRQ; the bit itself is never written. */
static void do_in3(void)
{
    size_t next = sequence;
    if (next >= sizeof readings / sizeof readings[0]) {
        wreg(EPIEN, SUDAVIRQ); /* nothing more to report: stop asking */
        return;
    }
    uint16_t temperature = (uint16_t)readings[next].temperature, depth = readings[next].depth;
    uint8_t report[5] = {(uint8_t)temperature, (uint8_t)(temperature >> 8), (uint8_t)depth, (uint8_t)(depth >> 8), sequence++};
    writebytes(EP3INFIFO, report, sizeof report);
    wreg(EP3INBC, sizeof report);
}

/* Each IRQ bit is cleared by writing it alone: or-ing it into what was read would clear the others unserved. */
static void service_irqs(void)
{
    uint8_t epirq = rreg(EPIRQ), usbirq = rreg(USBIRQ);
    if (usbirq & URESIRQ) {
        wreg(USBIRQ, URESIRQ);
        configuration = wakeup = halted = 0;
    }
    if (usbirq & URESDNIRQ) {
        wreg(USBIRQ, URESDNIRQ);
        enable_irqs();
    }
    if (epirq & SUDAVIRQ) {
        wreg(EPIRQ, SUDAVIRQ);
        do_setup();
    }
    if ((epirq & IN3BAVIRQ) && configuration)
        do_in3();
}

/* The line is low while something is to be done; a real main loop runs for ever. */
void run_firmware(void)
{
    for (int passes = 0; int_is_low() && passes < 8; passes++)
        service_irqs();
}
