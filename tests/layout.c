/* Does libcapi.a lay out the records as include/max3420e.h does? Prints where each field stands. Checks that a refused
 * call hands a record of distinct values back, field by field; that each byte of it has its own limit of soundness; and
 * what single calls read and change, which tells fields with equal limits apart. The same of a classroom, desk by desk,
 * and of lessons: files by hand, and a replay beside the same calls made one by one. Exit status 1 on a mismatch. */
#include <stdio.h>
#include <string.h>

#include "max3420e.h"

/* A field: where it stands in its struct; for the chip's, the largest sound value of a byte and the bits that are 0. */
typedef struct {
    const char *owner, *name;
    size_t offset, size;
    unsigned limit, unused;
} field;

#define SIZE(type, member) sizeof(((type *)0)->member)
#define FIELD(type, member, limit, unused) {#type, #member, offsetof(type, member), SIZE(type, member), limit, unused}
#define CHIP(member, limit, unused) FIELD(max3420e_chip, member, limit, unused)
#define OF(type, member) FIELD(type, member, 0, 0)
#define COUNT(table) (sizeof(table) / sizeof((table)[0]))

static const field chip_fields[] = {
    CHIP(ep0.bytes, 255, 0), CHIP(ep0.setup, 255, 0), CHIP(ep0.count, 64, 0), CHIP(ep0.armed, 1, 0),
    CHIP(ep0.readpos, 64, 0), CHIP(ep0.writepos, 64, 0), CHIP(ep0.setuppos, 8, 0), CHIP(ep0.intoggle, 1, 0),
    CHIP(ep0.outtoggle, 1, 0), CHIP(ep0.current, 1, 0),
    CHIP(ep1.ring.bytes, 255, 0), CHIP(ep1.ring.counts, 64, 0), CHIP(ep1.ring.oldest, 1, 0),
    CHIP(ep1.ring.waiting, 2, 0), CHIP(ep1.readpos, 64, 0), CHIP(ep1.toggle, 1, 0),
    CHIP(ep2.ring.bytes, 255, 0), CHIP(ep2.ring.counts, 64, 0), CHIP(ep2.ring.oldest, 1, 0),
    CHIP(ep2.ring.waiting, 2, 0), CHIP(ep2.count, 64, 0), CHIP(ep2.writepos, 64, 0), CHIP(ep2.toggle, 1, 0),
    CHIP(ep3.bytes, 255, 0), CHIP(ep3.count, 64, 0), CHIP(ep3.armed, 1, 0), CHIP(ep3.writepos, 64, 0),
    CHIP(ep3.toggle, 1, 0),
    CHIP(registers.epstalls, 255, 0x80), CHIP(registers.clrtogs, 255, 0x1F), CHIP(registers.epirq, 255, 0xC0),
    CHIP(registers.epien, 255, 0xC0), CHIP(registers.usbirq, 255, 0), CHIP(registers.usbien, 255, 0),
    CHIP(registers.usbctl, 255, 0x03), CHIP(registers.cpuctl, 255, 0xFE), CHIP(registers.pinctl, 255, 0),
    CHIP(registers.fnaddr, 255, 0x80), CHIP(registers.iopins, 255, 0),
    CHIP(power.vbus, 1, 0), CHIP(power.oscok, 1, 0),
};

static const field other_fields[] = {
    OF(max3420e_ring, bytes), OF(max3420e_ring, counts), OF(max3420e_ring, oldest), OF(max3420e_ring, waiting),
    OF(max3420e_endpoint0, bytes), OF(max3420e_endpoint0, setup), OF(max3420e_endpoint0, count),
    OF(max3420e_endpoint0, armed), OF(max3420e_endpoint0, readpos), OF(max3420e_endpoint0, writepos),
    OF(max3420e_endpoint0, setuppos), OF(max3420e_endpoint0, intoggle), OF(max3420e_endpoint0, outtoggle),
    OF(max3420e_endpoint0, current),
    OF(max3420e_endpoint1, ring), OF(max3420e_endpoint1, readpos), OF(max3420e_endpoint1, toggle),
    OF(max3420e_endpoint2, ring), OF(max3420e_endpoint2, count), OF(max3420e_endpoint2, writepos),
    OF(max3420e_endpoint2, toggle),
    OF(max3420e_endpoint3, bytes), OF(max3420e_endpoint3, count), OF(max3420e_endpoint3, armed),
    OF(max3420e_endpoint3, writepos), OF(max3420e_endpoint3, toggle),
    OF(max3420e_registers, epstalls), OF(max3420e_registers, clrtogs), OF(max3420e_registers, epirq),
    OF(max3420e_registers, epien), OF(max3420e_registers, usbirq), OF(max3420e_registers, usbien),
    OF(max3420e_registers, usbctl), OF(max3420e_registers, cpuctl), OF(max3420e_registers, pinctl),
    OF(max3420e_registers, fnaddr), OF(max3420e_registers, iopins),
    OF(max3420e_power, vbus), OF(max3420e_power, oscok),
    OF(max3420e_chip, ep0), OF(max3420e_chip, ep1), OF(max3420e_chip, ep2), OF(max3420e_chip, ep3),
    OF(max3420e_chip, registers), OF(max3420e_chip, power),
    OF(max3420e_firmware, configuration), OF(max3420e_firmware, wakeup), OF(max3420e_firmware, halted),
    OF(max3420e_answer, chip), OF(max3420e_answer, refusal), OF(max3420e_answer, pid), OF(max3420e_answer, count),
    OF(max3420e_answer, pin), OF(max3420e_answer, found),
    OF(max3420e_board_answer, chip), OF(max3420e_board_answer, firmware), OF(max3420e_board_answer, refusal),
    OF(max3420e_board_answer, kind), OF(max3420e_board_answer, count), OF(max3420e_board_answer, pin),
    OF(max3420e_board_answer, found),
    OF(max3420e_request_answer, firmware), OF(max3420e_request_answer, refusal), OF(max3420e_request_answer, kind),
    OF(max3420e_request_answer, endpoints), OF(max3420e_request_answer, count), OF(max3420e_request_answer, found),
    OF(max3420e_board, chip), OF(max3420e_board, firmware),
    OF(max3420e_desk, board), OF(max3420e_desk, opened), OF(max3420e_desk, key),
    OF(max3420e_classroom, desks),
    OF(max3420e_teacher_answer, classroom), OF(max3420e_teacher_answer, refusal),
    OF(max3420e_desk_answer, classroom), OF(max3420e_desk_answer, refusal), OF(max3420e_desk_answer, pid),
    OF(max3420e_desk_answer, count), OF(max3420e_desk_answer, pin), OF(max3420e_desk_answer, found),
    OF(max3420e_desk_step_answer, classroom), OF(max3420e_desk_step_answer, refusal),
    OF(max3420e_desk_step_answer, kind), OF(max3420e_desk_step_answer, count), OF(max3420e_desk_step_answer, pin),
    OF(max3420e_desk_step_answer, found),
    OF(max3420e_lesson_answer, refusal), OF(max3420e_lesson_answer, found), OF(max3420e_lesson_answer, count),
    OF(max3420e_replay_answer, chip), OF(max3420e_replay_answer, refusal), OF(max3420e_replay_answer, pin),
    OF(max3420e_replay_answer, found), OF(max3420e_replay_answer, count),
};

static unsigned mismatches;
static uint8_t reply[MAX3420E_BUFFER];

static void expect(int holds, const char *what)
{
    if (!holds) {
        printf("mismatch: %s\n", what);
        mismatches++;
    }
}

static void print_fields(const field *fields, size_t count)
{
    for (size_t i = 0; i < count; i++)
        printf("%-25s %-20s at %4u size %4u\n", fields[i].owner, fields[i].name, (unsigned)fields[i].offset,
               (unsigned)fields[i].size);
}

/* The chip's fields follow each other without a gap. */
static void check_gaps(void)
{
    size_t end = 0;
    for (size_t i = 0; i < COUNT(chip_fields); i++) {
        expect(chip_fields[i].offset == end, chip_fields[i].name);
        end = chip_fields[i].offset + chip_fields[i].size;
    }
    expect(end == sizeof(max3420e_chip), "sizeof(max3420e_chip)");
}

/* Sets the bits of R11 that tell whether packets wait, as they are where no BAV bit was cleared by hand. */
static void tie_irqs(max3420e_chip *chip)
{
    unsigned bits = (chip->ep3.armed == 0) << 4 | (chip->ep2.ring.waiting < 2) << 3 | (chip->ep1.ring.waiting > 0) << 2;
    chip->registers.epirq = (uint8_t)((chip->registers.epirq & 0xE3) | bits);
}

/* A sound record that hears address 25, in a control read, with as many distinct values as soundness allows. */
static max3420e_chip distinct(void)
{
    max3420e_chip chip;
    uint8_t *bytes = (uint8_t *)&chip;
    for (size_t i = 0; i < sizeof chip; i++)
        bytes[i] = (uint8_t)(i * 5 + i / 256 + 0x80);
    chip.ep0.setup[0] |= 0x80;
    chip.ep0.count = 10, chip.ep0.armed = 0, chip.ep0.readpos = 3, chip.ep0.writepos = 5, chip.ep0.setuppos = 2;
    chip.ep0.intoggle = 1, chip.ep0.outtoggle = 0, chip.ep0.current = 1;
    chip.ep1.ring.counts[0] = 20, chip.ep1.ring.counts[1] = 30, chip.ep1.ring.oldest = 1, chip.ep1.ring.waiting = 2;
    chip.ep1.readpos = 6, chip.ep1.toggle = 1;
    chip.ep2.ring.counts[0] = 40, chip.ep2.ring.counts[1] = 50, chip.ep2.ring.oldest = 0, chip.ep2.ring.waiting = 1;
    chip.ep2.count = 60, chip.ep2.writepos = 7, chip.ep2.toggle = 1;
    chip.ep3.count = 9, chip.ep3.armed = 0, chip.ep3.writepos = 8, chip.ep3.toggle = 1;
    chip.registers = (max3420e_registers){0x4C, 0xA0, 0x20, 0x12, 0x11, 0x86, 0x08, 0x01, 0x1B, 0x25, 0x7E};
    chip.power.vbus = 0, chip.power.oscok = 1;
    tie_irqs(&chip);
    return chip;
}

static void expect_same(const max3420e_chip *got, const max3420e_chip *wanted, const char *what)
{
    for (size_t i = 0; i < COUNT(chip_fields); i++) {
        const field *f = &chip_fields[i];
        if (memcmp((const uint8_t *)got + f->offset, (const uint8_t *)wanted + f->offset, f->size) != 0) {
            printf("field %s: ", f->name);
            expect(0, what);
        }
    }
}

/* Each byte of a field with each value: refused for it exactly over the limit, and handed back as it was. */
static void check_limits(const field *f)
{
    for (size_t at = f->offset; at < f->offset + f->size; at++)
        for (unsigned value = 0; value < 256; value++) {
            max3420e_chip chip = distinct();
            ((uint8_t *)&chip)[at] = (uint8_t)value;
            tie_irqs(&chip);
            int sound = value <= f->limit && (value & f->unused) == 0;
            max3420e_answer answer = max3420e_transfer(chip, reply, 0, reply, 0);
            expect(answer.refusal == (sound ? MAX3420E_NO_COMMAND : MAX3420E_UNSOUND), f->name);
            expect(answer.pid == 0 && answer.count == 0 && answer.found == 0, "the answer of a refused transfer");
            expect_same(&answer.chip, &chip, "a refused transfer changes it");
        }
}

/* A BAV bit may be 1 only where there is room, OUT1DAVIRQ is 1 exactly if packets wait: all values of the three bits and counts. */
static void check_irqs(void)
{
    for (unsigned bits = 0; bits < 8; bits++)
        for (unsigned counts = 0; counts < 3 * 3 * 2; counts++) {
            unsigned in3 = bits >> 2 & 1, in2 = bits >> 1 & 1, out1 = bits & 1;
            max3420e_chip chip = distinct();
            chip.ep1.ring.waiting = (uint8_t)(counts % 3), chip.ep2.ring.waiting = (uint8_t)(counts / 3 % 3);
            chip.ep3.armed = (uint8_t)(counts / 9);
            chip.registers.epirq = (uint8_t)((chip.registers.epirq & 0xE3) | bits << 2);
            int sound = !(in3 && chip.ep3.armed) && !(in2 && chip.ep2.ring.waiting == 2) && out1 == (chip.ep1.ring.waiting > 0);
            max3420e_answer answer = max3420e_transfer(chip, reply, 0, reply, 0);
            expect(answer.refusal == (sound ? MAX3420E_NO_COMMAND : MAX3420E_UNSOUND), "IRQ bits and waiting packets");
        }
}

/* A transfer on the distinct record gives this byte and this record; `wanted` then starts over. */
static void expect_transfer(uint8_t command, uint8_t byte, uint8_t wanted_byte, max3420e_chip *wanted, const char *what)
{
    uint8_t bytes[2];
    bytes[0] = command, bytes[1] = byte;
    max3420e_answer answer = max3420e_transfer(distinct(), bytes, 2, reply, sizeof reply);
    expect(answer.refusal == 0 && answer.count == 2 && reply[1] == wanted_byte, what);
    expect_same(&answer.chip, wanted, what);
    *wanted = distinct();
}

static void check_transfers(void)
{
    max3420e_chip next = distinct();
    next.ep0.readpos++;
    expect_transfer(0x00, 0, next.ep0.bytes[3], &next, "R0 read");
    next.ep1.readpos++;
    expect_transfer(0x08, 0, next.ep1.ring.bytes[64 + 6], &next, "R1 read");
    next.ep0.setuppos++;
    expect_transfer(0x20, 0, next.ep0.setup[2], &next, "R4 read");
    next.ep0.bytes[next.ep0.writepos++] = 1;
    expect_transfer(0x02, 1, 0, &next, "R0 written");
    next.ep2.ring.bytes[64 + next.ep2.writepos++] = 1;
    expect_transfer(0x12, 1, 0, &next, "R2 written");
    next.ep3.bytes[next.ep3.writepos++] = 1;
    expect_transfer(0x1A, 1, 0, &next, "R3 written");
    next.ep1.toggle = 0;
    expect_transfer(0x52, 0xA4, 0, &next, "CTGEP1OUT");
    next.ep2.toggle = 0;
    expect_transfer(0x52, 0xA8, 0, &next, "CTGEP2IN");
    next.ep3.toggle = 0;
    expect_transfer(0x52, 0xB0, 0, &next, "CTGEP3IN");
    next.ep2.ring.counts[1] = next.ep2.count = 33, next.ep2.ring.waiting = 2, next.ep2.writepos = 0;
    tie_irqs(&next);
    expect_transfer(0x3A, 33, 0, &next, "R7 written");
    next.registers.epirq &= 0x27;
    expect_transfer(0x5A, 0x18, 0, &next, "IN2BAVIRQ and IN3BAVIRQ cleared");
}

/* R5 to R20 as read from the distinct record. */
static void check_registers(void)
{
    static const uint8_t wanted[17] = {0xBC, 10, 30, 60, 9, 0x4C, 0xA0, 0x3C, 0x12, 0x11, 0x86, 0x08, 0x01, 0x1B, 0x01, 0x25, 0x7E};
    static const uint8_t bytes[17] = {0x28};
    max3420e_answer answer = max3420e_transfer(distinct(), bytes, sizeof bytes, reply, sizeof reply);
    expect(answer.count == sizeof bytes && memcmp(reply, wanted, sizeof bytes) == 0, "R5 to R20");
    expect(answer.pin == MAX3420E_PIN_LOW, "the pin");
}

static void check_events(void)
{
    max3420e_chip chip = distinct(), next = chip;
    next.power.vbus = 1, next.registers.usbirq |= 0x40;
    max3420e_answer answer = max3420e_event(chip, MAX3420E_VBUS_ON, 0, 0, 0, 0, 0, 0, reply, 0, reply, 0);
    expect_same(&answer.chip, &next, "VBUS on");
    chip.ep0.armed = 1, next = chip;
    next.ep0.armed = 0, next.ep0.intoggle = 0, next.registers.epirq |= 0x01;
    answer = max3420e_event(chip, MAX3420E_IN_TOKEN, 0, 0x25, 0, 0, 0, 1, reply, 0, reply, sizeof reply);
    expect(answer.refusal == 0 && answer.pid == MAX3420E_DATA1 && answer.count == 10, "IN at endpoint 0");
    expect(memcmp(reply, chip.ep0.bytes, 10) == 0, "the packet of endpoint 0");
    expect_same(&answer.chip, &next, "IN at endpoint 0");
}

/* A payload of a wrong length is told, whatever is lent and however far the address; any other refusal tells 0. */
static void check_found(void)
{
    static const uint8_t payload[70000];
    static const size_t out[] = {65, 66, 255, 256, 320, 65536, 70000}, setup[] = {0, 7, 9, 64, 264, 65544};
    for (size_t i = 0; i < COUNT(out); i++) {
        max3420e_answer answer = max3420e_event(distinct(), MAX3420E_OUT_TOKEN, 0, 200, 1, 0, 0, 0, payload, out[i], reply, 3);
        expect(answer.refusal == MAX3420E_OUT_PAYLOAD && answer.found == out[i], "the length of an OUT payload");
    }
    for (size_t i = 0; i < COUNT(setup); i++) {
        max3420e_firmware firmware = {1, 0, 0};
        max3420e_answer answer = max3420e_event(distinct(), MAX3420E_SETUP_TOKEN, 0, 200, 0, 0, 0, 0, payload, setup[i], reply, 3);
        expect(answer.refusal == MAX3420E_SETUP_PAYLOAD && answer.found == setup[i], "the length of a SETUP payload");
        max3420e_request_answer request = max3420e_firmware_answer(firmware, payload, setup[i], reply, sizeof reply);
        expect(request.refusal == MAX3420E_SETUP_PAYLOAD && request.found == setup[i], "the length of the setup bytes");
    }
    max3420e_answer answer = max3420e_event(distinct(), MAX3420E_SETUP_TOKEN, 0, 200, 0, 0, 0, 0, payload, 8, reply, 3);
    expect(answer.refusal == MAX3420E_BAD_ADDRESS && answer.found == 0, "a far address");
}

/* The board's answer: the firmware's record handed back, and a device descriptor sent. */
static void check_board(void)
{
    static const uint8_t request[8] = {0x80, 0x06, 0x00, 0x01, 0x00, 0x00, 0x40, 0x00};
    for (unsigned i = 0; i < 64; i++) {
        max3420e_firmware firmware = {(uint8_t)(i & 3), (uint8_t)(i >> 2 & 3), (uint8_t)(i >> 4)};
        int sound = firmware.configuration <= 1 && firmware.wakeup <= 1 && firmware.halted <= firmware.configuration;
        max3420e_board_answer answer = max3420e_board_step(distinct(), firmware, reply, 0);
        expect(answer.refusal == (sound ? MAX3420E_SHORT_BUFFER : MAX3420E_UNSOUND), "the board's refusal");
        expect(answer.found == 0, "the board's refusal tells no length");
        expect(memcmp(&answer.firmware, &firmware, sizeof firmware) == 0, "the firmware's record");
    }
    max3420e_chip chip = distinct();
    memcpy(chip.ep0.setup, request, sizeof request), chip.ep0.setuppos = 0;
    max3420e_firmware configured = {1, 1, 0};
    max3420e_board_answer answer = max3420e_board_step(chip, configured, reply, sizeof reply);
    expect(answer.refusal == 0 && answer.kind == MAX3420E_KIND_DATA && answer.count == 18, "the board's answer");
    expect(answer.pin == MAX3420E_PIN_LOW && reply[0] == 18 && reply[1] == 1, "the device descriptor");
}

/* The firmware's answer: its record handed back, refusals, and a request for each value of `kind` and `endpoints`. */
static void check_firmware(void)
{
    static const uint8_t device[8] = {0x80, 0x06, 0x00, 0x01, 0x00, 0x00, 0x40, 0x00};
    static const uint8_t configure[8] = {0x00, 0x09, 0x01, 0x00, 0x00, 0x00, 0x00, 0x00};
    static const uint8_t halt[8] = {0x02, 0x03, 0x00, 0x00, 0x83, 0x00, 0x00, 0x00};
    static const uint8_t unhalt[8] = {0x02, 0x01, 0x00, 0x00, 0x83, 0x00, 0x00, 0x00};
    static const uint8_t vendor[8] = {0xC0, 0x01, 0x00, 0x00, 0x00, 0x00, 0x00, 0x00};
    for (unsigned i = 0; i < 64; i++) {
        max3420e_firmware firmware = {(uint8_t)(i & 3), (uint8_t)(i >> 2 & 3), (uint8_t)(i >> 4)};
        int sound = firmware.configuration <= 1 && firmware.wakeup <= 1 && firmware.halted <= firmware.configuration;
        max3420e_request_answer answer = max3420e_firmware_answer(firmware, device, 7, reply, sizeof reply);
        expect(answer.refusal == (sound ? MAX3420E_SETUP_PAYLOAD : MAX3420E_UNSOUND), "the firmware's refusal");
        expect(answer.found == (sound ? 7 : 0), "the length that the firmware's refusal tells");
        expect(memcmp(&answer.firmware, &firmware, sizeof firmware) == 0, "the firmware's record");
    }
    max3420e_firmware plain = {0, 1, 0}, configured = {1, 1, 0}, halted = {1, 1, 1};
    max3420e_request_answer answer = max3420e_firmware_answer(plain, device, 8, reply, sizeof reply);
    expect(answer.refusal == 0 && answer.kind == MAX3420E_KIND_DATA && answer.count == 18, "a device descriptor");
    expect(answer.endpoints == 0 && reply[0] == 18 && reply[1] == 1, "the descriptor's bytes");
    answer = max3420e_firmware_answer(plain, configure, 8, reply, sizeof reply);
    expect(answer.kind == MAX3420E_KIND_ACK && answer.endpoints == 3 && answer.firmware.configuration == 1, "configured");
    answer = max3420e_firmware_answer(configured, halt, 8, reply, sizeof reply);
    expect(answer.kind == MAX3420E_KIND_ACK && answer.endpoints == 2 && answer.firmware.halted == 1, "halted");
    answer = max3420e_firmware_answer(halted, unhalt, 8, reply, sizeof reply);
    expect(answer.kind == MAX3420E_KIND_ACK && answer.endpoints == 1 && answer.firmware.halted == 0, "the halt ended");
    answer = max3420e_firmware_answer(configured, vendor, 8, reply, sizeof reply);
    expect(answer.kind == MAX3420E_KIND_STALL && answer.count == 0, "a request that is stalled");
}

static int same_firmware(const max3420e_firmware *a, const max3420e_firmware *b)
{
    return memcmp(a, b, sizeof *a) == 0;
}

/* Desk by desk and field by field: between `opened` and `key` lie bytes that are none. */
static void expect_same_room(const max3420e_classroom *got, const max3420e_classroom *wanted, const char *what)
{
    for (unsigned i = 0; i < MAX3420E_DESKS; i++) {
        const max3420e_desk *g = &got->desks[i], *w = &wanted->desks[i];
        expect_same(&g->board.chip, &w->board.chip, what);
        expect(same_firmware(&g->board.firmware, &w->board.firmware), what);
        expect(g->opened == w->opened && g->key == w->key, what);
    }
}

static uint32_t key_of(unsigned desk)
{
    return 0x01020304u * (desk + 1) + 0x80000000u;
}

/* Sixteen open desks, sound, no two alike. */
static max3420e_classroom distinct_room(void)
{
    max3420e_classroom room = max3420e_classroom_start();
    for (unsigned i = 0; i < MAX3420E_DESKS; i++) {
        max3420e_desk *desk = &room.desks[i];
        desk->board.chip = distinct();
        desk->board.chip.ep0.bytes[i] = (uint8_t)(0xE0 + i);
        desk->board.firmware = (max3420e_firmware){(uint8_t)(i & 1), (uint8_t)(i >> 1 & 1), 0};
        desk->opened = 1, desk->key = key_of(i);
    }
    return room;
}

/* A transfer without a command byte: refused with 2, if with nothing before. */
static unsigned call_refusal(const max3420e_classroom *room, unsigned desk, uint32_t key)
{
    max3420e_desk_answer answer = max3420e_desk_transfer(*room, (uint8_t)desk, key, reply, 0, reply, 0);
    expect(answer.pid == 0 && answer.count == 0 && answer.found == 0, "the answer of a refused call at a desk");
    expect_same_room(&answer.classroom, room, "a refused call at a desk changes the classroom");
    return answer.refusal;
}

static unsigned open_refusal(const max3420e_classroom *room, unsigned desk, uint32_t key)
{
    max3420e_teacher_answer answer = max3420e_open_desk(*room, (uint8_t)desk, key);
    max3420e_classroom wanted = *room;
    if (answer.refusal == 0)
        wanted.desks[desk].opened = 1, wanted.desks[desk].key = key;
    expect_same_room(&answer.classroom, &wanted, "opening a desk");
    return answer.refusal;
}

static unsigned close_refusal(const max3420e_classroom *room, unsigned desk)
{
    max3420e_teacher_answer answer = max3420e_close_desk(*room, (uint8_t)desk);
    max3420e_classroom wanted = *room;
    if (answer.refusal == 0)
        wanted.desks[desk] = max3420e_classroom_start().desks[0];
    expect_same_room(&answer.classroom, &wanted, "closing a desk");
    return answer.refusal;
}

/* All sixteen start closed, at power-on. */
static void check_start(void)
{
    static const max3420e_firmware plain;
    max3420e_classroom room = max3420e_classroom_start();
    max3420e_chip chip = max3420e_power_on();
    for (unsigned i = 0; i < MAX3420E_DESKS; i++) {
        expect_same(&room.desks[i].board.chip, &chip, "a desk's chip at the start");
        expect(same_firmware(&room.desks[i].board.firmware, &plain), "a desk's firmware at the start");
        expect(room.desks[i].opened == 0 && room.desks[i].key == 0, "a desk at the start");
        expect(open_refusal(&room, i, key_of(i)) == 0, "the desk is opened");
    }
}

/* 9 to 12 at each desk, each with the grounds that come after it; each bit of a key counts. */
static void check_desk_refusals(void)
{
    max3420e_classroom room = distinct_room(), closed = max3420e_classroom_start();
    for (unsigned number = MAX3420E_DESKS; number < 256; number++) {
        expect(call_refusal(&room, number, 0) == MAX3420E_NO_DESK, "a call at no desk");
        expect(open_refusal(&room, number, 0) == MAX3420E_NO_DESK, "opening no desk");
        expect(close_refusal(&room, number) == MAX3420E_NO_DESK, "closing no desk");
    }
    for (unsigned i = 0; i < MAX3420E_DESKS; i++) {
        unsigned other = (i + 1) % MAX3420E_DESKS;
        expect(call_refusal(&closed, i, 0) == MAX3420E_DESK_STATE, "a call at a closed desk");
        expect(close_refusal(&closed, i) == MAX3420E_DESK_STATE, "closing a closed desk");
        expect(open_refusal(&room, i, 0) == MAX3420E_DESK_STATE, "opening an open desk");
        expect(open_refusal(&closed, i, 0) == MAX3420E_BAD_KEY, "opening with key 0");
        for (unsigned bit = 0; bit < 32; bit++)
            expect(call_refusal(&room, i, key_of(i) ^ (uint32_t)1 << bit) == MAX3420E_WRONG_KEY, "a wrong key");
        expect(call_refusal(&room, i, key_of(i)) == MAX3420E_NO_COMMAND, "the right key");
        max3420e_classroom one = max3420e_close_desk(room, (uint8_t)i).classroom;
        expect(open_refusal(&one, i, key_of(other)) == MAX3420E_BAD_KEY, "a key in use");
        expect(open_refusal(&one, i, key_of(i)) == 0, "a key that was in use");
        expect(close_refusal(&room, i) == 0, "closing a desk");
    }
}

/* Each value of the flag: 1 is open; any other is not, and 0 alone is sound, without a key. */
static void check_opened(void)
{
    for (unsigned value = 0; value < 256; value++) {
        max3420e_classroom room = max3420e_classroom_start(), used = distinct_room();
        room.desks[5].opened = (uint8_t)value, used.desks[5].opened = (uint8_t)value;
        expect(call_refusal(&room, 5, 0) == (value == 1 ? MAX3420E_NO_COMMAND : MAX3420E_DESK_STATE), "a call by the flag");
        expect(close_refusal(&used, 5) == (value == 1 ? 0 : MAX3420E_DESK_STATE), "closing by the flag");
        expect(open_refusal(&room, 5, 9) == (value == 0 ? 0 : value == 1 ? MAX3420E_DESK_STATE : MAX3420E_UNSOUND),
               "opening by the flag");
        expect(open_refusal(&used, 5, 9) == (value == 1 ? MAX3420E_DESK_STATE : MAX3420E_UNSOUND), "opening a used desk");
        expect(open_refusal(&used, 5, key_of(6)) == (value == 1 ? MAX3420E_DESK_STATE : MAX3420E_BAD_KEY), "12 before 1");
        expect(call_refusal(&used, 6, key_of(6)) == MAX3420E_NO_COMMAND, "another desk by the flag");
    }
}

/* A closed desk with one byte other than at power-on, sound or not, is not opened; other desks are. */
static void check_closed_desk(void)
{
    for (size_t at = 0; at < sizeof(max3420e_desk); at++) {
        max3420e_classroom room = max3420e_classroom_start();
        ((uint8_t *)&room.desks[9])[at] ^= 1;
        int gap = at > offsetof(max3420e_desk, opened) && at < offsetof(max3420e_desk, key);
        unsigned wanted = at == offsetof(max3420e_desk, opened) ? MAX3420E_DESK_STATE : gap ? 0 : MAX3420E_UNSOUND;
        expect(open_refusal(&room, 9, 77) == wanted, "opening a desk that is not at power-on");
        expect(open_refusal(&room, 8, 77) == 0, "opening another desk");
    }
}

/* 1 looks at the named desk: the chip's record, the firmware's; after 11. */
static void check_unsound_desk(void)
{
    for (unsigned i = 0; i < 2; i++) {
        max3420e_classroom room = distinct_room();
        if (i == 0)
            room.desks[2].board.chip.power.vbus = 2;
        else
            room.desks[2].board.firmware.wakeup = 2;
        expect(call_refusal(&room, 2, key_of(3)) == MAX3420E_WRONG_KEY, "11 before 1");
        expect(call_refusal(&room, 2, key_of(2)) == MAX3420E_UNSOUND, "a call at a desk that is not sound");
        expect(call_refusal(&room, 3, key_of(3)) == MAX3420E_NO_COMMAND, "a call beside a desk that is not sound");
        expect(close_refusal(&room, 2) == MAX3420E_UNSOUND, "closing a desk that is not sound");
        expect(close_refusal(&room, 3) == 0, "closing a desk beside one that is not sound");
        max3420e_desk_step_answer step = max3420e_desk_step(room, 2, key_of(2), reply, sizeof reply);
        expect(step.refusal == MAX3420E_UNSOUND && step.kind == 0 && step.count == 0, "a step at a desk that is not sound");
    }
}

/* A transfer, an event and a step at each desk: what the board's own give, and no other desk changes. */
static void check_desk_calls(void)
{
    static const uint8_t write_epstalls[2] = {0x4A, 0x31}, wrong[65];
    static const uint8_t request[8] = {0x80, 0x06, 0x00, 0x01, 0x00, 0x00, 0x40, 0x00};
    static const max3420e_firmware plain;
    for (unsigned i = 0; i < MAX3420E_DESKS; i++) {
        uint8_t desk = (uint8_t)i;
        max3420e_classroom room = distinct_room(), wanted = room;
        wanted.desks[i].board.chip.registers.epstalls = 0x31;
        max3420e_desk_answer answer = max3420e_desk_transfer(room, desk, key_of(i), write_epstalls, 2, reply, sizeof reply);
        expect(answer.refusal == 0 && answer.pid == 0 && answer.count == 2 && answer.found == 0, "a transfer at a desk");
        expect(answer.pin == MAX3420E_PIN_LOW, "the pin of a transfer at a desk");
        expect_same_room(&answer.classroom, &wanted, "a transfer at a desk");

        room.desks[i].board.chip.ep0.armed = 1, wanted = room;
        max3420e_answer alone = max3420e_event(room.desks[i].board.chip, MAX3420E_IN_TOKEN, 0, 0x25, 0, 0, 0, 1, reply, 0,
                                               reply, sizeof reply);
        wanted.desks[i].board.chip = alone.chip;
        answer = max3420e_desk_event(room, desk, key_of(i), MAX3420E_IN_TOKEN, 0, 0x25, 0, 0, 0, 1, reply, 0, reply,
                                     sizeof reply);
        expect(answer.refusal == 0 && answer.pid == MAX3420E_DATA1 && answer.count == 10, "IN at a desk");
        expect(answer.pin == alone.pin, "the pin of IN at a desk");
        expect(memcmp(reply, room.desks[i].board.chip.ep0.bytes, 10) == 0, "the packet of IN at a desk");
        expect_same_room(&answer.classroom, &wanted, "IN at a desk");
        answer = max3420e_desk_event(room, desk, key_of(i), MAX3420E_OUT_TOKEN, 0, 200, 1, 0, 0, 0, wrong, 65, reply, 3);
        expect(answer.refusal == MAX3420E_OUT_PAYLOAD && answer.found == 65, "the length of an OUT payload at a desk");
        wanted = room, wanted.desks[i].board.chip = max3420e_power_on(), wanted.desks[i].board.firmware = plain;
        answer = max3420e_desk_event(room, desk, key_of(i), MAX3420E_POWER_ON, 0, 0, 0, 0, 0, 0, reply, 0, reply, 0);
        expect_same_room(&answer.classroom, &wanted, "power-on at a desk");

        memcpy(room.desks[i].board.chip.ep0.setup, request, sizeof request), room.desks[i].board.chip.ep0.setuppos = 0;
        wanted = room;
        max3420e_board_answer board = max3420e_board_step(room.desks[i].board.chip, room.desks[i].board.firmware, reply,
                                                          sizeof reply);
        wanted.desks[i].board.chip = board.chip, wanted.desks[i].board.firmware = board.firmware;
        max3420e_desk_step_answer step = max3420e_desk_step(room, desk, key_of(i), reply, sizeof reply);
        expect(step.refusal == 0 && step.kind == MAX3420E_KIND_DATA && step.count == 18, "a step at a desk");
        expect(step.pin == board.pin && step.found == 0 && reply[0] == 18 && reply[1] == 1, "the descriptor at a desk");
        expect_same_room(&step.classroom, &wanted, "a step at a desk");
    }
}

/* What 9 to 11 refuse tells no pin, whatever the desk's chip does; what the board refuses does. */
static void check_desk_pin(void)
{
    max3420e_classroom room = distinct_room();
    const unsigned desks[] = {16, 4, 4, 4};
    const uint32_t keys[] = {key_of(4), key_of(4), key_of(5), key_of(4)};
    for (size_t i = 0; i < COUNT(desks); i++) {
        room.desks[4].opened = i != 1;
        unsigned wanted = i == 3 ? MAX3420E_PIN_LOW : MAX3420E_PIN_OPEN;
        uint8_t desk = (uint8_t)desks[i];
        expect(max3420e_desk_transfer(room, desk, keys[i], reply, 0, reply, 0).pin == wanted, "the pin, a transfer refused");
        expect(max3420e_desk_event(room, desk, keys[i], 0, 0, 0, 0, 0, 0, 0, reply, 0, reply, 0).pin == wanted,
               "the pin, an event refused");
        expect(max3420e_desk_step(room, desk, keys[i], reply, 0).pin == wanted, "the pin, a step refused");
    }
}

/* A lesson of two entries by hand: a transfer of two bytes, and power-on. */
static const uint8_t two_kinds[2] = {MAX3420E_ENTRY_TRANSFER, MAX3420E_ENTRY_EVENT};
static const uint32_t two_ticks[2] = {0x44332211, 0x88776655};
static const uint16_t two_lengths[2] = {2, 1};
static const uint8_t two_bodies[3] = {0x58, 0x00, 0x01};
static const uint8_t two_file[27] = {
    1, 2,                                           /* version, entries */
    1, 0x11, 0x22, 0x33, 0x44, 24, 0, 0, 0, 2, 0,   /* kind, tick, offset, length */
    2, 0x55, 0x66, 0x77, 0x88, 26, 0, 0, 0, 1, 0,
    0x58, 0x00, 0x01,                               /* R11 is read; power-on */
};

/* A byte at this place that is not as it was: the entry that is named, or -1 where it is a lesson all the same. */
static int entry_named(size_t at)
{
    if (at < 2)
        return 0;
    size_t entry = (at - 2) / MAX3420E_LESSON_ROW, column = (at - 2) % MAX3420E_LESSON_ROW;
    if (entry > 1 || (column >= 1 && column < 5))
        return -1;
    return (int)entry + (column >= 9); /* a length is told by where the next body, or the file's end, stands */
}

static void expect_check(const uint8_t *file, size_t length, size_t entries, const char *what)
{
    max3420e_lesson_answer answer = max3420e_check_lesson(file, length);
    expect(answer.refusal == 0 && answer.found == 0 && answer.count == entries, what);
}

static void expect_no_lesson(const uint8_t *file, size_t length, size_t entry, const char *what)
{
    max3420e_lesson_answer answer = max3420e_check_lesson(file, length);
    expect(answer.refusal == MAX3420E_NO_LESSON && answer.found == entry && answer.count == 0, what);
}

/* Lessons, and what 13 names: a file cut at each length, a byte changed at each place, one byte too many, the longest. */
static void check_files(void)
{
    static const uint8_t none[3] = {1, 0};
    static uint8_t longest[MAX3420E_LESSON_FILE + 1] = {1, 1, 1, 0, 0, 0, 0, 13, 0, 0, 0, 0xF3, 0xFF};
    uint8_t file[sizeof two_file + 1] = {0};
    expect_check(none, 2, 0, "a lesson of no entries");
    expect_no_lesson(none, 3, 0, "a byte after no entries");
    expect_check(two_file, sizeof two_file, 2, "a lesson of two entries");
    for (size_t length = 0; length < sizeof two_file; length++)
        expect_no_lesson(two_file, length, length < 13 ? 0 : length < 24 ? 1 : 2, "a file that is cut");
    for (size_t at = 0; at < sizeof two_file; at++) {
        memcpy(file, two_file, sizeof two_file), file[at] ^= 0x80;
        if (entry_named(at) < 0)
            expect_check(file, sizeof two_file, 2, "a file with another tick or body");
        else
            expect_no_lesson(file, sizeof two_file, (size_t)entry_named(at), "a file with a byte changed");
    }
    memcpy(file, two_file, sizeof two_file);
    expect_no_lesson(file, sizeof file, 2, "a byte after the last body");
    expect_check(longest, MAX3420E_LESSON_FILE, 1, "a file of 65,536 bytes");
    longest[11]++;
    expect_no_lesson(longest, sizeof longest, 0, "a file of 65,537 bytes");
}

/* The writer with so much room; what it leaves of a buffer is either the file, then the rest as it was, or all as it was. */
static void expect_written(size_t room)
{
    uint8_t file[40], wanted[40];
    memset(file, 0xEE, sizeof file), memset(wanted, 0xEE, sizeof wanted);
    int fits = room >= sizeof two_file;
    if (fits)
        memcpy(wanted, two_file, sizeof two_file);
    max3420e_lesson_answer answer = max3420e_write_lesson(two_kinds, 2, two_ticks, 2, two_lengths, 2, two_bodies, 3, file, room);
    expect(answer.refusal == (fits ? 0 : MAX3420E_SHORT_BUFFER), "the writer's refusal");
    expect(answer.found == 0 && answer.count == (fits ? sizeof two_file : 0), "the writer's count");
    expect(memcmp(file, wanted, sizeof file) == 0, "the file that is written");
}

/* What the writer answers to parts of these counts, kinds 1 of ticks 0; refused, no byte is written. */
static unsigned writer_refusal(size_t kinds, size_t ticks, size_t lengths, uint16_t first, size_t size, size_t room)
{
    static const uint32_t no_ticks[MAX3420E_LESSON_ENTRIES + 1];
    static const uint8_t bodies[MAX3420E_LESSON_FILE];
    static uint8_t all_kinds[MAX3420E_LESSON_ENTRIES + 1], file[MAX3420E_LESSON_FILE], before[MAX3420E_LESSON_FILE];
    uint16_t all_lengths[MAX3420E_LESSON_ENTRIES + 1] = {first};
    memset(all_kinds, MAX3420E_ENTRY_TRANSFER, sizeof all_kinds);
    memset(file, 0xEE, sizeof file), memcpy(before, file, sizeof file);
    max3420e_lesson_answer answer = max3420e_write_lesson(all_kinds, kinds, no_ticks, ticks, all_lengths, lengths, bodies,
                                                          size, file, room);
    size_t count = 2 + MAX3420E_LESSON_ROW * kinds + size;
    expect(answer.found == 0 && answer.count == (answer.refusal == 0 ? count : 0), "the writer's count");
    if (answer.refusal == 0)
        expect_check(file, count, kinds, "the check of what is written");
    else
        expect(memcmp(file, before, sizeof file) == 0, "the writer, refused, writes");
    return answer.refusal;
}

static void check_writer(void)
{
    for (size_t room = 0; room <= 40; room++)
        expect_written(room);
    for (unsigned kind = 0; kind < 256; kind++) {
        uint8_t kinds[2] = {1, (uint8_t)kind}, file[40];
        max3420e_lesson_answer answer = max3420e_write_lesson(kinds, 2, two_ticks, 2, two_lengths, 2, two_bodies, 3, file, 40);
        expect(answer.refusal == (kind == 1 || kind == 2 ? 0 : MAX3420E_NO_LESSON) && answer.found == 0, "the writer and kinds");
    }
    const size_t all = MAX3420E_LESSON_FILE, most = MAX3420E_LESSON_ENTRIES;
    expect(writer_refusal(0, 0, 0, 0, 0, all) == 0, "no entries are written");
    expect(writer_refusal(3, 3, 3, 7, 7, all) == 0, "three entries are written");
    expect(writer_refusal(2, 3, 3, 7, 7, 0) == MAX3420E_NO_LESSON, "a kind less, 13 before 4");
    expect(writer_refusal(3, 2, 3, 7, 7, 0) == MAX3420E_NO_LESSON, "a tick less, 13 before 4");
    expect(writer_refusal(3, 3, 2, 7, 7, 0) == MAX3420E_NO_LESSON, "a length less, 13 before 4");
    expect(writer_refusal(3, 3, 3, 7, 6, all) == MAX3420E_NO_LESSON, "lengths of more than the bodies");
    expect(writer_refusal(3, 3, 3, 7, 8, all) == MAX3420E_NO_LESSON, "lengths of less than the bodies");
    expect(writer_refusal(most, most, most, 9, 9, all) == 0, "255 entries");
    expect(writer_refusal(most + 1, most + 1, most + 1, 9, 9, all) == MAX3420E_NO_LESSON, "256 entries");
    expect(writer_refusal(1, 1, 1, 65523, 65523, all) == 0, "a file of 65,536 bytes is written");
    expect(writer_refusal(1, 1, 1, 65523, 65523, all - 1) == MAX3420E_SHORT_BUFFER, "room for 65,535 bytes");
    expect(writer_refusal(1, 1, 1, 65524, 65524, all) == MAX3420E_NO_LESSON, "a file of 65,537 bytes");
}

/* A call: its body in a file, and the arguments of the same event. Code 0 is a transfer of the body, 13 no event. */
typedef struct {
    size_t size;
    const uint8_t *body;
    uint8_t code, pins, address, endpoint, damaged, data1, acknowledged;
} call;

#define BODY(...) .size = sizeof((const uint8_t[]){__VA_ARGS__}), .body = (const uint8_t[]){__VA_ARGS__}

/* A burst from R5 on, and an OUT of 65 bytes. */
static const uint8_t burst[MAX3420E_TRANSFER + 1] = {0x28}, long_out[4 + 65] = {11, 0, 1, 0};

static const call calls[] = {
    {BODY(2), .code = MAX3420E_STABLE},
    {BODY(3), .code = MAX3420E_VBUS_ON},
    {BODY(5, 0x0A), .code = MAX3420E_PINS, .pins = 0x0A},
    /* CONNECT; INT as a level, for all of R11 */
    {BODY(0x7A, 0x08)},
    {BODY(0x8A, 0x08)},
    {BODY(0x62, 0x3F)},
    {BODY(0x82, 0x01)},
    /* a packet at endpoint 2: lost, taken, no longer there; another address */
    {BODY(0x12, 0x11, 0x22, 0x33)},
    {BODY(0x3A, 0x03)},
    {BODY(12, 0, 2, 0), .code = MAX3420E_IN_TOKEN, .endpoint = 2},
    {BODY(12, 0, 2, 1), .code = MAX3420E_IN_TOKEN, .endpoint = 2, .acknowledged = 1},
    {BODY(12, 0, 2, 1), .code = MAX3420E_IN_TOKEN, .endpoint = 2, .acknowledged = 1},
    {BODY(12, 2, 0, 1), .code = MAX3420E_IN_TOKEN, .address = 2, .acknowledged = 1},
    {BODY(10, 0, 0, 1, 1, 2, 3, 4, 5, 6, 7, 8), .code = MAX3420E_SETUP_TOKEN, .damaged = 1},
    {BODY(10, 0, 0, 0, 8, 7, 6, 5, 4, 3, 2, 1), .code = MAX3420E_SETUP_TOKEN},
    /* refusals 2, 3, four times 5, then 6, 8 and 7 */
    {.size = 0, .body = burst},
    {.size = sizeof burst, .body = burst},
    {.size = 0, .body = burst, .code = 13},
    {BODY(13), .code = 13},
    {BODY(1, 0), .code = 13},
    {BODY(12, 0, 2, 2), .code = 13},
    {.size = sizeof long_out, .body = long_out, .code = MAX3420E_OUT_TOKEN, .endpoint = 1},
    {BODY(10, 0, 0, 0, 1, 2, 3), .code = MAX3420E_SETUP_TOKEN},
    {BODY(11, 200, 1, 0, 0x46), .code = MAX3420E_OUT_TOKEN, .address = 200, .endpoint = 1},
    /* four values of an OUT's marks; no room for a third packet */
    {BODY(11, 0, 1, 1, 0x40), .code = MAX3420E_OUT_TOKEN, .endpoint = 1, .damaged = 1},
    {BODY(11, 0, 1, 0, 0x41, 0x42), .code = MAX3420E_OUT_TOKEN, .endpoint = 1},
    {BODY(11, 0, 1, 3, 0x43), .code = MAX3420E_OUT_TOKEN, .endpoint = 1, .damaged = 1, .data1 = 1},
    {BODY(11, 0, 1, 2, 0x44), .code = MAX3420E_OUT_TOKEN, .endpoint = 1, .data1 = 1},
    {BODY(11, 0, 1, 0, 0x45), .code = MAX3420E_OUT_TOKEN, .endpoint = 1},
    /* a count of two bytes */
    {.size = 300, .body = burst},
};

/* The call made alone; its result, as a replay writes it, goes to `result`. Hands back how many bytes that is. */
static size_t call_alone(const call *c, max3420e_chip *chip, uint8_t *pin, uint8_t *result)
{
    static uint8_t bytes[MAX3420E_TRANSFER];
    const uint8_t *payload = c->size > 4 ? c->body + 4 : burst;
    size_t length = c->size > 4 ? c->size - 4 : 0;
    max3420e_answer answer;
    if (c->code == 0)
        answer = max3420e_transfer(*chip, c->body, c->size, bytes, sizeof bytes);
    else
        answer = max3420e_event(*chip, c->code, c->pins, c->address, c->endpoint, c->damaged, c->data1, c->acknowledged,
                                payload, length, bytes, sizeof bytes);
    result[0] = answer.refusal, result[1] = answer.pid;
    result[2] = (uint8_t)(answer.count & 0xFF), result[3] = (uint8_t)(answer.count >> 8);
    memcpy(result + 4, bytes, answer.count);
    *chip = answer.chip, *pin = answer.pin;
    return 4u + answer.count;
}

/* The file of these calls; hands back how many bytes it has. */
static size_t write_calls(uint8_t *file, size_t room)
{
    static uint8_t bodies[8192];
    uint8_t kinds[COUNT(calls)];
    uint32_t ticks[COUNT(calls)];
    uint16_t lengths[COUNT(calls)];
    size_t size = 0;
    for (size_t i = 0; i < COUNT(calls); i++) {
        kinds[i] = calls[i].code == 0 ? MAX3420E_ENTRY_TRANSFER : MAX3420E_ENTRY_EVENT;
        ticks[i] = (uint32_t)i * 0x12345678u, lengths[i] = (uint16_t)calls[i].size;
        memcpy(bodies + size, calls[i].body, calls[i].size), size += calls[i].size;
    }
    max3420e_lesson_answer answer = max3420e_write_lesson(kinds, COUNT(calls), ticks, COUNT(calls), lengths, COUNT(calls),
                                                          bodies, size, file, room);
    expect(answer.refusal == 0, "the lesson of these calls");
    return answer.count;
}

/* A replay that is refused: no byte of the output, and the record and the pin of power-on. */
static void expect_refused(const uint8_t *file, size_t length, size_t room, unsigned refusal, size_t entry, const char *what)
{
    static uint8_t output[16384], before[16384];
    memset(output, 0xEE, sizeof output), memcpy(before, output, sizeof output);
    max3420e_chip start = max3420e_power_on();
    max3420e_replay_answer answer = max3420e_replay(file, length, output, room);
    expect(answer.refusal == refusal && answer.found == entry && answer.count == 0, what);
    expect(memcmp(output, before, sizeof output) == 0, what);
    expect(memcmp(&answer.chip, &start, sizeof start) == 0 && answer.pin == MAX3420E_PIN_HIGH, what);
}

/* A replay beside the same calls made one by one: just the room that is wanted, one byte less, and enough for any calls. */
static void check_replay(void)
{
    static uint8_t file[8192], wanted[16384], output[16384];
    uint8_t pin = 0;
    max3420e_chip chip = max3420e_power_on();
    size_t length = write_calls(file, sizeof file), size = 0;
    memset(wanted, 0xEE, sizeof wanted);
    for (size_t i = 0; i < COUNT(calls); i++)
        size += call_alone(&calls[i], &chip, &pin, wanted + size);
    expect(pin == MAX3420E_PIN_LOW, "a pin other than that of power-on");
    const size_t enough = length + 68 * COUNT(calls), rooms[] = {size, size + 1, enough - 1, enough, sizeof output};
    for (size_t i = 0; i < COUNT(rooms); i++) {
        memset(output, 0xEE, sizeof output);
        max3420e_replay_answer answer = max3420e_replay(file, length, output, rooms[i]);
        expect(answer.refusal == 0 && answer.found == 0 && answer.count == size, "the answer of a replay");
        expect(memcmp(output, wanted, sizeof output) == 0, "what a replay writes");
        expect(memcmp(&answer.chip, &chip, sizeof chip) == 0 && answer.pin == pin, "the record after a replay");
        expect_same(&answer.chip, &chip, "the record after a replay");
    }
    expect_refused(file, length, size - 1, MAX3420E_SHORT_BUFFER, 0, "a replay with one byte too little room");
    expect_refused(file, length, 0, MAX3420E_SHORT_BUFFER, 0, "a replay with no room");
    file[2 + 5 * MAX3420E_LESSON_ROW] = 9;
    expect_refused(file, length, 0, MAX3420E_NO_LESSON, 5, "a replay of what is no lesson, 13 before 4");
    expect_refused(file, length, sizeof output, MAX3420E_NO_LESSON, 5, "a replay of what is no lesson");
}

/* What is written, by hand: a lesson of no entries, and that of two. */
static void check_replay_bytes(void)
{
    static const uint8_t none[2] = {1, 0}, wanted[11] = {0, 0, 2, 0, 0x00, 0x19, 0, 0, 0, 0, 0xEE};
    max3420e_chip start = max3420e_power_on();
    uint8_t output[11];
    memset(output, 0xEE, sizeof output);
    max3420e_replay_answer answer = max3420e_replay(none, 2, output, 0);
    expect(answer.refusal == 0 && answer.count == 0 && output[0] == 0xEE, "a replay of no entries");
    expect(memcmp(&answer.chip, &start, sizeof start) == 0, "the record after no entries");
    answer = max3420e_replay(two_file, sizeof two_file, output, sizeof output);
    expect(answer.refusal == 0 && answer.count == 10 && memcmp(output, wanted, sizeof output) == 0, "a replay of two entries");
    expect(memcmp(&answer.chip, &start, sizeof start) == 0, "the record after power-on");
}

static void check_elapsed(void)
{
    expect(max3420e_elapsed(5, 5) == 0 && max3420e_elapsed(0x11223344, 0x55667789) == 0x44444445, "ticks between");
    expect(max3420e_elapsed(0xFFFFFFF0, 0x10) == 0x20 && max3420e_elapsed(5, 4) == 0xFFFFFFFF, "ticks across the wrap");
}

int main(void)
{
    print_fields(chip_fields, COUNT(chip_fields));
    print_fields(other_fields, COUNT(other_fields));
    check_gaps();
    for (size_t i = 0; i < COUNT(chip_fields); i++)
        check_limits(&chip_fields[i]);
    check_irqs();
    check_transfers();
    check_registers();
    check_events();
    check_found();
    check_board();
    check_firmware();
    check_start();
    check_desk_refusals();
    check_opened();
    check_closed_desk();
    check_unsound_desk();
    check_desk_calls();
    check_desk_pin();
    check_files();
    check_writer();
    check_replay();
    check_replay_bytes();
    check_elapsed();
    if (mismatches > 0)
        return 1;
    printf("layout: %u fields agree\n", (unsigned)(COUNT(chip_fields) + COUNT(other_fields)));
    return 0;
}
