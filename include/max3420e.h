/* The MAX3420E, a USB peripheral controller with an SPI interface, as a C library: libcapi.a, and
 * libcapi_classroom.a for the classroom, libcapi_lesson.a for lessons.
 *
 * The chip is a record. Every call takes it by value and hands back the next one: keep one record per chip and store
 * `answer.chip` after each call. A classroom of sixteen boards is a record too. The library keeps nothing and allocates
 * nothing.
 *
 * A refused call (`refusal` is not 0) hands the records back unchanged and writes no byte of `reply`. Else just the
 * first `count` bytes of `reply` are written. `bytes`, `payload` and `reply` are not null, point to as many bytes as is
 * said, and do not overlap. Event codes, limits and refusals are those of docs/.
 *
 * The calls on lessons take no record. What is lent to them is as above: not null, of as many elements as is said, and
 * apart.
 */
#ifndef MAX3420E_H
#define MAX3420E_H

#include <stddef.h>
#include <stdint.h>

#ifdef __cplusplus
extern "C" {
#endif

enum max3420e_limit {
    MAX3420E_BUFFER = 64,     /* bytes of a packet, at most; the room that an IN and a board step want */
    MAX3420E_SETUP = 8,       /* bytes of a SETUP */
    MAX3420E_TRANSFER = 4096, /* bytes of a transfer, at most, the command byte among them */
    MAX3420E_DESKS = 16,      /* desks of a classroom */
    MAX3420E_LESSON_FILE = 65536,  /* bytes of a lesson's file, at most */
    MAX3420E_LESSON_ENTRIES = 255, /* entries of a lesson, at most */
    MAX3420E_LESSON_ROW = 11       /* bytes of an entry in the file's table */
};

/* Why a call is refused. They are looked at in the order of this list; the first that applies is given.
 * 9 to 12 are those of the classroom's calls; 13 is that of the calls on lessons, which else give only 4. */
enum max3420e_refusal {
    MAX3420E_ACCEPTED = 0,
    MAX3420E_NO_LESSON = 13,    /* a file, or what is to be written, is no lesson; `found` is the entry that is named */
    MAX3420E_NO_DESK = 9,       /* a desk's number is over 15 */
    MAX3420E_DESK_STATE = 10,   /* the desk is closed or, on opening, already open */
    MAX3420E_WRONG_KEY = 11,    /* the key is not the desk's */
    MAX3420E_BAD_KEY = 12,      /* on opening, the key is 0, or in use at another open desk */
    MAX3420E_UNSOUND = 1,       /* a record is not sound; a flag that is neither 0 nor 1 makes it so; at a desk, one of its own */
    MAX3420E_NO_COMMAND = 2,    /* a transfer has no command byte */
    MAX3420E_LONG_TRANSFER = 3, /* a transfer has over 4,096 bytes */
    MAX3420E_SHORT_BUFFER = 4,  /* room is under the transfer's length, under 64 for an IN or a board step, or under what a call on lessons writes */
    MAX3420E_UNKNOWN_EVENT = 5, /* an event code is not one of those below */
    MAX3420E_OUT_PAYLOAD = 6,   /* an OUT payload is over 64 bytes; `found` is its length */
    MAX3420E_SETUP_PAYLOAD = 8, /* a SETUP payload is not 8 bytes; `found` is its length */
    MAX3420E_BAD_ADDRESS = 7    /* a transaction's address is over 127, or its endpoint over 15 */
};

/* Event codes. What an event does not use is ignored. */
enum max3420e_event_code {
    MAX3420E_POWER_ON = 1,
    MAX3420E_STABLE = 2,      /* the oscillator is stable */
    MAX3420E_VBUS_ON = 3,
    MAX3420E_VBUS_OFF = 4,
    MAX3420E_PINS = 5,        /* input pins: the low four bits of `pins` */
    MAX3420E_RESET_START = 6, /* bus reset */
    MAX3420E_RESET_END = 7,
    MAX3420E_SUSPEND = 8,
    MAX3420E_ACTIVITY = 9,
    MAX3420E_SETUP_TOKEN = 10, /* address, endpoint, damaged, payload */
    MAX3420E_OUT_TOKEN = 11,   /* address, endpoint, damaged, data1, payload */
    MAX3420E_IN_TOKEN = 12     /* address, endpoint, acknowledged (the host's ACK reaches the chip) */
};

/* `pid`: what the chip answers on the bus, as a PID byte. */
enum max3420e_pid {
    MAX3420E_SILENCE = 0x00, /* nothing; also the pid of a transfer and of events 1 to 9 */
    MAX3420E_ACK = 0xD2,
    MAX3420E_NAK = 0x5A,
    MAX3420E_STALL = 0x1E,
    MAX3420E_DATA0 = 0xC3,   /* the packet's bytes are in `reply` */
    MAX3420E_DATA1 = 0x4B
};

/* `pin`: the level at which the INT pin rests after the call. */
enum max3420e_pin {
    MAX3420E_PIN_LOW = 0,
    MAX3420E_PIN_HIGH = 1,
    MAX3420E_PIN_OPEN = 2
};

/* `kind`: what the board's firmware did. */
enum max3420e_kind {
    MAX3420E_KIND_IDLE = 0,  /* no SETUP waits */
    MAX3420E_KIND_STALL = 1,
    MAX3420E_KIND_ACK = 2,   /* acknowledged without data */
    MAX3420E_KIND_DATA = 3   /* sent the bytes that are in `reply` */
};

/* What an entry of a lesson is; an event's code is the first byte of its body. */
enum max3420e_entry_kind {
    MAX3420E_ENTRY_TRANSFER = 1,
    MAX3420E_ENTRY_EVENT = 2
};

/* The two buffers of a double-buffered endpoint; buffer i stands at byte 64 * i. */
typedef struct {
    uint8_t bytes[128];
    uint8_t counts[2]; /* bytes of each buffer's packet */
    uint8_t oldest;    /* the buffer of the oldest waiting packet, or the next to be filled where none waits */
    uint8_t waiting;   /* packets that wait, 0 to 2 */
} max3420e_ring;

/* Endpoint 0: one buffer for both directions, and SUDFIFO. A toggle is 1 for DATA1. */
typedef struct {
    uint8_t bytes[64];
    uint8_t setup[8];
    uint8_t count;     /* R5: the count last armed or received */
    uint8_t armed;     /* flag */
    uint8_t readpos;   /* of R0, 0 to 64 */
    uint8_t writepos;  /* of R0, 0 to 64 */
    uint8_t setuppos;  /* of R4, 0 to 8 */
    uint8_t intoggle;  /* flag */
    uint8_t outtoggle; /* flag */
    uint8_t current;   /* flag: a SETUP was accepted since the last reset */
} max3420e_endpoint0;

/* Endpoint 1 OUT. */
typedef struct {
    max3420e_ring ring;
    uint8_t readpos; /* of R1, 0 to 64 */
    uint8_t toggle;  /* flag */
} max3420e_endpoint1;

/* Endpoint 2 IN. */
typedef struct {
    max3420e_ring ring;
    uint8_t count;    /* R7: the count last armed */
    uint8_t writepos; /* of R2, 0 to 64 */
    uint8_t toggle;   /* flag */
} max3420e_endpoint2;

/* Endpoint 3 IN. */
typedef struct {
    uint8_t bytes[64];
    uint8_t count;    /* R8: the count last armed */
    uint8_t armed;    /* flag */
    uint8_t writepos; /* of R3, 0 to 64 */
    uint8_t toggle;   /* flag */
} max3420e_endpoint3;

/* R9 to R17, R19 and R20, by the maker's names. */
typedef struct {
    uint8_t epstalls;
    uint8_t clrtogs;
    uint8_t epirq;
    uint8_t epien;
    uint8_t usbirq;
    uint8_t usbien;
    uint8_t usbctl;
    uint8_t cpuctl;
    uint8_t pinctl;
    uint8_t fnaddr;
    uint8_t iopins;
} max3420e_registers;

/* What the chip is supplied with. */
typedef struct {
    uint8_t vbus;  /* flag: the VBUS comparator's level */
    uint8_t oscok; /* flag: the oscillator is stable */
} max3420e_power;

typedef struct {
    max3420e_endpoint0 ep0;
    max3420e_endpoint1 ep1;
    max3420e_endpoint2 ep2;
    max3420e_endpoint3 ep3;
    max3420e_registers registers;
    max3420e_power power;
} max3420e_chip;

/* The record of the board's own firmware; all 0 at power-on and after a bus reset start that the chip sees. */
typedef struct {
    uint8_t configuration; /* 0 or 1 */
    uint8_t wakeup;        /* flag: remote wakeup is enabled */
    uint8_t halted;        /* flag: endpoint 3 is halted */
} max3420e_firmware;

typedef struct {
    max3420e_chip chip;
    uint8_t refusal; /* enum max3420e_refusal */
    uint8_t pid;     /* enum max3420e_pid */
    uint16_t count;  /* bytes written to `reply` */
    uint8_t pin;     /* enum max3420e_pin */
    size_t found;    /* the payload's length, if `refusal` is 6 or 8; else 0 */
} max3420e_answer;

typedef struct {
    max3420e_chip chip;
    max3420e_firmware firmware;
    uint8_t refusal; /* enum max3420e_refusal */
    uint8_t kind;    /* enum max3420e_kind */
    uint16_t count;  /* bytes written to `reply` */
    uint8_t pin;     /* enum max3420e_pin */
    size_t found;    /* 0: a step is never refused with 6 or 8 */
} max3420e_board_answer;

typedef struct {
    max3420e_firmware firmware;
    uint8_t refusal;   /* enum max3420e_refusal */
    uint8_t kind;      /* enum max3420e_kind; 0 where it is refused */
    uint8_t endpoints; /* what to write to R9 and R10 before the ACK: 0 nothing, 1 to end a halt, 2 to halt, 3 to configure */
    uint16_t count;    /* bytes written to `reply` */
    size_t found;      /* how many setup bytes there are, if `refusal` is 8; else 0 */
} max3420e_request_answer;

/* ---- the classroom: sixteen desks, each with a board */

typedef struct {
    max3420e_chip chip;
    max3420e_firmware firmware;
} max3420e_board;

/* Where `opened` is not 1 the desk is closed, and sound only with both records at power-on, `opened` 0 and `key` 0. */
typedef struct {
    max3420e_board board;
    uint8_t opened; /* flag */
    uint32_t key;   /* the session key of the pupil; 0 is none */
} max3420e_desk;

typedef struct {
    max3420e_desk desks[MAX3420E_DESKS];
} max3420e_classroom;

/* What opening and closing a desk hand back. */
typedef struct {
    max3420e_classroom classroom;
    uint8_t refusal; /* enum max3420e_refusal */
} max3420e_teacher_answer;

/* What a pupil's calls hand back. Where 9 to 11 refuse one, `pin` is MAX3420E_PIN_OPEN: it tells nothing of the desk. */
typedef struct {
    max3420e_classroom classroom;
    uint8_t refusal; /* enum max3420e_refusal */
    uint8_t pid;     /* enum max3420e_pid */
    uint16_t count;  /* bytes written to `reply` */
    uint8_t pin;     /* enum max3420e_pin */
    size_t found;    /* the payload's length, if `refusal` is 6 or 8; else 0 */
} max3420e_desk_answer;

typedef struct {
    max3420e_classroom classroom;
    uint8_t refusal; /* enum max3420e_refusal */
    uint8_t kind;    /* enum max3420e_kind */
    uint16_t count;  /* bytes written to `reply` */
    uint8_t pin;     /* enum max3420e_pin */
    size_t found;    /* 0: a step is never refused with 6 or 8 */
} max3420e_desk_step_answer;

/* ---- lessons: files of calls on a chip, with the ticks at which they were made; the firmware takes no part */

/* A file is a version byte 1, a byte n, a table of n entries, then their bodies in the same order with no gaps. An entry
 * has 11 bytes there: its kind (enum max3420e_entry_kind), a 32-bit tick, the 32-bit offset of its body from the file's
 * start and the body's 16-bit length, low byte first. So the first body stands at 2 + 11 * n. `01 00` is a lesson of no
 * entries.
 *
 * A transfer's body is the bytes that are sent. An event's body is its code (enum max3420e_event_code), then
 *   input pins:  their byte;
 *   SETUP, OUT:  address, endpoint, marks, payload;
 *   IN:          address, endpoint, marks;
 *   the others:  nothing.
 * The marks are 1 for damaged or, at IN, acknowledged, plus 2 for an OUT's DATA1. A lesson may hold calls that are
 * refused, as pupils make them: an event with an unknown code, another length or other marks plays as refusal 5, a
 * transfer without a byte as 2. */

/* What the check and the writer hand back. */
typedef struct {
    uint8_t refusal; /* enum max3420e_refusal: 0, 13 or 4 */
    size_t found;    /* the entry that is named, from 0, if `refusal` is 13; else 0 */
    size_t count;    /* the check: entries of the lesson; the writer: bytes of the file; 0 where it is refused */
} max3420e_lesson_answer;

typedef struct {
    max3420e_chip chip; /* after the last call; where it is refused, at power-on */
    uint8_t refusal;    /* enum max3420e_refusal: 0, 13 or 4; that of a single call is in `output` */
    uint8_t pin;        /* enum max3420e_pin, of that record */
    size_t found;       /* the entry that is named, from 0, if `refusal` is 13; else 0 */
    size_t count;       /* bytes written to `output`; 0 where it is refused */
} max3420e_replay_answer;

/* The record at power-on. */
max3420e_chip max3420e_power_on(void);

/* One SPI transfer, from SS low to SS high: `bytes[0]` is the command byte. As many bytes come back as are sent.
 * Refusals 1 to 4. */
max3420e_answer max3420e_transfer(max3420e_chip chip, const uint8_t *bytes, size_t length, uint8_t *reply, size_t room);

/* One event (enum max3420e_event_code). `damaged`, `data1`, `acknowledged`: 0 is no, anything else yes.
 * An IN writes the packet's bytes to `reply`. Refusals 1 and 4 to 8. */
max3420e_answer max3420e_event(max3420e_chip chip, uint8_t code, uint8_t pins, uint8_t address, uint8_t endpoint,
                               uint8_t damaged, uint8_t data1, uint8_t acknowledged,
                               const uint8_t *payload, size_t length, uint8_t *reply, size_t room);

/* The board's own firmware serves a SETUP, if one waits; `reply` gets the bytes it sends. Refusals 1 and 4.
 * Use it instead of firmware of your own. */
max3420e_board_answer max3420e_board_step(max3420e_chip chip, max3420e_firmware firmware, uint8_t *reply, size_t room);

/* What the board's own firmware answers to eight setup bytes, without a chip; `reply` gets the bytes it would send.
 * Refusals 1, 4 and 8. Hold your own firmware's answers to it. */
max3420e_request_answer max3420e_firmware_answer(max3420e_firmware firmware, const uint8_t *setup, size_t length,
                                                 uint8_t *reply, size_t room);

/* The classroom at the start: all sixteen desks closed. */
max3420e_classroom max3420e_classroom_start(void);

/* The teacher opens a desk with a session key. Refusals 9, 10, 12 and 1. */
max3420e_teacher_answer max3420e_open_desk(max3420e_classroom classroom, uint8_t desk, uint32_t key);

/* The teacher closes a desk: both its records go back to power-on. Refusals 9, 10 and 1. */
max3420e_teacher_answer max3420e_close_desk(max3420e_classroom classroom, uint8_t desk);

/* A pupil's calls: a transfer, an event or a board step on the records of his desk. Refusals 9 to 11, then those of the
 * call itself. An event is the board's: power-on, and a bus reset start that the chip sees, put the firmware's record
 * back; the desk stays open with its key. */
max3420e_desk_answer max3420e_desk_transfer(max3420e_classroom classroom, uint8_t desk, uint32_t key,
                                            const uint8_t *bytes, size_t length, uint8_t *reply, size_t room);

max3420e_desk_answer max3420e_desk_event(max3420e_classroom classroom, uint8_t desk, uint32_t key, uint8_t code,
                                         uint8_t pins, uint8_t address, uint8_t endpoint, uint8_t damaged,
                                         uint8_t data1, uint8_t acknowledged, const uint8_t *payload, size_t length,
                                         uint8_t *reply, size_t room);

max3420e_desk_step_answer max3420e_desk_step(max3420e_classroom classroom, uint8_t desk, uint32_t key, uint8_t *reply,
                                             size_t room);

/* Is this file a lesson? `count` is how many entries it has; no call is made. Refusal 13: `found` is the first entry that
 * is missing or has a bad kind or offset, or n if only the file's end is not where the last body ends. A wrong version,
 * a file under 2 bytes or over 65,536 is looked at first and names 0. */
max3420e_lesson_answer max3420e_check_lesson(const uint8_t *file, size_t length);

/* Writes a lesson's one file, which reads back as the same entries. Entry i is `kinds[i]`, `ticks[i]` and a body of
 * `lengths[i]` bytes; `bodies` has all bodies one after the other, `size` bytes. The offsets are worked out here.
 * `count` is the bytes of the file, 2 + 11 * kind_count + size, and just those are written.
 * Refusal 13, naming 0: the three counts differ, the lengths do not add up to `size`, a kind is neither 1 nor 2, or there
 * are over 255 entries or 65,536 bytes. Else 4: `room` is under the bytes of the file. Refused, it writes no byte. */
max3420e_lesson_answer max3420e_write_lesson(const uint8_t *kinds, size_t kind_count, const uint32_t *ticks,
                                             size_t tick_count, const uint16_t *lengths, size_t length_count,
                                             const uint8_t *bodies, size_t size, uint8_t *file, size_t room);

/* Plays a lesson: all its calls, one by one from power-on, each with room enough for its reply, just as
 * max3420e_transfer and max3420e_event make them. `output` gets for each entry, in order:
 *   the call's refusal or 0, the PID byte (enum max3420e_pid) or 0, a 16-bit count, low byte first, and so many bytes,
 * those that a transfer gets back or an IN's packet. A refused call has PID 0 and count 0 and leaves the chip as it was;
 * the next one is made all the same. `count` is how many bytes all this is, and just those are written.
 * Refusal 13 as the check's. Else 4: they do not all fit in `room`. Refused, no byte at all is written, and `chip` is the
 * record at power-on. 68 bytes for each entry and as many as the file has are always room enough (82,876 for any lesson);
 * with less room what the calls are answered is kept on the stack, in 82,876 bytes, until it is known to fit. */
max3420e_replay_answer max3420e_replay(const uint8_t *file, size_t length, uint8_t *output, size_t room);

/* The ticks from one entry to a later one: `to` less `from` modulo 2 to the 32, so that the count may wrap between them.
 * A replay does not look at ticks. */
uint32_t max3420e_elapsed(uint32_t from, uint32_t to);

#ifdef __cplusplus
}
#endif

#endif
