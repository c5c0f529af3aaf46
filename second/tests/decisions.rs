//! Single decisions (docs/DECISIONS.md by number), told by what is seen from outside; and the console script.

use second::bus::*;
use second::chip::*;
use second::runs::*;
use second::script::script;
use second::{board_step, event, int_pin, transfer, Chip, Firmware};

/// Plays calls from power-on; the last PID or kind, the last reply, the chip.
fn play(calls: &[Call]) -> (u8, Vec<u8>, Chip) {
    let (mut chip, mut firmware) = (Chip::power_on(), Firmware::power_on());
    let (mut pid, mut reply) = (0, Vec::new());
    for call in calls {
        reply = vec![0; call.room()];
        let (count, refusal) = match call {
            Call::Transfer { bytes, .. } => {
                let answer = transfer(chip, bytes, &mut reply);
                (chip, pid) = (answer.chip, answer.pid);
                (answer.count, answer.refusal)
            }
            Call::Event { event: what, payload, .. } => {
                let answer = event(chip, *what, payload, &mut reply);
                (chip, pid) = (answer.chip, answer.pid);
                (answer.count, answer.refusal)
            }
            _ => {
                let answer = board_step(chip, firmware, &mut reply);
                (chip, firmware, pid) = (answer.chip, answer.firmware, answer.kind);
                (answer.count, answer.refusal)
            }
        };
        assert_eq!(refusal, 0);
        reply.truncate(count as usize);
    }
    (pid, reply, chip)
}

fn after_on(more: &[Call]) -> (u8, Vec<u8>, Chip) {
    play(&[&on()[..], more].concat())
}

const READ: [u8; 8] = [0x80, 6, 0, 1, 0, 0, 64, 0];
const WRITE: [u8; 8] = [0x21, 9, 0, 2, 0, 0, 8, 0];
const NO_DATA: [u8; 8] = [0x00, 9, 1, 0, 0, 0, 0, 0];

#[test]
fn resets() {
    // 1: SUDFIFO is 0 after a bus reset, other buffers keep their bytes
    let (_, _, chip) = after_on(&[setup(0, &READ), write(0, &[1, 2]), plain(RESET_START)]);
    assert_eq!((chip.sudfifo, chip.ep0[..2].to_vec(), chip.setup), ([0; 8], vec![1, 2], 0));
    assert_eq!((chip.r(USBIRQ), chip.r(EPIRQ)), (0x08, 0x19));
    // 4: writing CHIPRES 1 over 1 is no second reset; the stable event does nothing
    let (_, _, chip) = after_on(&[spi(&[0x7A, 0x28]), write(9, &[0x10]), plain(STABLE), spi(&[0x7A, 0x28])]);
    assert_eq!((chip.r(EPSTALLS), chip.oscok, chip.r(USBIRQ)), (0x10, 0, 0));
    // 5: the command byte sets ACKSTAT, the reset clears it; later bytes act on the reset chip
    let (_, _, chip) = after_on(&[spi(&[0x7B, 0x28, 0x01])]);
    assert_eq!((chip.r(EPSTALLS), chip.r(CPUCTL), chip.r(USBCTL)), (0, 1, 0x28));
    // 7: URESDNIRQ survives a bus reset start
    let (_, _, chip) = after_on(&[plain(RESET_END), plain(RESET_START)]);
    assert_eq!(chip.r(USBIRQ), 0x88);
}

#[test]
fn spi_side() {
    // 12, 13, 14
    assert_eq!(after_on(&[spi(&[0x4B, 0x00])]).2.r(EPSTALLS), 0);
    assert_eq!(after_on(&[spi(&[0xF9])]).2.r(EPSTALLS), 0x40);
    assert_eq!(after_on(&[spi(&[0x8A, 0x10])]).1, [0, 0]);
    assert_eq!(after_on(&[spi(&[0x8A, 0x10]), spi(&[0x8A, 0x00])]).1, [0x19, 0]);
    assert_eq!(after_on(&[spi(&[0x2A, 0x81])]).2.ep0_waiting, 1);
    assert_eq!(after_on(&[spi(&[0x3A, 0x81])]).2.ep2.waiting, 0);
    // 15: R5 and R0 over a SETUP
    let calls = [setup(0, &READ), write(0, &[5, 6, 7]), write(5, &[2]), setup(0, &READ), read(0, 4)];
    assert_eq!(after_on(&calls).1, [0, 5, 6, 0, 0]);
    // 16: IN0BAVIRQ cleared by hand leaves the buffer with the CPU
    assert_eq!(after_on(&[spi(&[0x5A, 0x01]), write(0, &[9])]).2.r0_write, 1);
}

#[test]
fn bav_bits() {
    // 65: a 1 clears, no packet moves; arming goes by room, and leaves a cleared bit clear
    let one = [write(7, &[1]), spi(&[0x5A, 0x08])];
    let (_, _, chip) = after_on(&one);
    assert_eq!((chip.r(EPIRQ), chip.ep2.waiting), (0x11, 1));
    let (_, _, chip) = after_on(&[spi(&[0x5A, 0x18]), write(7, &[1]), write(8, &[1])]);
    assert_eq!((chip.r(EPIRQ), chip.ep2.waiting, chip.ep3_waiting), (0x01, 1, 1));
    assert_eq!(after_on(&[&one[..], &[write(7, &[1]), write(7, &[1])]].concat()).2.ep2.waiting, 2);
    // back at the acknowledged IN of that endpoint, and at a reset
    assert_eq!(after_on(&[&one[..], &[take(0, 2, false)]].concat()).2.r(EPIRQ), 0x11);
    assert_eq!(after_on(&[&one[..], &[take(0, 2, true)]].concat()).2.r(EPIRQ), 0x19);
    let cleared = spi(&[0x5A, 0x18]);
    assert_eq!(after_on(&[cleared.clone(), take(0, 3, true)]).2.r(EPIRQ), 0x01);
    for reset in [plain(POWER_ON), plain(RESET_START), spi(&[0x7A, 0x28])] {
        assert_eq!(after_on(&[cleared.clone(), reset]).2.r(EPIRQ), 0x19);
    }
}

#[test]
fn bus_side() {
    let (ack, nak, stall) = (0xD2, 0x5A, 0x1E);
    // 19
    assert_eq!(after_on(&[write(9, &[0x01]), take(0, 0, true)]).0, stall);
    let (pid, _, chip) = after_on(&[take(0, 0, true)]);
    assert_eq!((pid, chip.r(PINCTL)), (nak, 0x20));
    // 20: no room comes before the toggle
    let two = [out(0, 1, false, &[1]), out(0, 1, true, &[2])];
    assert_eq!(after_on(&[&two[..], &[out(0, 1, true, &[2])]].concat()).0, nak);
    // 21: STLSTAT before ACKSTAT; STLEP bits are ignored in a status stage, the toggle too
    assert_eq!(after_on(&[setup(0, &NO_DATA), write(9, &[0x60]), take(0, 0, true)]).0, stall);
    assert_eq!(after_on(&[setup(0, &NO_DATA), write(9, &[0x43]), take(0, 0, true)]).0, 0x4B);
    assert_eq!(after_on(&[setup(0, &READ), write(9, &[0x43]), out(0, 0, false, &[])]).0, ack);
    assert_eq!(after_on(&[setup(0, &READ), write(9, &[0x40]), out(0, 0, true, &[1])]).0, stall);
    // 22: armed in a write transfer
    assert_eq!(after_on(&[setup(0, &WRITE), write(5, &[1]), out(0, 0, true, &[1])]).0, nak);
    // 23: bit 7 and wLength 0
    let none = [0x80, 6, 0, 1, 0, 0, 0, 0];
    assert_eq!(after_on(&[setup(0, &none), spi(&[0x91]), take(0, 0, true)]).0, 0x4B);
    assert_eq!(after_on(&[setup(0, &none), out(0, 0, true, &[])]).0, stall);
    // 26: a repeated status is answered the same again
    assert_eq!(after_on(&[setup(0, &NO_DATA), spi(&[0x91]), take(0, 0, true), take(0, 0, true)]).0, 0x4B);
    // FNADDR only with the ACK
    let address = [setup(0, &[0, 5, 0x97, 0, 0, 0, 0, 0]), spi(&[0x91])];
    assert_eq!(after_on(&[&address[..], &[take(0, 0, false)]].concat()).2.r(FNADDR), 0);
    assert_eq!(after_on(&[&address[..], &[take(0, 0, true)]].concat()).2.r(FNADDR), 0x17);
    // 38: IN does not use the damaged mark
    let marked = Event { code: IN_EVENT, endpoint: 2, damaged: 1, ..Event::default() };
    assert_eq!(after_on(&[transaction(marked, &[], 64)]).0, nak);
}

#[test]
fn pin_and_board() {
    // 27
    assert_eq!(int_pin(&play(&[]).2), Ok(1));
    assert_eq!(int_pin(&play(&[write(17, &[0x04])]).2), Ok(0));
    assert_eq!(int_pin(&play(&[write(17, &[0x08])]).2), Ok(2));
    assert_eq!(int_pin(&play(&[write(17, &[0x04]), write(12, &[1]), write(16, &[1])]).2), Ok(1));
    // 33: SET_CONFIGURATION clears R9 bit 4 set by hand, keeps the rest of R9 and R10
    let (kind, _, chip) = after_on(&[setup(0, &NO_DATA), write(9, &[0x1C]), write(10, &[0xE0]), step()]);
    assert_eq!((kind, chip.r(EPSTALLS), chip.r(CLRTOGS)), (2, 0x4C, 0xE0));
    // 34: R4 partly read before the step
    let (kind, _, _) = after_on(&[setup(0, &READ), read(4, 1), step()]);
    assert_eq!(kind, 1);
    // 35
    let (kind, _, chip) = after_on(&[setup(0, &[0xC0; 8]), write(9, &[0x5C]), step()]);
    assert_eq!((kind, chip.r(EPSTALLS)), (1, 0x3F));
}

#[test]
fn refusals_9_11_and_62() {
    let far = Event { code: OUT_EVENT, address: 200, ..Event::default() };
    let told = |code: u8, length: usize| {
        let answer = event(Chip::power_on(), Event { code, ..far }, &vec![0; length], &mut [0; 2]);
        (answer.refusal, answer.found)
    };
    assert_eq!([told(OUT_EVENT, 65), told(OUT_EVENT, 320), told(OUT_EVENT, 64)], [(6, 65), (6, 320), (7, 0)]);
    assert_eq!([told(SETUP_EVENT, 0), told(SETUP_EVENT, 264), told(SETUP_EVENT, 8)], [(8, 0), (8, 264), (7, 0)]);
    assert_eq!(event(Chip::power_on(), Event { code: IN_EVENT, ..far }, &[], &mut [0; 63]).refusal, 4);
    assert_eq!(board_step(Chip::power_on(), Firmware::power_on(), &mut [0; 63]).refusal, 4);
    let unsound = Chip { r4_read: 9, ..Chip::power_on() };
    assert_eq!(event(unsound, Event { code: 0, ..far }, &[], &mut []).refusal, 1);
    assert_eq!(int_pin(&unsound), Err(1));
}

#[test]
fn console_script() {
    let damaged = Event { code: OUT_EVENT, address: 0x17, endpoint: 1, damaged: 1, data1: 1, ..Event::default() };
    let short = Call::Transfer { bytes: vec![0x58, 0], room: 1 };
    let calls = [on(), vec![pins(0xA), transaction(damaged, &[1, 0xAB], 0), short, take(0, 2, false), plain(200), step()]];
    let text = "power\nstable\nspi 7A 08\npins A\nout 17 1 data1 damaged 01 AB\nroom 1\nspi 58 00\nroom 4200\n\
                in 0 2 lost\nevent C8\nstep\n";
    assert_eq!(script(&calls.concat()), text);
}
