//! The ten bench cases of document 01.

use second::bus::*;
use second::runs::{on, Call};
use second::{board_step, event, int_pin, transfer, Chip, Event, Firmware};

const ACK: u8 = 0xD2;
const NAK: u8 = 0x5A;
const DATA0: u8 = 0xC3;
const DATA1: u8 = 0x4B;

struct Bench {
    chip: Chip,
    firmware: Firmware,
}

impl Bench {
    fn on() -> Bench {
        let mut bench = Bench { chip: Chip::power_on(), firmware: Firmware::power_on() };
        for call in on() {
            match call {
                Call::Transfer { bytes, .. } => drop(bench.spi(&bytes)),
                Call::Event { event, .. } => drop(bench.event(event, &[])),
                _ => {}
            }
        }
        bench
    }

    fn spi(&mut self, bytes: &[u8]) -> Vec<u8> {
        let mut reply = vec![0xEE; bytes.len() + 1];
        let answer = transfer(self.chip, bytes, &mut reply);
        assert_eq!((answer.refusal, answer.pid, answer.count as usize), (0, 0, bytes.len()));
        assert_eq!(reply.pop(), Some(0xEE));
        self.chip = answer.chip;
        assert!(self.chip.is_sound());
        reply
    }

    fn event(&mut self, what: Event, payload: &[u8]) -> (u8, Vec<u8>) {
        let mut reply = vec![0xEE; 70];
        let answer = event(self.chip, what, payload, &mut reply);
        assert_eq!(answer.refusal, 0);
        self.chip = answer.chip;
        assert!(self.chip.is_sound());
        reply.truncate(answer.count as usize);
        (answer.pid, reply)
    }

    fn take(&mut self, endpoint: u8, acknowledged: u8) -> (u8, Vec<u8>) {
        self.event(Event { code: IN_EVENT, endpoint, acknowledged, ..Event::default() }, &[])
    }

    fn out1(&mut self, data1: u8, payload: &[u8]) -> u8 {
        self.event(Event { code: OUT_EVENT, endpoint: 1, data1, ..Event::default() }, payload).0
    }

    fn setup(&mut self, bytes: [u8; 8]) -> u8 {
        self.event(Event { code: SETUP_EVENT, ..Event::default() }, &bytes).0
    }

    fn register(&mut self, register: u8) -> u8 {
        self.spi(&[register << 3, 0])[1]
    }

    fn step(&mut self) -> (u8, Vec<u8>) {
        let mut reply = vec![0; 64];
        let answer = board_step(self.chip, self.firmware, &mut reply);
        assert_eq!(answer.refusal, 0);
        (self.chip, self.firmware) = (answer.chip, answer.firmware);
        reply.truncate(answer.count as usize);
        (answer.kind, reply)
    }
}

#[test]
fn case_1() {
    assert_eq!(Bench::on().spi(&[0x58, 0]), [0x00, 0x19]);
}

#[test]
fn case_2() {
    let mut bench = Bench::on();
    bench.spi(&[0x8A, 0x10]);
    assert_eq!(bench.spi(&[0x91]), [0x19]);
    assert_eq!(bench.register(9) & 0x40, 0x40);
}

#[test]
fn cases_3_and_4() {
    let mut bench = Bench::on();
    for (byte, r11) in [(1, 0x19), (2, 0x11)] {
        bench.spi(&[0x12, byte]);
        bench.spi(&[0x3A, 1]);
        assert_eq!(bench.register(11), r11);
    }
    let before = bench.chip;
    bench.spi(&[0x12, 3]);
    bench.spi(&[0x3A, 1]);
    assert_eq!(bench.chip, before);
    assert_eq!(bench.take(2, 0), (DATA0, vec![1]));
    assert_eq!(bench.register(11), 0x11);
    assert_eq!(bench.take(2, 1), (DATA0, vec![1]));
    assert_eq!(bench.register(11), 0x19);
    assert_eq!(bench.take(2, 1), (DATA1, vec![2]));
}

#[test]
fn case_5() {
    let mut bench = Bench::on();
    let before = bench.chip;
    bench.spi(&[0x3A, 0x41]);
    assert_eq!(bench.chip, before);
    bench.spi(&[0x3A, 0x40]);
    bench.spi(&[0x3A, 0x00]);
    assert_eq!(bench.take(2, 1), (DATA0, vec![0; 64]));
    assert_eq!(bench.take(2, 1), (DATA1, vec![]));
}

#[test]
fn case_6() {
    let mut bench = Bench::on();
    bench.spi(&[0x1A, 0x00, 0x00, 0x08]);
    bench.spi(&[0x42, 0x03]);
    assert_eq!(bench.register(11), 0x09);
    assert_eq!(bench.take(3, 1), (DATA0, vec![0x00, 0x00, 0x08]));
}

#[test]
fn case_7() {
    let mut bench = Bench::on();
    bench.spi(&[0xA2, 0x05, 0x0A]);
    assert_eq!(bench.register(20), 0x0A);
    assert_eq!(bench.spi(&[0x98, 0, 0, 0]), [0, 0, 0x0A, 0x0A]);
}

#[test]
fn case_8() {
    let mut bench = Bench::on();
    bench.spi(&[0x8A, 0x08]);
    bench.spi(&[0x82, 0x01]);
    bench.spi(&[0x62, 0x20]);
    assert_eq!(int_pin(&bench.chip), Ok(2));
    assert_eq!(bench.setup([0x80, 6, 0, 1, 0, 0, 64, 0]), ACK);
    assert_eq!(int_pin(&bench.chip), Ok(0));
    bench.spi(&[0x5A, 0x20]);
    assert_eq!(int_pin(&bench.chip), Ok(2));
}

#[test]
fn case_9() {
    let mut bench = Bench::on();
    assert_eq!([bench.out1(0, &[1]), bench.out1(1, &[2, 3]), bench.out1(0, &[4])], [ACK, ACK, NAK]);
    bench.spi(&[0x5A, 0x04]);
    assert_eq!(bench.register(11) & 0x04, 0x04);
    assert_eq!(bench.register(6), 2);
    assert_eq!(bench.spi(&[0x08, 0, 0, 0]), [0, 2, 3, 0]);
    bench.spi(&[0x5A, 0x04]);
    assert_eq!(bench.register(11) & 0x04, 0);
}

#[test]
fn case_10() {
    for (wlength, kind, count) in [(64, 3, 18), (8, 3, 8), (0, 2, 0)] {
        let mut bench = Bench::on();
        bench.setup([0x80, 6, 0, 1, 0, 0, wlength, 0]);
        let (k, bytes) = bench.step();
        assert_eq!((k, bytes.len()), (kind, count));
        if wlength > 0 {
            assert_eq!(bench.take(0, 1), (DATA1, bytes));
        }
    }
}
