//! The proved library as a model to compare with: its fields by the names of `fields::FIELDS`, its `observe`, of a chip and
//! of a desk; its lessons.

use crate::ffi::{Chip, Desk, Firmware, Ring};
use crate::fields::FIELDS;
use crate::runs::{KEY, OPENED};

/// The place of a field in the library's record, by its name in `fields::FIELDS`.
pub fn place<'c>(chip: &'c mut Chip, name: &str) -> &'c mut u8 {
    let Chip { ep0, ep1, ep2, ep3, registers, power } = chip;
    match name {
        "r5" => &mut ep0.count,
        "r7" => &mut ep2.count,
        "r8" => &mut ep3.count,
        "r9" => &mut registers.epstalls,
        "r10" => &mut registers.clrtogs,
        "r11" => &mut registers.epirq,
        "r12" => &mut registers.epien,
        "r13" => &mut registers.usbirq,
        "r14" => &mut registers.usbien,
        "r15" => &mut registers.usbctl,
        "r16" => &mut registers.cpuctl,
        "r17" => &mut registers.pinctl,
        "r19" => &mut registers.fnaddr,
        "r20" => &mut registers.iopins,
        "ep1_count0" => &mut ep1.ring.counts[0],
        "ep1_count1" => &mut ep1.ring.counts[1],
        "ep1_oldest" => &mut ep1.ring.oldest,
        "ep1_waiting" => &mut ep1.ring.waiting,
        "ep2_count0" => &mut ep2.ring.counts[0],
        "ep2_count1" => &mut ep2.ring.counts[1],
        "ep2_oldest" => &mut ep2.ring.oldest,
        "ep2_waiting" => &mut ep2.ring.waiting,
        "ep0_waiting" => &mut ep0.armed,
        "ep3_waiting" => &mut ep3.armed,
        "r0_read" => &mut ep0.readpos,
        "r0_write" => &mut ep0.writepos,
        "r1_read" => &mut ep1.readpos,
        "r2_write" => &mut ep2.writepos,
        "r3_write" => &mut ep3.writepos,
        "r4_read" => &mut ep0.setuppos,
        "toggle_ep0in" => &mut ep0.intoggle,
        "toggle_ep0out" => &mut ep0.outtoggle,
        "toggle_ep1" => &mut ep1.toggle,
        "toggle_ep2" => &mut ep2.toggle,
        "toggle_ep3" => &mut ep3.toggle,
        "vbus" => &mut power.vbus,
        "oscok" => &mut power.oscok,
        "setup" => &mut ep0.current,
        _ => panic!("no field {name}"),
    }
}

/// Sets the field of `fields::FIELDS` with this number.
pub fn poke(chip: &mut Chip, field: usize, value: u8) {
    *place(chip, FIELDS[field].0) = value;
}

/// Sets the field of a desk with this number (`runs::Order`).
pub fn poke_desk(desk: &mut Desk, field: usize, value: u32) {
    let Firmware { configuration, wakeup, halted } = &mut desk.board.firmware;
    match field {
        KEY => desk.key = value,
        OPENED => desk.opened = value as u8,
        _ if field < FIELDS.len() => poke(&mut desk.board.chip, field, value as u8),
        _ => *[configuration, wakeup, halted][field - FIELDS.len()] = value as u8,
    }
}

/// The list of `OtherClassroom::observe`.
pub fn observe_desk(desk: &Desk) -> Vec<u8> {
    let Firmware { configuration, wakeup, halted } = desk.board.firmware;
    let mut list = observe(&desk.board.chip);
    list.extend([configuration, wakeup, halted, desk.opened]);
    list.extend(desk.key.to_le_bytes());
    list
}

/// The list of `fields::observe`, from the library's record.
pub fn observe(chip: &Chip) -> Vec<u8> {
    let Chip { ep0, ep1, ep2, ep3, registers: r, power } = chip;
    let mut list = Vec::with_capacity(900);
    list.extend([ep0.count, oldest_count(&ep1.ring), ep2.count, ep3.count]);
    list.extend([r.epstalls, r.clrtogs, r.epirq, r.epien, r.usbirq, r.usbien, r.usbctl, r.cpuctl, r.pinctl]);
    list.extend([1, r.fnaddr, r.iopins]); // R18 is not stored
    list.extend([ep0.readpos, ep0.writepos, ep1.readpos, ep2.writepos, ep3.writepos, ep0.setuppos]);
    list.extend([ep0.intoggle, ep0.outtoggle, ep1.toggle, ep2.toggle, ep3.toggle]);
    list.extend([power.vbus, power.oscok, ep0.current]);
    list_packet(&mut list, ep0.armed, ep0.count, &ep0.bytes);
    list_ring(&mut list, &ep1.ring);
    list_ring(&mut list, &ep2.ring);
    list_packet(&mut list, ep3.armed, ep3.count, &ep3.bytes);
    list.extend([ep1.ring.oldest, ep2.ring.oldest]);
    list.extend(ep0.bytes);
    list.extend(ep1.ring.bytes.iter().chain(&ep2.ring.bytes));
    list.extend(ep3.bytes);
    list.extend(ep0.setup);
    list
}

/// The buffer of the i-th waiting packet.
fn buffer(ring: &Ring, i: u8) -> usize {
    (ring.oldest as usize + i as usize) % 2
}

fn oldest_count(ring: &Ring) -> u8 {
    if ring.waiting > 0 {
        ring.counts[buffer(ring, 0)]
    } else {
        0
    }
}

/// One buffer: 0, or how many wait, the count and the packet's bytes.
fn list_packet(list: &mut Vec<u8>, waiting: u8, count: u8, bytes: &[u8]) {
    list.push(waiting);
    if waiting > 0 {
        list.push(count);
        list.extend(&bytes[..bytes.len().min(count as usize)]);
    }
}

/// Two buffers; a record that is not sound lists at most two packets.
fn list_ring(list: &mut Vec<u8>, ring: &Ring) {
    list.push(ring.waiting);
    for i in 0..ring.waiting.min(2) {
        let at = buffer(ring, i);
        let bytes = &ring.bytes[64 * at..64 * at + 64];
        list.push(ring.counts[at]);
        list.extend(&bytes[..bytes.len().min(ring.counts[at] as usize)]);
    }
}

#[cfg(before)]
pub use linked::Before;
#[cfg(capi)]
pub use linked::Library;

#[cfg(capi)]
mod linked {
    use super::{observe, observe_desk, poke, poke_desk};
    use crate::bus::Event;
    use crate::compare::{Given, Other};
    use crate::compare_classes::OtherClassroom;
    use crate::compare_lessons::{OtherLessons, Played};
    use crate::ffi::Linked;
    use crate::lesson::LessonAnswer;
    use crate::runs::{Call, Parts};
    use crate::{ffi, Firmware};

    /// The linked library.
    #[derive(Clone, Copy, Default)]
    pub struct Library;

    /// An earlier commit's, for `bench`.
    #[cfg(before)]
    #[derive(Clone, Copy, Default)]
    pub struct Before;

    impl<L: Linked> Other for L {
        type Chip = ffi::Chip;

        fn power_on(&self) -> ffi::Chip {
            <L as Linked>::power_on()
        }

        fn transfer(&self, chip: ffi::Chip, bytes: &[u8], reply: &mut [u8]) -> (ffi::Chip, Given) {
            let ffi::Answer { chip, refusal, pid, count, pin, found } = <L as Linked>::transfer(chip, bytes, reply);
            (chip, Given { refusal, pid, count, pin, found })
        }

        fn event(&self, chip: ffi::Chip, what: &Event, payload: &[u8], reply: &mut [u8]) -> (ffi::Chip, Given) {
            let ffi::Answer { chip, refusal, pid, count, pin, found } = <L as Linked>::event(chip, what, payload, reply);
            (chip, Given { refusal, pid, count, pin, found })
        }

        fn board_step(&self, chip: ffi::Chip, firmware: Firmware, reply: &mut [u8]) -> (ffi::Chip, Firmware, Given) {
            let Firmware { configuration, wakeup, halted } = firmware;
            let answer = <L as Linked>::board_step(chip, ffi::Firmware { configuration, wakeup, halted }, reply);
            let ffi::BoardAnswer { chip, firmware, refusal, kind, count, pin, found } = answer;
            let ffi::Firmware { configuration, wakeup, halted } = firmware;
            (chip, Firmware { configuration, wakeup, halted }, Given { refusal, pid: kind, count, pin, found })
        }

        fn poke(&self, chip: &mut ffi::Chip, field: usize, value: u8) {
            poke(chip, field, value);
        }

        fn observe(&self, chip: &ffi::Chip) -> Vec<u8> {
            observe(chip)
        }
    }

    fn given(answer: ffi::DeskAnswer) -> (ffi::Classroom, Given) {
        let ffi::DeskAnswer { classroom, refusal, pid, count, pin, found } = answer;
        (classroom, Given { refusal, pid, count, pin, found })
    }

    impl OtherClassroom for Library {
        type Classroom = ffi::Classroom;

        fn start(&self) -> ffi::Classroom {
            ffi::classroom_start()
        }

        fn open(&self, room: ffi::Classroom, desk: u8, key: u32) -> (ffi::Classroom, u8) {
            let ffi::TeacherAnswer { classroom, refusal } = ffi::open_desk(room, desk, key);
            (classroom, refusal)
        }

        fn close(&self, room: ffi::Classroom, desk: u8) -> (ffi::Classroom, u8) {
            let ffi::TeacherAnswer { classroom, refusal } = ffi::close_desk(room, desk);
            (classroom, refusal)
        }

        fn call(&self, room: ffi::Classroom, desk: u8, key: u32, call: &Call, reply: &mut [u8]) -> (ffi::Classroom, Given) {
            match call {
                Call::Transfer { bytes, .. } => given(ffi::desk_transfer(room, desk, key, bytes, reply)),
                Call::Event { event, payload, .. } => given(ffi::desk_event(room, desk, key, event, payload, reply)),
                Call::Step { .. } => {
                    let answer = ffi::desk_step(room, desk, key, reply);
                    let ffi::DeskStepAnswer { classroom, refusal, kind, count, pin, found } = answer;
                    (classroom, Given { refusal, pid: kind, count, pin, found })
                }
                Call::Poke { .. } => panic!("a poke is no call"),
            }
        }

        fn poke(&self, room: &mut ffi::Classroom, desk: u8, field: usize, value: u32) {
            poke_desk(&mut room.desks[desk as usize], field, value);
        }

        fn observe(&self, room: &ffi::Classroom, desk: usize) -> Vec<u8> {
            observe_desk(&room.desks[desk])
        }
    }

    fn lesson_given(answer: ffi::LessonAnswer) -> LessonAnswer {
        let ffi::LessonAnswer { refusal, found, count } = answer;
        LessonAnswer { refusal, found, count }
    }

    impl OtherLessons for Library {
        fn check_lesson(&self, file: &[u8]) -> LessonAnswer {
            lesson_given(ffi::check_lesson(file))
        }

        fn write_lesson(&self, parts: &Parts, file: &mut [u8]) -> LessonAnswer {
            let Parts { kinds, ticks, lengths, bodies } = parts;
            lesson_given(ffi::write_lesson(kinds, ticks, lengths, bodies, file))
        }

        fn replay(&self, file: &[u8], output: &mut [u8]) -> (ffi::Chip, Played) {
            let ffi::ReplayAnswer { chip, refusal, pin, found, count } = ffi::replay(file, output);
            (chip, Played { refusal, pin, found, count })
        }

        fn elapsed(&self, from: u32, to: u32) -> u32 {
            ffi::elapsed(from, to)
        }
    }
}
