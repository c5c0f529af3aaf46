//! The C interface of the proved library (include/max3420e.h): its types, and safe calls of its functions.
//! The only file with `unsafe`.

#![allow(unsafe_code)]

/// `max3420e_ring`.
#[repr(C)]
#[derive(Clone, Copy, Debug, PartialEq, Eq)]
pub struct Ring {
    pub bytes: [u8; 128],
    pub counts: [u8; 2],
    pub oldest: u8,
    pub waiting: u8,
}

/// `max3420e_endpoint0`.
#[repr(C)]
#[derive(Clone, Copy, Debug, PartialEq, Eq)]
pub struct Endpoint0 {
    pub bytes: [u8; 64],
    pub setup: [u8; 8],
    pub count: u8,
    pub armed: u8,
    pub readpos: u8,
    pub writepos: u8,
    pub setuppos: u8,
    pub intoggle: u8,
    pub outtoggle: u8,
    pub current: u8,
}

/// `max3420e_endpoint1`.
#[repr(C)]
#[derive(Clone, Copy, Debug, PartialEq, Eq)]
pub struct Endpoint1 {
    pub ring: Ring,
    pub readpos: u8,
    pub toggle: u8,
}

/// `max3420e_endpoint2`.
#[repr(C)]
#[derive(Clone, Copy, Debug, PartialEq, Eq)]
pub struct Endpoint2 {
    pub ring: Ring,
    pub count: u8,
    pub writepos: u8,
    pub toggle: u8,
}

/// `max3420e_endpoint3`.
#[repr(C)]
#[derive(Clone, Copy, Debug, PartialEq, Eq)]
pub struct Endpoint3 {
    pub bytes: [u8; 64],
    pub count: u8,
    pub armed: u8,
    pub writepos: u8,
    pub toggle: u8,
}

/// `max3420e_registers`.
#[repr(C)]
#[derive(Clone, Copy, Debug, PartialEq, Eq)]
pub struct Registers {
    pub epstalls: u8,
    pub clrtogs: u8,
    pub epirq: u8,
    pub epien: u8,
    pub usbirq: u8,
    pub usbien: u8,
    pub usbctl: u8,
    pub cpuctl: u8,
    pub pinctl: u8,
    pub fnaddr: u8,
    pub iopins: u8,
}

/// `max3420e_power`.
#[repr(C)]
#[derive(Clone, Copy, Debug, PartialEq, Eq)]
pub struct Power {
    pub vbus: u8,
    pub oscok: u8,
}

/// `max3420e_chip`.
#[repr(C)]
#[derive(Clone, Copy, Debug, PartialEq, Eq)]
pub struct Chip {
    pub ep0: Endpoint0,
    pub ep1: Endpoint1,
    pub ep2: Endpoint2,
    pub ep3: Endpoint3,
    pub registers: Registers,
    pub power: Power,
}

/// `max3420e_firmware`.
#[repr(C)]
#[derive(Clone, Copy, Debug, PartialEq, Eq)]
pub struct Firmware {
    pub configuration: u8,
    pub wakeup: u8,
    pub halted: u8,
}

/// `max3420e_answer`.
#[repr(C)]
#[derive(Clone, Copy, Debug, PartialEq, Eq)]
pub struct Answer {
    pub chip: Chip,
    pub refusal: u8,
    pub pid: u8,
    pub count: u16,
    pub pin: u8,
    pub found: usize,
}

/// `max3420e_board_answer`.
#[repr(C)]
#[derive(Clone, Copy, Debug, PartialEq, Eq)]
pub struct BoardAnswer {
    pub chip: Chip,
    pub firmware: Firmware,
    pub refusal: u8,
    pub kind: u8,
    pub count: u16,
    pub pin: u8,
    pub found: usize,
}

/// `max3420e_request_answer`.
#[repr(C)]
#[derive(Clone, Copy, Debug, PartialEq, Eq)]
pub struct RequestAnswer {
    pub firmware: Firmware,
    pub refusal: u8,
    pub kind: u8,
    pub endpoints: u8,
    pub count: u16,
    pub found: usize,
}

/// `max3420e_board`.
#[repr(C)]
#[derive(Clone, Copy, Debug, PartialEq, Eq)]
pub struct Board {
    pub chip: Chip,
    pub firmware: Firmware,
}

/// `max3420e_desk`.
#[repr(C)]
#[derive(Clone, Copy, Debug, PartialEq, Eq)]
pub struct Desk {
    pub board: Board,
    pub opened: u8,
    pub key: u32,
}

/// `max3420e_classroom`.
#[repr(C)]
#[derive(Clone, Copy, Debug, PartialEq, Eq)]
pub struct Classroom {
    pub desks: [Desk; 16],
}

/// `max3420e_teacher_answer`.
#[repr(C)]
#[derive(Clone, Copy, Debug, PartialEq, Eq)]
pub struct TeacherAnswer {
    pub classroom: Classroom,
    pub refusal: u8,
}

/// `max3420e_desk_answer`.
#[repr(C)]
#[derive(Clone, Copy, Debug, PartialEq, Eq)]
pub struct DeskAnswer {
    pub classroom: Classroom,
    pub refusal: u8,
    pub pid: u8,
    pub count: u16,
    pub pin: u8,
    pub found: usize,
}

/// `max3420e_desk_step_answer`.
#[repr(C)]
#[derive(Clone, Copy, Debug, PartialEq, Eq)]
pub struct DeskStepAnswer {
    pub classroom: Classroom,
    pub refusal: u8,
    pub kind: u8,
    pub count: u16,
    pub pin: u8,
    pub found: usize,
}

/// `max3420e_lesson_answer`.
#[repr(C)]
#[derive(Clone, Copy, Debug, PartialEq, Eq)]
pub struct LessonAnswer {
    pub refusal: u8,
    pub found: usize,
    pub count: usize,
}

/// `max3420e_replay_answer`.
#[repr(C)]
#[derive(Clone, Copy, Debug, PartialEq, Eq)]
pub struct ReplayAnswer {
    pub chip: Chip,
    pub refusal: u8,
    pub pin: u8,
    pub found: usize,
    pub count: usize,
}

// The header's offsets, as tests/layout.c prints them.
const _: () = {
    use std::mem::offset_of;
    assert!(size_of::<Chip>() == 430 && size_of::<Answer>() == 448 && size_of::<BoardAnswer>() == 448);
    assert!(offset_of!(Chip, ep1) == 80 && offset_of!(Chip, ep2) == 214 && offset_of!(Chip, ep3) == 349);
    assert!(offset_of!(Chip, registers) == 417 && offset_of!(Chip, power) == 428);
    assert!(offset_of!(Answer, refusal) == 430 && offset_of!(Answer, count) == 432 && offset_of!(Answer, pin) == 434);
    assert!(offset_of!(BoardAnswer, firmware) == 430 && offset_of!(BoardAnswer, refusal) == 433);
    assert!(offset_of!(BoardAnswer, count) == 436 && offset_of!(BoardAnswer, pin) == 438);
    assert!(offset_of!(Answer, found) == 440 && offset_of!(BoardAnswer, found) == 440);
    assert!(size_of::<RequestAnswer>() == 16 && offset_of!(RequestAnswer, count) == 6);
    assert!(offset_of!(RequestAnswer, found) == 8);
    assert!(size_of::<Board>() == 433 && offset_of!(Board, firmware) == 430);
    assert!(size_of::<Desk>() == 440 && offset_of!(Desk, opened) == 433 && offset_of!(Desk, key) == 436);
    assert!(size_of::<Classroom>() == 7040 && size_of::<TeacherAnswer>() == 7044);
    assert!(size_of::<DeskAnswer>() == 7056 && size_of::<DeskStepAnswer>() == 7056);
    assert!(offset_of!(TeacherAnswer, refusal) == 7040 && offset_of!(DeskAnswer, refusal) == 7040);
    assert!(offset_of!(DeskAnswer, count) == 7042 && offset_of!(DeskAnswer, pin) == 7044);
    assert!(offset_of!(DeskAnswer, found) == 7048 && offset_of!(DeskStepAnswer, found) == 7048);
    assert!(size_of::<LessonAnswer>() == 24 && offset_of!(LessonAnswer, found) == 8);
    assert!(offset_of!(LessonAnswer, count) == 16);
    assert!(size_of::<ReplayAnswer>() == 448 && offset_of!(ReplayAnswer, refusal) == 430);
    assert!(offset_of!(ReplayAnswer, pin) == 431 && offset_of!(ReplayAnswer, found) == 432);
    assert!(offset_of!(ReplayAnswer, count) == 440);
};

#[cfg(capi)]
pub use calls::*;

#[cfg(capi)]
mod calls {
    use super::{Answer, BoardAnswer, Chip, Classroom, DeskAnswer, DeskStepAnswer, Firmware};
    use super::{LessonAnswer, ReplayAnswer, RequestAnswer, TeacherAnswer};
    use crate::bus::Event;

    /// A linked library's calls on a chip or a board alone.
    pub trait Linked {
        fn power_on() -> Chip;
        fn transfer(chip: Chip, bytes: &[u8], reply: &mut [u8]) -> Answer;
        fn event(chip: Chip, what: &Event, payload: &[u8], reply: &mut [u8]) -> Answer;
        fn board_step(chip: Chip, firmware: Firmware, reply: &mut [u8]) -> BoardAnswer;
        fn firmware_answer(firmware: Firmware, setup: &[u8], reply: &mut [u8]) -> RequestAnswer;
    }

    /// `$library`'s functions are named `$prefix` and what the header has after `max3420e_`.
    macro_rules! link {
        ($library:ty, $prefix:literal) => {
            const _: () = {
                // SAFETY: the declarations of include/max3420e.h, whose layout tests/layout.c checks against the library.
                // `safe`: it takes no pointer, and any record is allowed.
                unsafe extern "C" {
                    #[link_name = concat!($prefix, "power_on")]
                    safe fn power_on() -> Chip;
                    #[link_name = concat!($prefix, "transfer")]
                    fn transfer(chip: Chip, bytes: *const u8, length: usize, reply: *mut u8, room: usize) -> Answer;
                    #[link_name = concat!($prefix, "event")]
                    fn event(
                        chip: Chip,
                        code: u8,
                        pins: u8,
                        address: u8,
                        endpoint: u8,
                        damaged: u8,
                        data1: u8,
                        acknowledged: u8,
                        payload: *const u8,
                        length: usize,
                        reply: *mut u8,
                        room: usize,
                    ) -> Answer;
                    #[link_name = concat!($prefix, "board_step")]
                    fn board_step(chip: Chip, firmware: Firmware, reply: *mut u8, room: usize) -> BoardAnswer;
                    #[link_name = concat!($prefix, "firmware_answer")]
                    fn firmware_answer(
                        firmware: Firmware,
                        setup: *const u8,
                        length: usize,
                        reply: *mut u8,
                        room: usize,
                    ) -> RequestAnswer;
                }

                impl Linked for $library {
                    #[inline]
                    fn power_on() -> Chip {
                        power_on()
                    }

                    #[inline]
                    fn transfer(chip: Chip, bytes: &[u8], reply: &mut [u8]) -> Answer {
                        // SAFETY: the pointers are those of slices that live through the call, with their lengths; a `&mut`
                        // slice overlaps no other; any record is allowed.
                        unsafe { transfer(chip, bytes.as_ptr(), bytes.len(), reply.as_mut_ptr(), reply.len()) }
                    }

                    #[inline]
                    fn event(chip: Chip, what: &Event, payload: &[u8], reply: &mut [u8]) -> Answer {
                        let Event { code, pins, address, endpoint, damaged, data1, acknowledged } = *what;
                        let (bytes, length) = (payload.as_ptr(), payload.len());
                        let (to, room) = (reply.as_mut_ptr(), reply.len());
                        // SAFETY: as for `transfer`.
                        unsafe {
                            event(chip, code, pins, address, endpoint, damaged, data1, acknowledged, bytes, length, to, room)
                        }
                    }

                    #[inline]
                    fn board_step(chip: Chip, firmware: Firmware, reply: &mut [u8]) -> BoardAnswer {
                        // SAFETY: as for `transfer`.
                        unsafe { board_step(chip, firmware, reply.as_mut_ptr(), reply.len()) }
                    }

                    #[inline]
                    fn firmware_answer(firmware: Firmware, setup: &[u8], reply: &mut [u8]) -> RequestAnswer {
                        // SAFETY: as for `transfer`.
                        unsafe { firmware_answer(firmware, setup.as_ptr(), setup.len(), reply.as_mut_ptr(), reply.len()) }
                    }
                }
            };
        };
    }

    link!(crate::library::Library, "max3420e_");
    #[cfg(before)]
    link!(crate::library::Before, "before_max3420e_");

    // SAFETY and `safe`: as for `Linked`.
    unsafe extern "C" {
        safe fn max3420e_classroom_start() -> Classroom;
        safe fn max3420e_open_desk(classroom: Classroom, desk: u8, key: u32) -> TeacherAnswer;
        safe fn max3420e_close_desk(classroom: Classroom, desk: u8) -> TeacherAnswer;
        fn max3420e_desk_transfer(
            classroom: Classroom,
            desk: u8,
            key: u32,
            bytes: *const u8,
            length: usize,
            reply: *mut u8,
            room: usize,
        ) -> DeskAnswer;
        fn max3420e_desk_event(
            classroom: Classroom,
            desk: u8,
            key: u32,
            code: u8,
            pins: u8,
            address: u8,
            endpoint: u8,
            damaged: u8,
            data1: u8,
            acknowledged: u8,
            payload: *const u8,
            length: usize,
            reply: *mut u8,
            room: usize,
        ) -> DeskAnswer;
        fn max3420e_desk_step(classroom: Classroom, desk: u8, key: u32, reply: *mut u8, room: usize) -> DeskStepAnswer;
        fn max3420e_check_lesson(file: *const u8, length: usize) -> LessonAnswer;
        fn max3420e_write_lesson(
            kinds: *const u8,
            kind_count: usize,
            ticks: *const u32,
            tick_count: usize,
            lengths: *const u16,
            length_count: usize,
            bodies: *const u8,
            size: usize,
            file: *mut u8,
            room: usize,
        ) -> LessonAnswer;
        fn max3420e_replay(file: *const u8, length: usize, output: *mut u8, room: usize) -> ReplayAnswer;
        safe fn max3420e_elapsed(from: u32, to: u32) -> u32;
    }

    #[inline]
    pub fn classroom_start() -> Classroom {
        max3420e_classroom_start()
    }

    #[inline]
    pub fn open_desk(room: Classroom, desk: u8, key: u32) -> TeacherAnswer {
        max3420e_open_desk(room, desk, key)
    }

    #[inline]
    pub fn close_desk(room: Classroom, desk: u8) -> TeacherAnswer {
        max3420e_close_desk(room, desk)
    }

    #[inline]
    pub fn desk_transfer(room: Classroom, desk: u8, key: u32, bytes: &[u8], reply: &mut [u8]) -> DeskAnswer {
        let (to, lent) = (reply.as_mut_ptr(), reply.len());
        // SAFETY: as for `Linked::transfer`.
        unsafe { max3420e_desk_transfer(room, desk, key, bytes.as_ptr(), bytes.len(), to, lent) }
    }

    #[inline]
    pub fn desk_event(room: Classroom, desk: u8, key: u32, what: &Event, payload: &[u8], reply: &mut [u8]) -> DeskAnswer {
        let Event { code, pins, address, endpoint, damaged, data1, acknowledged } = *what;
        let (bytes, length) = (payload.as_ptr(), payload.len());
        let (to, lent) = (reply.as_mut_ptr(), reply.len());
        // SAFETY: as for `Linked::transfer`.
        unsafe {
            max3420e_desk_event(
                room,
                desk,
                key,
                code,
                pins,
                address,
                endpoint,
                damaged,
                data1,
                acknowledged,
                bytes,
                length,
                to,
                lent,
            )
        }
    }

    #[inline]
    pub fn desk_step(room: Classroom, desk: u8, key: u32, reply: &mut [u8]) -> DeskStepAnswer {
        // SAFETY: as for `Linked::transfer`.
        unsafe { max3420e_desk_step(room, desk, key, reply.as_mut_ptr(), reply.len()) }
    }

    #[inline]
    pub fn check_lesson(file: &[u8]) -> LessonAnswer {
        // SAFETY: as for `Linked::transfer`.
        unsafe { max3420e_check_lesson(file.as_ptr(), file.len()) }
    }

    #[inline]
    pub fn write_lesson(kinds: &[u8], ticks: &[u32], lengths: &[u16], bodies: &[u8], file: &mut [u8]) -> LessonAnswer {
        // SAFETY: as for `Linked::transfer`.
        unsafe {
            max3420e_write_lesson(
                kinds.as_ptr(),
                kinds.len(),
                ticks.as_ptr(),
                ticks.len(),
                lengths.as_ptr(),
                lengths.len(),
                bodies.as_ptr(),
                bodies.len(),
                file.as_mut_ptr(),
                file.len(),
            )
        }
    }

    #[inline]
    pub fn replay(file: &[u8], output: &mut [u8]) -> ReplayAnswer {
        // SAFETY: as for `Linked::transfer`.
        unsafe { max3420e_replay(file.as_ptr(), file.len(), output.as_mut_ptr(), output.len()) }
    }

    #[inline]
    pub fn elapsed(from: u32, to: u32) -> u32 {
        max3420e_elapsed(from, to)
    }
}
