//! Nanoseconds of a pupil's call at a desk of the proved library, against the same call on his chip or board alone, as a
//! Markdown table: with his desk open, and with all sixteen. The last columns are this model's, over the C boundary too.
//! A classroom is 7,040 bytes that go there and back by value; the first row is little else. Run it as `COMMAND` says.

const COMMAND: &str = "cargo run --profile measure --no-default-features --bin bench_classroom";

#[cfg(not(capi))]
fn main() {
    eprintln!("libcapi.a is not linked (see build.rs); then: {COMMAND}");
    std::process::exit(1);
}

#[cfg(capi)]
fn main() {
    measured::print_table();
}

#[cfg(capi)]
mod measured {
    use second::classroom::{Classroom, DeskAnswer};
    use second::compare::Second;
    use second::compare_classes::OtherClassroom;
    use second::ffi;
    use second::library::Library;
    use second::measure::{print_head, time, time_library, ROUNDS};
    use second::runs::*;
    use std::hint::black_box;

    const DESK: u8 = 5;
    const KEY: u32 = 0x5EED_0005;

    /// What is timed at `desk`, after some calls at `DESK`.
    struct Case {
        name: &'static str,
        desk: u8,
        before: Vec<Call>,
        call: Call,
    }

    fn case(name: &'static str, more: &[Call], call: Call) -> Case {
        Case { name, desk: DESK, before: [&on()[..], more].concat(), call }
    }

    fn cases() -> Vec<Case> {
        let full: Vec<u8> = (0..64).collect();
        let echo = Case { desk: 16, ..case("transfer at no desk (the classroom there and back)", &[], write(9, &[0x40])) };
        vec![
            echo,
            case("R2, burst of 1", &[], write(2, &[1])),
            case("R2, burst of 64", &[], write(2, &full)),
            case("R9 written", &[], write(9, &[0x40])),
            case("IN of 64, acknowledged", &[write(2, &full), write(7, &[64])], take(0, 2, true)),
            case("OUT of 64", &[], out(0, 1, false, &full)),
            case("board step, idle", &[], step()),
            case("board step, device descriptor", &[setup(0, &[0x80, 6, 0, 1, 0, 0, 64, 0])], step()),
        ]
    }

    /// The classroom before the timed call: `DESK` is open, and so are others.
    fn prepared<M: OtherClassroom>(model: &M, case: &Case, others: bool) -> M::Classroom {
        let mut room = model.start();
        let desks = (0..16).filter(|desk| *desk == DESK || others);
        for desk in desks {
            room = model.open(room, desk, KEY ^ u32::from(desk ^ DESK)).0;
        }
        for call in &case.before {
            room = model.call(room, DESK, KEY, call, &mut [0; 80]).0;
        }
        room
    }

    /// Both models answer the timed call alike.
    fn check(case: &Case, others: bool) {
        let (mut left, mut right) = ([0xEE; 80], [0xEE; 80]);
        let (ours, theirs) = (prepared(&Second::default(), case, others), prepared(&Library, case, others));
        let (ours, given) = Second::default().call(ours, case.desk, KEY, &case.call, &mut right);
        let (theirs, wanted) = Library.call(theirs, case.desk, KEY, &case.call, &mut left);
        assert_eq!((given, right), (wanted, left), "{}", case.name);
        for desk in 0..16 {
            let (ours, theirs) = (Second::default().observe(&ours, desk), Library.observe(&theirs, desk));
            assert_eq!(ours, theirs, "{}, desk {desk}", case.name);
        }
    }

    fn time_desk(case: &Case, others: bool) -> f64 {
        let (room, desk) = (prepared(&Library, case, others), case.desk);
        let reply = &mut [0; 80][..];
        match &case.call {
            Call::Transfer { bytes, .. } => {
                time(|| ffi::desk_transfer(*black_box(&room), desk, KEY, black_box(bytes), black_box(&mut *reply)))
            }
            Call::Event { event: what, payload: vs, .. } => {
                time(|| ffi::desk_event(*black_box(&room), desk, KEY, black_box(what), vs, black_box(&mut *reply)))
            }
            _ => time(|| ffi::desk_step(*black_box(&room), desk, KEY, black_box(&mut *reply))),
        }
    }

    /// This model's call as it stands in a user's program. The references are Rust's; no C program calls it.
    #[allow(improper_ctypes_definitions)]
    #[inline(never)]
    extern "C" fn call_second(room: Classroom, desk: u8, key: u32, call: &Call, reply: &mut [u8]) -> DeskAnswer {
        room.call(desk, key, call, reply)
    }

    fn time_second(case: &Case) -> f64 {
        let room = prepared(&Second::default(), case, true);
        let reply = &mut [0; 80][..];
        time(|| call_second(*black_box(&room), case.desk, KEY, black_box(&case.call), black_box(&mut *reply)))
    }

    pub fn print_table() {
        print_head("all columns", super::COMMAND);
        println!(
            "| call | alone, ns | at a desk, one open, ns | sixteen open, ns | second model, sixteen open, ns | ratio |"
        );
        println!("|---|---:|---:|---:|---:|---:|");
        for case in cases() {
            let board = prepared(&Library, &case, false).desks[DESK as usize].board;
            for others in [false, true] {
                check(&case, others);
            }
            let (mut alone, mut one, mut all, mut second) = (f64::INFINITY, f64::INFINITY, f64::INFINITY, f64::INFINITY);
            for _ in 0..ROUNDS {
                alone = alone.min(time_library::<Library>(&board, &case.call));
                one = one.min(time_desk(&case, false));
                all = all.min(time_desk(&case, true));
                second = second.min(time_second(&case));
            }
            println!("| {} | {alone:.0} | {one:.0} | {all:.0} | {second:.0} | {:.2} |", case.name, all / second);
        }
    }
}
