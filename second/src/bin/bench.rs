//! Nanoseconds a call of the proved library and of this model, and their ratio, as a Markdown table.
//! Both take their record by value and hand it back, as a user writes it, over the C boundary: a record that a C function takes by
//! value is copied to the stack, which a Rust function spares. The last column is this model by a Rust call. Run it as `COMMAND` says.
//! A second table has lessons of 1, 16 and 64 KiB, played from power-on.
//! Words after ` -- ` choose the rows whose name has one of them in it; `-- burst` is all bursts of R0 to R4, `-- replay` the lessons.
//!
//! With BEFORE_DIR=FOLDER before the command, FOLDER having an earlier commit's libcapi.a (`sh scripts/staticlib.sh capi` there), that
//! library is measured in the same run, in turn with the others: its times and its ratio stand before the library's.

const COMMAND: &str = "cargo run --profile measure --no-default-features --bin bench";

#[cfg(not(capi))]
fn main() {
    eprintln!("libcapi.a is not linked (see build.rs); then: {COMMAND}");
    std::process::exit(1);
}

#[cfg(capi)]
fn main() {
    measured::print_tables(&std::env::args().skip(1).collect::<Vec<_>>());
}

#[cfg(capi)]
mod measured {
    use second::bus::Event;
    use second::compare::{Given, Other, Second};
    use second::ffi::Linked;
    #[cfg(before)]
    use second::library::Before;
    use second::library::Library;
    use second::measure::{print_head, time, ROUNDS};
    use second::runs::*;
    use second::{ffi, measure, Answer, BoardAnswer, Chip, Firmware, FirmwareAnswer};
    use std::hint::black_box;

    /// What is timed, on the record that some calls from power-on leave.
    struct Case {
        name: String,
        before: Vec<Call>,
        call: Call,
    }

    fn case(name: &str, more: &[Call], call: Call) -> Case {
        Case { name: name.to_string(), before: [&on()[..], more].concat(), call }
    }

    fn cases() -> Vec<Case> {
        let mut all = vec![case("refused transfer (the record there and back)", &[], spi(&[]))];
        all.extend(bursts());
        all.extend(others());
        all
    }

    /// 1 to 64: no byte of a burst leaves a buffer as it was at power-on.
    fn full() -> Vec<u8> {
        (1..=64).collect()
    }

    /// Buffers written from their start; packets and a SETUP read from theirs.
    fn bursts() -> Vec<Case> {
        let sizes = [1, 8, 64];
        // a control write of 64 bytes, so that R0 has OUT data to read
        let (asked, data) = (setup(0, &[0x21, 9, 0, 2, 0, 0, 64, 0]), out(0, 0, true, &full()));
        let writes = |r: u8| sizes.map(|n| case(&format!("R{r}, burst of {n}"), &[], write(r, &full()[..n])));
        let reads = |r: u8, more: &[Call]| sizes.map(|n| case(&format!("R{r} read, burst of {n}"), more, read(r, n)));
        let mut all: Vec<Case> = [0, 2, 3].into_iter().flat_map(writes).collect();
        all.extend(reads(0, &[asked.clone(), data]));
        all.extend(reads(1, &[out(0, 1, false, &full())]));
        all.push(case("R4 read, burst of 8", &[asked], read(4, 8)));
        all
    }

    fn others() -> Vec<Case> {
        let full = full();
        let controls = [0x40, 0x00, 0x21, 0x30, 0x01, 0x88, 0x08, 0x01, 0x18, 0x00, 0x00, 0x05];
        let request = |bytes: [u8; 8]| [setup(0, &bytes)];
        vec![
            case("R11 read", &[], read(11, 1)),
            case("R9 written", &[], write(9, &[0x40])),
            case("R9 to R20 written", &[], write(9, &controls)),
            case("IN of 64, acknowledged", &[write(2, &full), write(7, &[64])], take(0, 2, true)),
            case("OUT of 64", &[], out(0, 1, false, &full)),
            case("SETUP", &[], setup(0, &[0x80, 6, 0, 1, 0, 0, 64, 0])),
            case("board step, idle", &[], step()),
            case("board step, device descriptor", &request([0x80, 6, 0, 1, 0, 0, 64, 0]), step()),
            case("board step, configuration descriptor", &request([0x80, 6, 0, 2, 0, 0, 255, 0]), step()),
            case("board step, status", &request([0x80, 0, 0, 0, 0, 0, 2, 0]), step()),
            case("board step, SET_CONFIGURATION", &request([0x00, 9, 1, 0, 0, 0, 0, 0]), step()),
            case("board step, STALL", &request([0xC0, 1, 0, 0, 0, 0, 0, 0]), step()),
        ]
    }

    /// One call on a model.
    fn play<M: Other>(
        model: &M,
        chip: M::Chip,
        firmware: Firmware,
        call: &Call,
        reply: &mut [u8],
    ) -> (M::Chip, Firmware, Given) {
        let (chip, given) = match call {
            Call::Transfer { bytes, .. } => model.transfer(chip, bytes, reply),
            Call::Event { event, payload, .. } => model.event(chip, event, payload, reply),
            Call::Step { .. } => return model.board_step(chip, firmware, reply),
            Call::Poke { .. } => unreachable!("no case pokes"),
        };
        (chip, firmware, given)
    }

    /// The records before the timed call.
    fn prepared<M: Other>(model: &M, case: &Case) -> (M::Chip, Firmware) {
        let (mut chip, mut firmware) = (model.power_on(), Firmware::power_on());
        for call in &case.before {
            (chip, firmware, _) = play(model, chip, firmware, call, &mut [0; 80]);
        }
        (chip, firmware)
    }

    /// What a model makes of the timed call: the records, the reply, the answer.
    fn answered<M: Other>(model: &M, case: &Case) -> (Vec<u8>, Firmware, [u8; 80], Given) {
        let mut reply = [0xEE; 80];
        let (chip, firmware) = prepared(model, case);
        let (chip, firmware, given) = play(model, chip, firmware, &case.call, &mut reply);
        (model.observe(&chip), firmware, reply, given)
    }

    /// All models answer the timed call alike; a burst moves a position, or else it would be timed for nothing.
    fn check(case: &Case) {
        let model = Second::default();
        let wanted = answered(&model, case);
        assert_eq!(answered(&Library, case), wanted, "{}", case.name);
        #[cfg(before)]
        assert_eq!(answered(&Before, case), wanted, "the earlier library, {}", case.name);
        let acts = model.observe(&prepared(&model, case).0) != wanted.0;
        assert!(acts || !case.name.contains("burst"), "{}", case.name);
    }

    /// This model's calls as they stand in a user's program: not merged with the loop. First by Rust's calling convention.
    mod by_rust {
        use super::*;

        #[inline(never)]
        pub fn transfer(chip: Chip, bytes: &[u8], reply: &mut [u8]) -> Answer {
            second::transfer(chip, bytes, reply)
        }

        #[inline(never)]
        pub fn event(chip: Chip, what: &Event, payload: &[u8], reply: &mut [u8]) -> Answer {
            second::event(chip, *what, payload, reply)
        }

        #[inline(never)]
        pub fn board_step(chip: Chip, firmware: Firmware, reply: &mut [u8]) -> BoardAnswer {
            second::board_step(chip, firmware, reply)
        }

        #[inline(never)]
        pub fn firmware_answer(firmware: Firmware, setup: &[u8], reply: &mut [u8]) -> FirmwareAnswer {
            second::firmware_answer(setup, firmware, reply)
        }
    }

    /// Then by C's, as the library's functions are called. The slices are Rust's; no C program calls these.
    #[allow(improper_ctypes_definitions)]
    mod by_c {
        use super::*;

        #[inline(never)]
        pub extern "C" fn transfer(chip: Chip, bytes: &[u8], reply: &mut [u8]) -> Answer {
            second::transfer(chip, bytes, reply)
        }

        #[inline(never)]
        pub extern "C" fn event(chip: Chip, what: &Event, payload: &[u8], reply: &mut [u8]) -> Answer {
            second::event(chip, *what, payload, reply)
        }

        #[inline(never)]
        pub extern "C" fn board_step(chip: Chip, firmware: Firmware, reply: &mut [u8]) -> BoardAnswer {
            second::board_step(chip, firmware, reply)
        }

        #[inline(never)]
        pub extern "C" fn firmware_answer(firmware: Firmware, setup: &[u8], reply: &mut [u8]) -> FirmwareAnswer {
            second::firmware_answer(setup, firmware, reply)
        }
    }

    fn time_library<L: Linked>(library: &L, case: &Case) -> f64 {
        let (chip, firmware) = prepared(library, case);
        let Firmware { configuration, wakeup, halted } = firmware;
        let firmware = ffi::Firmware { configuration, wakeup, halted };
        measure::time_library::<L>(&ffi::Board { chip, firmware }, &case.call)
    }

    /// `$by` is the module whose calls are timed.
    macro_rules! time_second {
        ($case:expr, $by:ident) => {{
            let (chip, firmware) = prepared(&Second::default(), $case);
            let reply = &mut [0; 80][..];
            match &$case.call {
                Call::Transfer { bytes, .. } => {
                    time(|| $by::transfer(*black_box(&chip), black_box(bytes), black_box(&mut *reply)))
                }
                Call::Event { event, payload, .. } => {
                    time(|| $by::event(*black_box(&chip), black_box(event), black_box(payload), black_box(&mut *reply)))
                }
                _ => time(|| $by::board_step(*black_box(&chip), black_box(firmware), black_box(&mut *reply))),
            }
        }};
    }

    /// The firmware alone, asked for the device descriptor.
    const DEVICE: &[u8] = &[0x80, 6, 0, 1, 0, 0, 64, 0];

    fn time_firmware<L: Linked>() -> f64 {
        let (firmware, reply) = (ffi::Firmware { configuration: 0, wakeup: 0, halted: 0 }, &mut [0; 80][..]);
        time(|| L::firmware_answer(black_box(firmware), black_box(DEVICE), black_box(&mut *reply)))
    }

    macro_rules! time_second_firmware {
        ($by:ident) => {{
            let (firmware, reply) = (Firmware::power_on(), &mut [0; 80][..]);
            time(|| $by::firmware_answer(black_box(firmware), black_box(DEVICE), black_box(&mut *reply)))
        }};
    }

    /// The earlier library if any, the library, this model over the C boundary and by a Rust call.
    const COLUMNS: usize = if cfg!(before) { 4 } else { 3 };

    /// The columns timed once, in turn.
    fn round(case: &Case) -> [f64; COLUMNS] {
        [
            #[cfg(before)]
            time_library(&Before, case),
            time_library(&Library, case),
            time_second!(case, by_c),
            time_second!(case, by_rust),
        ]
    }

    fn firmware_round() -> [f64; COLUMNS] {
        [
            #[cfg(before)]
            time_firmware::<Before>(),
            time_firmware::<Library>(),
            time_second_firmware!(by_c),
            time_second_firmware!(by_rust),
        ]
    }

    /// Prints each column's best of all rounds, and the libraries' ratios to this model.
    fn print_row(name: &str, round: impl Fn() -> [f64; COLUMNS]) {
        let mut best = [f64::INFINITY; COLUMNS];
        for _ in 0..ROUNDS {
            let now = round();
            best = std::array::from_fn(|i| best[i].min(now[i]));
        }
        let [libraries @ .., in_c, in_rust] = best;
        let times = libraries.map(|ns| format!("{ns:.0} | ")).concat();
        let ratios = libraries.map(|ns| format!("{:.2} | ", ns / in_c)).concat();
        println!("| {name} | {times}{in_c:.0} | {ratios}{in_rust:.0} |");
    }

    fn print_heads(words: &[String]) {
        let (models, folder) = if cfg!(before) { ("all models", "BEFORE_DIR=FOLDER ") } else { ("both models", "") };
        let rows: String = words.iter().map(|word| format!(" {word:?}")).collect();
        let rows = if words.is_empty() { rows } else { format!(" --{rows}") };
        print_head(models, &format!("{folder}{}{rows}", super::COMMAND));
    }

    fn print_calls_head() {
        let (before, ratio) = if cfg!(before) { ("before, ns | ", "ratio before | ") } else { ("", "") };
        println!("| call | {before}library, ns | second model, ns | {ratio}ratio | second model by a Rust call, ns |");
        println!("|---|---:{}|", "|---:".repeat(if cfg!(before) { 5 } else { 3 }));
    }

    /// The rows whose name has one of the words in it; without words, all.
    pub fn print_tables(words: &[String]) {
        let chosen = |name: &str| words.is_empty() || words.iter().any(|word| name.contains(word));
        print_heads(words);
        let cases: Vec<Case> = cases().into_iter().filter(|case| chosen(&case.name)).collect();
        let firmware = "firmware answer, device descriptor";
        if !cases.is_empty() || chosen(firmware) {
            print_calls_head();
        }
        for case in &cases {
            check(case);
            print_row(&case.name, || round(case));
        }
        if chosen(firmware) {
            print_row(firmware, firmware_round);
        }
        println!();
        let lessons = [1, 16, 64].map(|kib| (format!("replay of {kib} KiB"), recipe(1024 * kib)));
        replays::print_table(lessons.iter().filter(|(name, _)| chosen(name)));
    }

    /// Lessons by `runs::recipe`.
    mod replays {
        use super::*;
        use second::compare_lessons::OtherLessons;
        use second::lesson::{self, ReplayAnswer};
        use second::measure::{time_replay, REPLAYS};

        /// This model's as it stands in a user's program. The slices are Rust's; no C program calls it.
        #[allow(improper_ctypes_definitions)]
        #[inline(never)]
        extern "C" fn replay_second(file: &[u8], output: &mut [u8]) -> ReplayAnswer {
            lesson::replay(file, output)
        }

        /// Both models play it alike; how many bytes they write.
        fn check(name: &str, file: &[u8]) -> usize {
            let (mut left, mut right) = (vec![0xEE; 2 * lesson::FILE], vec![0xEE; 2 * lesson::FILE]);
            let (theirs, told) = Library.replay(file, &mut left);
            let (ours, wanted) = Second::default().replay(file, &mut right);
            assert_eq!(told, wanted, "{name}");
            assert!(told.refusal == 0 && left == right, "{name}");
            assert_eq!(Library.observe(&theirs), Second::default().observe(&ours), "{name}");
            told.count
        }

        /// With room for the most that such a file can be answered with, and with just what it is answered with.
        fn print_rows(name: &str, file: &[u8]) {
            let most = 68 * usize::from(file[1]) + file.len();
            print_row(&format!("{name}, room for the most"), file, most);
            print_row(&format!("{name}, just room enough"), file, check(name, file));
        }

        fn print_row(name: &str, file: &[u8], room: usize) {
            let mut output = vec![0; room];
            let (mut library, mut second) = (f64::INFINITY, f64::INFINITY);
            for _ in 0..ROUNDS {
                library = library.min(time_replay(|| ffi::replay(black_box(file), black_box(&mut output[..]))));
                second = second.min(time_replay(|| replay_second(black_box(file), black_box(&mut output[..]))));
            }
            let (n, size) = (file[1], file.len() as f64);
            let (each, other) = (library / size, second / size);
            let ratio = library / second;
            println!("| {name} | {n} | {library:.0} | {second:.0} | {ratio:.2} | {each:.2} | {other:.2} |");
        }

        pub fn print_table<'l>(lessons: impl Iterator<Item = &'l (String, Vec<u8>)>) {
            let mut lessons = lessons.peekable();
            if lessons.peek().is_none() {
                return;
            }
            println!("Lessons: rounds of {REPLAYS} replays; a byte is one of the file.\n");
            println!("| lesson | entries | library, ns | second model, ns | ratio | library, ns a byte | second model, ns a byte |");
            println!("|---|---:|---:|---:|---:|---:|---:|");
            lessons.for_each(|(name, file)| print_rows(name, file));
        }
    }
}
