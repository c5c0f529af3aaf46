//! The second model against the proved library (libcapi.a): every answer, every lent byte, everything observable.
//! A difference is printed as a console script. `COMPARE_SEED` (decimal), `COMPARE_CALLS` and `COMPARE_LESSONS` choose other runs.

#[cfg(not(capi))]
#[test]
fn skipped_without_the_library() {
    println!("libcapi.a is not linked (see build.rs): nothing is compared");
}

#[cfg(capi)]
mod linked {
    use second::compare::{compare, shortest, Second};
    use second::compare_classes::{compare_classes, shortest_class, told_at};
    use second::compare_lessons::{compare_trial, shortest_trial, OtherLessons};
    use second::ffi::Linked;
    use second::lesson::{self, LessonAnswer};
    use second::library::Library;
    use second::noticed::{unnoticed_class_flips, unnoticed_flips, unnoticed_lesson_flips};
    use second::runs::*;
    use second::script::script;
    use second::{ffi, firmware_answer, Endpoints, Firmware, FirmwareAnswer};

    const RIGHT: Second = Second { flip: None };

    fn number(name: &str, default: u64) -> u64 {
        std::env::var(name).map_or(default, |text| text.parse().unwrap_or_else(|_| panic!("{name} is not a number")))
    }

    fn seed() -> u64 {
        number("COMPARE_SEED", 3420)
    }

    /// Plays a list on both; how many calls that is.
    fn agree(what: &str, calls: &[Call]) -> u64 {
        if compare(&Library, &RIGHT, calls).is_none() {
            return calls.len() as u64;
        }
        let (short, difference) = shortest(&Library, &RIGHT, calls).expect("it differs");
        panic!(
            "{what}: call {} of the script differs (library against second model) in {}\n{}",
            difference.at + 1,
            difference.what,
            script(&short)
        );
    }

    /// Lists of a generator, one for each seed, until `calls` are played.
    fn agree_on(what: &str, calls: u64, make: impl Fn(&mut Rng) -> Vec<Call>) {
        let (mut played, mut lists) = (0, 0);
        while played < calls {
            let seed = seed().wrapping_add(lists);
            played += agree(&format!("{what}, seed {seed}"), &make(&mut Rng::new(seed)));
            lists += 1;
        }
        println!("{what}: {played} calls in {lists} lists agree");
    }

    #[test]
    fn mixed_runs() {
        let (calls, mut played, mut lists) = (number("COMPARE_CALLS", 1_000_000), 0, 0);
        while played < calls {
            let seed = seed().wrapping_add(lists);
            played += agree(&format!("mixed runs, seed {seed}"), &list(seed));
            lists += 1;
        }
        println!("mixed runs: {played} calls in {lists} lists agree");
    }

    #[test]
    fn long_walks() {
        agree_on("walks", 200_000, |rng| walk(rng, 2000));
    }

    #[test]
    fn built_states() {
        agree_on("built states", 200_000, built);
    }

    #[test]
    fn refused_calls() {
        agree_on("refusals", 100_000, refusals);
    }

    #[test]
    fn poked_records() {
        agree_on("sound records", 200_000, sound_record);
        agree_on("unsound records", 200_000, unsound_record);
    }

    #[test]
    fn whole_enumerations() {
        agree_on("enumerations", 100_000, enumeration);
    }

    #[test]
    fn tables() {
        let played: u64 = whole_tables().map(|list| agree("tables", &list)).sum();
        println!("tables: {played} calls agree");
    }

    #[test]
    fn every_pair_of_request_type_and_code() {
        let rng = &mut Rng::new(seed());
        let mut played = 0;
        for kind in 0..=255 {
            for configured in [false, true] {
                played += agree("request pairs", &request_pairs(kind, configured, rng));
            }
        }
        println!("request pairs: {played} calls agree");
    }

    /// Every pair again, by the firmware's own call: any record of it, any length of the setup bytes, a buffer too short.
    #[test]
    fn firmware_answers_to_every_pair() {
        let rng = &mut Rng::new(seed());
        let fields = [0, 0, 1, 2, 3, 9, 18, 0x21, 0x22, 0x83, 255];
        for pair in 0..=u16::MAX {
            for _ in 0..8 {
                let [kind, code] = pair.to_le_bytes();
                let setup = [kind, code].into_iter().chain((0..7).map(|_| rng.pick(&fields))).collect::<Vec<u8>>();
                let (configuration, wakeup, halted) =
                    (rng.pick(&[0, 1, 1, 2]), rng.pick(&[0, 1, 1, 2]), rng.pick(&[0, 0, 1, 2]));
                let (length, room) = (rng.pick(&[8, 8, 8, 8, 8, 8, 0, 7, 9]), rng.pick(&[64, 80, 80, 80, 63]));
                let (mut left, mut right) = ([0xEE; 80], [0xEE; 80]);
                let firmware = ffi::Firmware { configuration, wakeup, halted };
                let theirs = Library::firmware_answer(firmware, &setup[..length], &mut left[..room]);
                let ours = firmware_answer(&setup[..length], Firmware { configuration, wakeup, halted }, &mut right[..room]);
                let Firmware { configuration, wakeup, halted } = ours.firmware;
                let firmware = ffi::Firmware { configuration, wakeup, halted };
                let endpoints = match ours.endpoints {
                    Endpoints::Unchanged => 0,
                    Endpoints::ClearHalt => 1,
                    Endpoints::SetHalt => 2,
                    Endpoints::Configure => 3,
                };
                let FirmwareAnswer { refusal, kind, count, found, .. } = ours;
                let ours = ffi::RequestAnswer { firmware, refusal, kind, endpoints, count, found };
                assert_eq!((theirs, left), (ours, right), "setup bytes {:02X?}, room {room}", &setup[..length]);
            }
        }
    }

    /// Classes of random orders, also to desks that are not sound: every answer, pin and buffer, and all sixteen desks.
    #[test]
    fn classes() {
        let (mut played, mut lists) = (0, 0);
        while played < 100_000 {
            let seed = seed().wrapping_add(lists);
            let orders = class_list(seed);
            if compare_classes(&Library, &RIGHT, &orders).is_some() {
                let (short, difference) = shortest_class(&Library, &RIGHT, &orders).expect("it differs");
                panic!("class, seed {seed}: the last order differs in {}\n{short:#?}", difference.what);
            }
            played += orders.len();
            lists += 1;
        }
        println!("classes: {played} orders in {lists} lists agree");
    }

    /// What a desk is answered is the same whatever is sent to the others.
    #[test]
    fn other_desks_do_not_matter() {
        for seed in seed()..seed() + 1000 {
            let (desk, [left, right]) = same_at_one_desk(&mut Rng::new(seed));
            let told = told_at(&Library, &left, desk);
            assert!(left != right && told.0[0].0.refusal == 0, "seed {seed}: two classes, the desk opened");
            assert_eq!(told, told_at(&Library, &right, desk), "seed {seed}, desk {desk}");
        }
    }

    #[test]
    fn every_flip_of_the_classroom_is_noticed() {
        let missed = unnoticed_class_flips(&Library);
        assert!(missed.is_empty(), "not noticed by the classes: {missed:?}");
    }

    /// A trial on both.
    fn agree_on_lesson(what: &str, trial: &Trial) {
        if compare_trial(&Library, &RIGHT, trial).is_some() {
            let (short, difference) = shortest_trial(&Library, &RIGHT, trial).expect("it differs");
            panic!("{what} (library against second model) differs in {difference}\n{short:02X?}");
        }
    }

    /// Random lessons, files and parts that are none: what checking, writing and playing answer, with every kind of room, every
    /// lent byte, and the chip.
    #[test]
    fn lessons() {
        let trials = number("COMPARE_LESSONS", 20_000);
        for seed in (0..trials).map(|n| seed().wrapping_add(n)) {
            agree_on_lesson(&format!("lesson, seed {seed}"), &lesson_trial(seed));
        }
        println!("lessons: {trials} trials agree");
    }

    /// Small lessons with each byte changed, cut at each length, and longer; files and parts at each limit.
    #[test]
    fn damaged_lessons() {
        let trials = lesson_tables().map(|trial| agree_on_lesson("lesson tables", &trial)).count();
        println!("lesson tables: {trials} trials agree");
    }

    /// A file that the second model reads is the one that the library writes for its lesson.
    #[test]
    fn lessons_written_again() {
        let mut written = 0;
        for seed in seed()..seed() + 2000 {
            let Trial::File(file) = lesson_trial(seed) else { continue };
            let Ok(entries) = lesson::read(&file) else { continue };
            let entries: Vec<Timed> = entries.map(Timed::from).collect();
            let mut again = vec![0; file.len()];
            let answer = Library.write_lesson(&Parts::of(&entries), &mut again);
            assert_eq!(answer, LessonAnswer { refusal: 0, found: 0, count: file.len() }, "seed {seed}");
            assert!(again == file, "seed {seed}");
            written += 1;
        }
        assert!(written > 500, "{written} files are lessons");
    }

    #[test]
    fn every_flip_of_lessons_is_noticed() {
        let missed = unnoticed_lesson_flips(&Library);
        assert!(missed.is_empty(), "not noticed by the random trials: {missed:?}");
    }

    /// The library is the reference: each flip of the second model is a difference from it.
    #[test]
    fn every_flip_is_noticed() {
        let missed = unnoticed_flips(&Library);
        assert!(missed.is_empty(), "not noticed by the built states: {missed:?}");
    }
}
