//! The library's record and this model's have the same fields: poked alike, they are observed alike.

use second::fields::{self, FIELDS};
use second::{ffi, library, Chip};

/// The library's power-on record, written out.
fn power_on() -> ffi::Chip {
    let ring = ffi::Ring { bytes: [0; 128], counts: [0; 2], oldest: 0, waiting: 0 };
    let (readpos, writepos, count, armed, toggle) = (0, 0, 0, 0, 0);
    ffi::Chip {
        ep0: ffi::Endpoint0 {
            bytes: [0; 64],
            setup: [0; 8],
            count,
            armed,
            readpos,
            writepos,
            setuppos: 0,
            intoggle: 0,
            outtoggle: 0,
            current: 0,
        },
        ep1: ffi::Endpoint1 { ring, readpos, toggle },
        ep2: ffi::Endpoint2 { ring, count, writepos, toggle },
        ep3: ffi::Endpoint3 { bytes: [0; 64], count, armed, writepos, toggle },
        registers: ffi::Registers {
            epstalls: 0,
            clrtogs: 0,
            epirq: 0x19,
            epien: 0,
            usbirq: 0,
            usbien: 0,
            usbctl: 0,
            cpuctl: 0,
            pinctl: 0,
            fnaddr: 0,
            iopins: 0,
        },
        power: ffi::Power { vbus: 0, oscok: 0 },
    }
}

/// Both counts of a ring show when two packets wait.
#[test]
fn poked_alike_observed_alike() {
    for (field, (name, _)) in FIELDS.iter().enumerate() {
        let (mut mine, mut theirs) = (Chip::power_on(), power_on());
        for waiting in ["ep1_waiting", "ep2_waiting"] {
            fields::poke(&mut mine, fields::field(waiting), 2);
            library::poke(&mut theirs, fields::field(waiting), 2);
        }
        assert_eq!(fields::observe(&mine), library::observe(&theirs), "{name}");
        let before = fields::observe(&mine);
        fields::poke(&mut mine, field, 1);
        library::poke(&mut theirs, field, 1);
        assert_ne!(before, fields::observe(&mine), "{name}");
        assert_eq!(fields::observe(&mine), library::observe(&theirs), "{name}");
    }
}
