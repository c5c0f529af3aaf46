//! The firmware's answers against the project's listing (requests.txt: the descriptor bytes that are the project's own),
//! its refusals, and requests that the listing does not have.

use second::{firmware_answer, Endpoints, Firmware, FirmwareAnswer};

fn said(answer: &FirmwareAnswer, reply: &[u8]) -> String {
    let bytes: String = reply[..answer.count as usize].iter().map(|byte| format!(" {byte:02X}")).collect();
    let kind = ["refused", "stall", "ack", "data"][answer.kind as usize];
    let endpoints = match answer.endpoints {
        Endpoints::Unchanged => "",
        Endpoints::SetHalt => ", set halt",
        Endpoints::ClearHalt => ", clear halt",
        Endpoints::Configure => ", configure",
    };
    format!("{kind}{bytes}{endpoints}")
}

#[test]
fn the_listing() {
    let mut firmware = Firmware::power_on();
    for line in include_str!("requests.txt").lines() {
        let Some((setup, wanted)) = line.strip_prefix("request ").and_then(|rest| rest.split_once(": ")) else {
            assert_eq!(firmware.configuration, u8::from(line == "configured"));
            continue;
        };
        let setup: Vec<u8> = setup.split(' ').map(|byte| u8::from_str_radix(byte, 16).unwrap()).collect();
        let mut reply = [0; 64];
        let answer = firmware_answer(&setup, firmware, &mut reply);
        assert_eq!(said(&answer, &reply), wanted, "{line}");
        firmware = answer.firmware;
        assert!(firmware.is_sound());
    }
}

/// Decisions 33, 44, 45 and 46.
#[test]
fn beyond_the_listing() {
    let halted = Firmware { configuration: 1, wakeup: 1, halted: 1 };
    let ask = |setup: [u8; 8], firmware: Firmware| firmware_answer(&setup, firmware, &mut [0; 64]);
    assert_eq!(ask([0, 9, 1, 0, 0, 0, 0, 0], halted).firmware, Firmware { halted: 0, ..halted });
    assert_eq!(ask([2, 1, 0, 0, 0x83, 1, 0, 0], halted).kind, 1);
    assert_eq!(ask([0x82, 0, 0, 0, 0x83, 1, 2, 0], halted).kind, 1);
    assert_eq!(ask([0x81, 6, 0, 0x22, 0, 0, 64, 0], Firmware::power_on()).count, 43);
    assert_eq!(ask([0x80, 0, 0, 0, 0, 0, 0, 0], halted).kind, 2);
    assert_eq!(ask([0x80, 8, 0, 0, 0, 0, 0, 1], halted).count, 1);
    assert_eq!(ask([0, 9, 1, 1, 0, 0, 0, 0], halted).kind, 1);
}

#[test]
fn refusals() {
    let wrong = Firmware { configuration: 0, wakeup: 0, halted: 1 };
    let right = Firmware::power_on();
    let refusal = |n: usize, firmware: Firmware, room: usize| {
        let answer = firmware_answer(&vec![0; n], firmware, &mut vec![0; room]);
        (answer.refusal, answer.found)
    };
    assert_eq!([refusal(7, wrong, 63), refusal(7, right, 63), refusal(7, right, 64)], [(1, 0), (4, 0), (8, 7)]);
    assert_eq!([refusal(9, right, 64), refusal(8, right, 64), refusal(264, right, 64)], [(8, 9), (0, 0), (8, 264)]);
}
