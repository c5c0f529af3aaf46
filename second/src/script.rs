//! A list of calls as a console script (INTERFACES section 2).

use crate::bus::*;
use crate::chip::BUFFER;
use crate::fields::FIELDS;
use crate::runs::Call;

/// The console's room at first.
const ROOM: usize = 4200;

/// One line for each call, with `room N` where it changes. What the console cannot say stands in a comment.
pub fn script(calls: &[Call]) -> String {
    let mut room = ROOM;
    let mut text = String::new();
    for call in calls {
        let lent = lent(call, room);
        if lent != room {
            room = lent;
            text += &format!("room {room}\n");
        }
        text += &line(call);
        text += "\n";
    }
    text
}

/// The room for a call: its own where that is too short, else what is lent already, if it is enough.
fn lent(call: &Call, room: usize) -> usize {
    let needed = match call {
        Call::Transfer { bytes, .. } => bytes.len(),
        Call::Event { event, .. } if event.code != IN_EVENT => 0,
        Call::Event { .. } | Call::Step { .. } => BUFFER,
        Call::Poke { .. } => 0,
    };
    if call.room() < needed {
        call.room()
    } else if room < needed {
        ROOM.max(needed)
    } else {
        room
    }
}

fn line(call: &Call) -> String {
    match call {
        Call::Transfer { bytes, .. } => format!("spi{}", hex(bytes)),
        Call::Event { event, payload, .. } => event_line(event, payload),
        Call::Step { .. } => "step".to_string(),
        Call::Poke { field, value } => format!("# poke {} {value:02X}", field_name(*field)),
    }
}

fn field_name(field: usize) -> &'static str {
    let firmware = ["firmware configuration", "firmware wakeup", "firmware halted"];
    FIELDS.get(field).map_or_else(|| firmware[(field - FIELDS.len()).min(2)], |(name, _)| name)
}

fn event_line(event: &Event, payload: &[u8]) -> String {
    let plain = ["power", "stable", "vbus on", "vbus off"];
    let seen = ["reset start", "reset end", "suspend", "activity"];
    let (address, endpoint) = (event.address, event.endpoint);
    let damaged = if event.damaged != 0 { " damaged" } else { "" };
    let toggle = if event.data1 != 0 { "data1" } else { "data0" };
    let lost = if event.acknowledged != 0 { "" } else { " lost" };
    match event.code {
        POWER_ON..=VBUS_OFF => plain[event.code as usize - 1].to_string(),
        PINS => format!("pins {:X}", event.pins),
        RESET_START..=ACTIVITY => seen[(event.code - RESET_START) as usize].to_string(),
        SETUP_EVENT => format!("setup {address:X} {endpoint:X}{damaged}{}", hex(payload)),
        OUT_EVENT => format!("out {address:X} {endpoint:X} {toggle}{damaged}{}", hex(payload)),
        IN_EVENT => format!("in {address:X} {endpoint:X}{lost}{}", unsaid(event, payload)),
        code => format!("event {code:X}"),
    }
}

/// An IN ignores the damaged mark and a payload; the console has no words for them.
fn unsaid(event: &Event, payload: &[u8]) -> String {
    if event.damaged == 0 && payload.is_empty() {
        return String::new();
    }
    format!(" # damaged={} payload={}", event.damaged, payload.len())
}

fn hex(bytes: &[u8]) -> String {
    bytes.iter().map(|byte| format!(" {byte:02X}")).collect()
}
