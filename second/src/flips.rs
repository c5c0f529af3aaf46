//! Single rules turned round, to see whether a comparison notices: one at a time, in a call made by `with_flip`. Without one
//! the model is the documented one.

use std::cell::Cell;

macro_rules! flips {
    ($($group:ident { $($name:ident = $text:expr,)* })*) => {
        #[derive(Clone, Copy, Debug, PartialEq, Eq)]
        pub enum Flip { $($($name,)*)* }
        $(
            /// The group's flips, each with what the flipped model does.
            pub const $group: &[(Flip, &str)] = &[$((Flip::$name, $text),)*];
        )*
    };
}

flips! {
BOARD {
    ToggleWhenSent = "an IN toggle flips when sent, not when acknowledged",
    R11KeepsIn2bav = "R11: a 1 in IN2BAVIRQ does nothing",
    R11KeepsIn3bav = "R11: a 1 in IN3BAVIRQ does nothing",
    R11DropsEp2 = "R11: a 1 in IN2BAVIRQ drops a packet",
    R11DropsEp3 = "R11: a 1 in IN3BAVIRQ drops the packet",
    R7SetsIn2bav = "an arming that leaves room sets IN2BAVIRQ",
    R7ByBit = "R7 arms only while IN2BAVIRQ is 1",
    R8ByBit = "R8 arms only while IN3BAVIRQ is 1",
    SoundExactly = "a BAV bit that is 0 with room to spare is unsound",
    WrongToggleNak = "a wrong toggle is NAKed",
    WrongToggleStored = "a wrong toggle is stored",
    Stlep0inStatus = "STLEP0IN stalls an IN status stage",
    Stlep0outStatus = "STLEP0OUT stalls an OUT status stage",
    FnaddrWithoutAck = "FNADDR is taken without the ACK",
    FnaddrEightBits = "FNADDR takes eight bits of byte 2",
    StickAtR19 = "a burst sticks at R19",
    R5KeepsBit7 = "R5 keeps bit 7 of a count, so that 81 is too large",
    R7DropsBit7 = "R7 drops bit 7 of a count, so that 81 arms one byte",
    ArmKeepsPosition = "arming keeps the write position",
    R0WriteWhileArmed = "R0 is written while endpoint 0 is armed",
    R0WriteWhileOut0dav = "R0 is written while OUT0DAVIRQ is 1",
    R2WriteWhileFull = "R2 is written while two packets wait",
    R3WriteWhileArmed = "R3 is written while endpoint 3 is armed",
    FullOverwrites = "a 65th byte written overwrites the 64th",
    FullMoves = "a byte written to a full buffer moves the write position",
    ChipsMoves = "a byte written to the chip's buffer moves the position",
    BurstFromStart = "bursts of two bytes or more are stored from the start",
    BurstWhole = "a burst that does not fit whole is ignored",
    R5WhileOut0dav = "R5 arms while OUT0DAVIRQ is 1",
    SetupKeepsArmed = "a SETUP keeps endpoint 0 armed",
    SetupKeepsAckstat = "a SETUP keeps ACKSTAT",
    SetupKeepsOut0dav = "a SETUP keeps OUT0DAVIRQ",
    SetupToggleData0 = "a SETUP sets endpoint 0's toggles to DATA0",
    SetupStalled = "STLEP0OUT stalls a SETUP",
    SetupKeepsR4 = "a SETUP keeps R4's position",
    SetupClearsR5 = "a SETUP clears R5's count",
    StatusByteAfter = "reply byte 0 shows the bits after the transfer",
    FdupspiAfter = "FDUPSPI after the transfer decides on reply byte 0",
    AckstatLast = "bit 0 of the command acts after the data",
    AckstatBelow21 = "bit 0 of the command acts for R0 to R20 only",
    ChipresByLevel = "writing CHIPRES 1 over 1 resets again",
    ChipresKeepsOsc = "a chip reset keeps the oscillator flag",
    ChipresClearsR15 = "a chip reset clears CONNECT",
    BusResetClearsIe = "a bus reset clears IE",
    BusResetClearsEnables = "a bus reset clears URESIE and URESDNIE",
    BusResetClearsDone = "a bus reset clears URESDNIRQ",
    BusResetBuffers = "a bus reset clears the buffers",
    BusResetSudfifo = "a bus reset keeps SUDFIFO",
    BusResetSetup = "a SETUP stays current over a bus reset",
    BusResetTurn = "a bus reset keeps which buffer is first",
    ChipResetVbus = "a chip reset clears the VBUS level",
    StableInReset = "the oscillator gets stable while CHIPRES is 1",
    VbusWithoutChange = "VBUSIRQ is set without a change",
    VbgateIgnored = "VBGATE is ignored",
    DamagedIn = "a damaged mark makes an IN silent",
    StallBeforeDisabled = "a disabled endpoint stalls if its STLEP bit is set",
    ToggleBeforeRoom = "a wrong toggle is looked at before the room",
    FullStatusOut = "an OUT status with bytes is acknowledged",
    AckstatFirst = "ACKSTAT comes before STLSTAT",
    StatusEndsAckstat = "a status stage clears ACKSTAT",
    StatusEndsSetup = "an acknowledged status ends the SETUP",
    NoDataOutNak = "OUT with wLength 0 is NAKed",
    ReadByBit7 = "a transfer reads by bit 7 alone",
    NoInakForStatus = "a NAK to an IN status does not set EP0INAK",
    OutMovesWrite = "OUT data at endpoint 0 sets the write position to 0",
    OutClearsRest = "OUT data clears the rest of the buffer",
    ThirdOverwrites = "a third arming at endpoint 2 overwrites the first",
    ReleaseKeepsR1 = "a release keeps R1's read position",
    ReleaseAll = "a release drops both packets",
    StallDropsHalt = "the board writes 23 to R9 for a STALL",
    HaltDropsStalls = "a halt request drops the other stall bits of R9",
    ConfigureKeepsToggles = "SET_CONFIGURATION keeps the toggles",
    IndexLowByte = "the firmware looks at wIndex's low byte only",
    EdgePolarity = "edge mode takes POSINT the other way",
    ShortInRoom = "IN is not refused for a short buffer",
    SetupIsSix = "a SETUP payload that is not 8 bytes is refused with 6",
    AddressFirst = "a far address is looked at before a payload's length",
    FoundIsRoom = "the length found is that of the lent buffer",
    FoundByte = "the length found is cut to a byte",
}
CLASSROOM {
    KeyLow16 = "a key is compared in its low 16 bits",
    ClosedAnswers = "a pupil's call is not refused for a closed desk",
    OpenTwice = "an open desk is opened again",
    CloseTwice = "a closed desk is closed again",
    KeyInUse = "a key in use at another open desk is accepted",
    KeyOfClosed = "the key of a desk that is not open is in use",
    KeyZero = "key 0 is accepted on opening",
    CloseKeepsChip = "closing keeps the chip's record",
    CloseKeepsFirmware = "closing keeps the firmware's record",
    CloseKeepsKey = "closing keeps the key",
    CloseKeepsOpen = "closing leaves the desk open",
    NextDesk = "a pupil's call lands on the next desk",
    Desk16 = "desk 16 is desk 0",
    KeyBeforeState = "11 is looked at before 10",
    BadKeyBeforeState = "12 is looked at before 10",
    UnsoundBeforeKey = "1 is looked at before 11",
    UnsoundBeforeBadKey = "1 is looked at before 12",
    OpeningCloses = "opening closes the desk before",
    OpenUnsound = "opening does not look at the desk's records",
    CloseUnsound = "closing does not look at the desk's records",
    ClosedAsOpen = "a closed desk is sound with any sound records",
    ClosedKeySound = "a closed desk is sound with any key",
    OpenedNot0 = "a desk is open where its flag is not 0",
    EveryDeskSound = "refusal 1 looks at every desk",
    PowerOnCloses = "power-on closes the desk",
    ChipEvent = "an event at a desk leaves the firmware's record",
    RefusedPin = "a call that 9 to 11 refuse tells the desk's pin",
}
LESSONS {
    AnyVersion = "a lesson's version is not looked at",
    FileUnder64K = "a file of 65,536 bytes is over 64 KiB",
    FileOver64K = "a file of 65,537 bytes is not over 64 KiB",
    NoEntries = "a file of no entries is no lesson",
    EntriesByOffset = "the first entry's offset tells how many there are, not n",
    NamedFrom1 = "13 names entries from 1",
    CutNamesN = "13 names n where the table is cut",
    EndNamesEntry = "13 names the entry whose body passes the file's end",
    KindsFirst = "all kinds are looked at before any offset",
    KindUnchecked = "any kind but 1 is an event's",
    TicksInOrder = "ticks that go back are refused",
    OffsetLow16 = "an offset is compared in its low 16 bits",
    OffsetFromBodies = "an offset counts from the end of the table",
    GapAccepted = "bytes between two bodies are accepted",
    TrailingAccepted = "bytes after the last body are accepted",
    WriterEntriesWrap = "256 entries are written, with n 0",
    WriterUneven = "ticks and lengths beyond the kinds are left out",
    WriterBodiesLeft = "bytes of the bodies beyond the lengths are left out",
    WriterNamesEntry = "the writer's 13 names the first bad kind",
    WriterShortFirst = "4 is looked at before 13 in the writer",
    WriterRoomBelow = "the writer wants a byte more than the file has",
    WriterTickHighFirst = "a tick is written high byte first",
    WriterClearsRest = "the writer clears the rest of the lent buffer",
    InMarkInverted = "an IN's mark is 1 where the ACK is lost",
    MarksSwapped = "an OUT's mark 1 is DATA1 and 2 damaged",
    Data1Ignored = "an OUT's mark 2 is not taken",
    DamagedIgnored = "mark 1 of a SETUP or an OUT is not taken",
    AnyMark = "marks that are none are ignored",
    Mark2Anywhere = "mark 2 is ignored at SETUP and IN",
    LongBody = "bytes after an event's end are ignored",
    PinsByDefault = "input pins without their byte are 0",
    ShortTransaction = "a transaction's missing marks are 0",
    EmptyIsNoCommand = "an event's empty body plays as 2",
    EachFromPowerOn = "each entry is played from power-on",
    RefusedEnds = "a refused entry is the last that is played",
    LentBuffer = "each call is lent 64 bytes",
    PidLeftOut = "a reply's PID is written as 0",
    RefusalLeftOut = "an entry's refusal is written as 0",
    CountHighFirst = "a reply's count is written high byte first",
    FoundAsCount = "6 and 8 write the length found as their count",
    ShortFirst = "4 is looked at before 13 in a replay",
    RoomBelow = "a replay wants a byte more than it writes",
    PartWritten = "what fits is written though not all does",
    RefusedKeepsChip = "4 hands back the chip after the lesson",
    TickSaturates = "time that goes back is 0",
    TickBackwards = "time is counted from the later entry to the earlier",
}
}

thread_local! {
    static FLIP: Cell<Option<Flip>> = const { Cell::new(None) };
}

/// Does the model follow the flipped rule?
#[inline]
pub(crate) fn flipped(flip: Flip) -> bool {
    cfg!(feature = "flips") && FLIP.with(|now| now.get() == Some(flip))
}

/// Runs `call` with the given flip, and with none afterwards.
pub fn with_flip<T>(flip: Option<Flip>, call: impl FnOnce() -> T) -> T {
    FLIP.with(|now| now.set(flip));
    let result = call();
    FLIP.with(|now| now.set(None));
    result
}
