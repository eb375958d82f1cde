//! The shapes of the C interface that both sides of a comparison speak.
//! The archive gives them by itself; the peer is put into them by the mirror.

/// An answer word, taken apart. Of a refusal by reading, or of one that passes it on, the value is the place. Where a line
/// or a step is done, the slot of reading tells whether the record is retired.
#[derive(Clone, Copy, Debug, Default, PartialEq, Eq)]
pub struct Answer {
    pub number: u8,
    pub reading: u8,
    pub count: u16,
    pub value: u32,
}

impl Answer {
    /// The slot of reading by its other name: 1 of a retired record, 0 of a live one.
    pub fn retired(self) -> u8 {
        self.reading
    }
}

pub const FIELDS: usize = 16;
pub const QOS_PARTS: usize = 5;
pub const RULES: usize = 7;
pub const LINE: usize = 3;
pub const PART: usize = 2;
pub const FEED_ROOM: usize = 510;
pub const FEED_NUMBERS: usize = 2;
pub const COMMIDS: usize = 2;
pub const SENDER_PLACES: usize = 16;
pub const SENDER_NUMBERS: usize = 4;

/// What the value of a done `ascending` tells.
pub const BREAKS: u32 = 0;
pub const ASCENDS: u32 = 1;

/// Places in the fields of a message.
pub mod field {
    pub const TYPE: usize = 0;
    pub const VERSION: usize = 1;
    pub const FLAGS: usize = 2;
    pub const NUMBER: usize = 3;
    pub const TIME: usize = 4;
    pub const ADDRESSED: usize = 5;
    pub const TTL: usize = 6;
    pub const QOS: usize = 7;
    pub const SOURCE_PLACE: usize = 8;
    pub const SOURCE_SIZE: usize = 9;
    pub const DESTINATION_PLACE: usize = 10;
    pub const DESTINATION_SIZE: usize = 11;
    pub const BODY_PLACE: usize = 12;
    pub const BODY_SIZE: usize = 13;
    pub const KIND: usize = 14;
    pub const INTEGRITY: usize = 15;
}

/// What a writer is given, buffer apart.
#[derive(Clone, Debug, Default)]
pub struct Order {
    pub message_type: u16,
    pub version: u8,
    pub flags: u8,
    pub number: u32,
    pub time: u32,
    pub addressed: u8,
    pub ttl: u16,
    pub qos: u16,
    pub source: Vec<u8>,
    pub destination: Vec<u8>,
    pub body: Vec<u8>,
    pub integrity: u32,
}

/// What lateness is judged from.
#[derive(Clone, Copy, Debug)]
pub struct Timing {
    pub addressed: u8,
    pub ttl: u16,
    pub entry: u64,
    pub clock: u64,
}

pub const IN_TIME: u8 = 0;
pub const LATE: u8 = 1;
pub const NO_CLOCK: u8 = 2;

pub const REPEAT: u16 = 0;
pub const NEXT: u16 = 1;
pub const AHEAD: u16 = 2;
pub const BEHIND: u16 = 3;

pub const KEPT: u8 = 0;
pub const BROKEN: u8 = 1;
pub const NOT_JUDGED: u8 = 2;

/// Places in the numbers of a feed.
pub mod feed_number {
    pub const COUNT: usize = 0;
    pub const STANDING: usize = 1;
}

pub const FEED_INSIDE: u64 = 0;
pub const FEED_WHOLE: u64 = 255;

/// Places in the COMMIDs of a frame.
pub mod commid {
    pub const OWN: usize = 0;
    pub const ACKNOWLEDGED: usize = 1;
}

pub const DATA_MESSAGE: u16 = 1;
pub const ACKNOWLEDGMENT: u16 = 2;

/// Places in the numbers of a sender.
pub mod sender_number {
    pub const SET: usize = 0;
    pub const WAITING: usize = 1;
    pub const COMMID: usize = 2;
    pub const LEFT: usize = 3;
}

/// What an event of a sender did.
pub const SENT: u16 = 1;
pub const WAITS: u16 = 2;
pub const SETTLED: u16 = 3;
pub const SETTLED_NEXT: u16 = 4;
pub const AGAIN: u16 = 5;
pub const FAILED: u16 = 6;
pub const FAILED_NEXT: u16 = 7;
