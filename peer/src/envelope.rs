//! Envelopes: reading, writing, the QoS field, lateness and sequence.
//! Each refusal stands in the order in which it is looked for.

use crate::crc::Sum;
use std::ops::Range;

/// Bytes before the variable header.
pub const COMMON: usize = 17;
/// Bytes of the integrity field.
pub const FIELD: usize = 4;
/// The shortest message: neither variable header nor body.
pub const SHORTEST: usize = COMMON + FIELD;
/// TTL and QoS, which stand before the two ends.
pub const SERVICE: usize = 4;
pub const SHORTEST_VARIABLE: usize = SERVICE + 2;
pub const LONGEST_VARIABLE: usize = SERVICE + 2 * LONGEST_END;
/// An end with its closing zero.
pub const LONGEST_END: usize = 64;
pub const LONGEST_BODY: usize = 0xFF_FFFF;

const HEADER_VERSION: u8 = 4;

/// Why a message is not read, and where. A place that the number does not tell by itself goes with it.
#[derive(Clone, Copy, Debug, PartialEq, Eq)]
pub enum Unread {
    TooShort { place: usize },
    HeaderVersion,
    Flags,
    VariableSize,
    Length,
    Addresses,
    Integrity { place: usize },
}

impl Unread {
    /// The refusal's number, and its place, counted from the message's first byte. Whoever is told one is told both.
    pub fn numbers(self) -> (u8, usize) {
        match self {
            Unread::TooShort { place } => (1, place),
            Unread::HeaderVersion => (2, 0),
            Unread::Flags => (3, 4),
            Unread::VariableSize => (4, 16),
            Unread::Length => (5, 5),
            Unread::Addresses => (6, 21),
            Unread::Integrity { place } => (7, place),
        }
    }

    /// The same behind the number of a refusal that passes it on.
    pub fn passed_on(self, by: u8) -> (u8, u8, usize) {
        let (number, place) = self.numbers();
        (by, number, place)
    }

    /// The refusal that has this number, if one has, of a message of so many bytes.
    pub fn of(number: u64, length: usize) -> Option<Unread> {
        match number {
            1 => Some(Unread::TooShort { place: length }),
            2 => Some(Unread::HeaderVersion),
            3 => Some(Unread::Flags),
            4 => Some(Unread::VariableSize),
            5 => Some(Unread::Length),
            6 => Some(Unread::Addresses),
            7 => Some(Unread::Integrity { place: length.saturating_sub(FIELD) }),
            _ => None,
        }
    }
}

/// Why a message is not written.
#[derive(Clone, Copy, Debug, PartialEq, Eq)]
pub enum Unwritten {
    Flags = 11,
    Addresses = 12,
    Body = 13,
    Integrity = 14,
    Room = 15,
}

#[derive(Clone, Copy, Debug, PartialEq, Eq)]
pub enum Kind {
    None = 0,
    Crc = 1,
    Application = 2,
}

impl Kind {
    /// The kind the flags set, unless they hold something unassigned: the kind is all that may stand above bit 2.
    pub fn of(flags: u8) -> Option<Kind> {
        match flags >> 3 {
            0 => Some(Kind::None),
            1 => Some(Kind::Crc),
            2 => Some(Kind::Application),
            _ => None,
        }
    }
}

#[derive(Clone, Copy, Debug, PartialEq, Eq)]
pub enum Integrity {
    None,
    Crc(u32),
    Application(u32),
}

/// A variable header; the ends are places in the message, without their closing zeros.
#[derive(Clone, Debug, PartialEq, Eq)]
pub struct Addressing {
    pub ttl: u16,
    pub qos: u16,
    pub source: Range<usize>,
    pub destination: Range<usize>,
}

/// What a message says.
#[derive(Clone, Debug, PartialEq, Eq)]
pub struct Fields {
    pub message_type: u16,
    pub message_version: u8,
    pub flags: u8,
    pub number: u32,
    pub time: u32,
    pub addressing: Option<Addressing>,
    pub body: Range<usize>,
    pub integrity: Integrity,
}

/// What a message's first 17 bytes settle.
pub struct Heading {
    kind: Kind,
    variable: usize,
    /// The length that the whole message is to have.
    pub announced: usize,
}

/// Judges the first 17 bytes by themselves.
pub fn heading(head: &[u8; COMMON]) -> Result<Heading, Unread> {
    if head[0] != HEADER_VERSION {
        return Err(Unread::HeaderVersion);
    }
    let kind = Kind::of(head[4]).ok_or(Unread::Flags)?;
    let variable = usize::from(head[16]);
    if variable != 0 && !(SHORTEST_VARIABLE..=LONGEST_VARIABLE).contains(&variable) {
        return Err(Unread::VariableSize);
    }
    let body_size = number(&head[5..8]) as usize;
    Ok(Heading { kind, variable, announced: COMMON + variable + body_size + FIELD })
}

/// Reads a message that fills the bytes lent.
pub fn read<S: Sum>(message: &[u8]) -> Result<Fields, Unread> {
    let head = match message.first_chunk() {
        Some(head) if message.len() >= SHORTEST => head,
        _ => return Err(Unread::TooShort { place: message.len() }),
    };
    let Heading { kind, variable, announced } = heading(head)?;
    if announced != message.len() {
        return Err(Unread::Length);
    }
    let addressing = match variable {
        0 => None,
        _ => Some(addressing(&message[..COMMON + variable]).ok_or(Unread::Addresses)?),
    };
    let integrity = integrity::<S>(kind, message).ok_or(Unread::Integrity { place: announced - FIELD })?;
    Ok(Fields {
        message_type: number(&message[1..3]) as u16,
        message_version: message[3],
        flags: message[4],
        number: number(&message[8..12]),
        time: number(&message[12..16]),
        addressing,
        body: COMMON + variable..message.len() - FIELD,
        integrity,
    })
}

/// A big-endian number of up to four bytes.
fn number(bytes: &[u8]) -> u32 {
    bytes.iter().fold(0, |number, &byte| number << 8 | u32::from(byte))
}

/// The variable header that ends the head, if its ends keep their rule.
fn addressing(head: &[u8]) -> Option<Addressing> {
    let first = COMMON + SERVICE;
    let source = first..closing_zero(head, first)?;
    let destination = source.end + 1..closing_zero(head, source.end + 1)?;
    if destination.end + 1 != head.len() || source.len() >= LONGEST_END || destination.len() >= LONGEST_END {
        return None;
    }
    let ttl = number(&head[COMMON..COMMON + 2]) as u16;
    let qos = number(&head[COMMON + 2..first]) as u16;
    Some(Addressing { ttl, qos, source, destination })
}

fn closing_zero(head: &[u8], from: usize) -> Option<usize> {
    (from..head.len()).find(|&place| head[place] == 0)
}

fn integrity<S: Sum>(kind: Kind, message: &[u8]) -> Option<Integrity> {
    let (summed, field) = message.split_at(message.len() - FIELD);
    let field = number(field);
    match kind {
        Kind::None => (field == 0).then_some(Integrity::None),
        Kind::Crc => (field == S::of(summed)).then_some(Integrity::Crc(field)),
        Kind::Application => Some(Integrity::Application(field)),
    }
}

/// What a new message is to say. The ends have no closing zeros; the flags alone set the integrity kind.
#[derive(Clone, Debug)]
pub struct Draft<'a> {
    pub message_type: u16,
    pub message_version: u8,
    pub flags: u8,
    pub number: u32,
    pub time: u32,
    pub service: Option<Service>,
    pub source: &'a [u8],
    pub destination: &'a [u8],
    pub body: &'a [u8],
    pub integrity: u32,
}

/// What addressing says beside its ends.
#[derive(Clone, Copy, Debug, PartialEq, Eq)]
pub struct Service {
    pub ttl: u16,
    pub qos: u16,
}

/// Writes a message to the front of the buffer and gives its length.
pub fn write<S: Sum>(draft: &Draft, buffer: &mut [u8]) -> Result<usize, Unwritten> {
    let kind = Kind::of(draft.flags).ok_or(Unwritten::Flags)?;
    if ![draft.source, draft.destination].iter().all(|end| end_is_good(end, draft.service.is_some())) {
        return Err(Unwritten::Addresses);
    }
    if draft.body.len() > LONGEST_BODY {
        return Err(Unwritten::Body);
    }
    if draft.integrity != 0 && kind != Kind::Application {
        return Err(Unwritten::Integrity);
    }
    let variable = draft.service.map_or(0, |_| SERVICE + draft.source.len() + 1 + draft.destination.len() + 1);
    let length = COMMON + variable + draft.body.len() + FIELD;
    let room = buffer.get_mut(..length).ok_or(Unwritten::Room)?;
    let mut message = head(draft, variable as u8);
    message.extend_from_slice(draft.body);
    let field = match kind {
        Kind::None => 0,
        Kind::Crc => S::of(&message),
        Kind::Application => draft.integrity,
    };
    message.extend(field.to_be_bytes());
    room.copy_from_slice(&message);
    Ok(length)
}

fn end_is_good(end: &[u8], addressed: bool) -> bool {
    if addressed {
        end.len() < LONGEST_END && !end.contains(&0)
    } else {
        end.is_empty()
    }
}

/// All that stands before the body.
fn head(draft: &Draft, variable: u8) -> Vec<u8> {
    let mut head = vec![HEADER_VERSION];
    head.extend(draft.message_type.to_be_bytes());
    head.extend([draft.message_version, draft.flags]);
    head.extend(&(draft.body.len() as u32).to_be_bytes()[1..]);
    head.extend(draft.number.to_be_bytes());
    head.extend(draft.time.to_be_bytes());
    head.push(variable);
    if let Some(service) = draft.service {
        head.extend(service.ttl.to_be_bytes());
        head.extend(service.qos.to_be_bytes());
        for end in [draft.source, draft.destination] {
            head.extend(end);
            head.push(0);
        }
    }
    head
}

/// The draft that a message's fields amount to.
pub fn draft_of<'a>(fields: &Fields, message: &'a [u8]) -> Draft<'a> {
    let (service, source, destination) = match &fields.addressing {
        None => (None, 0..0, 0..0),
        Some(a) => (Some(Service { ttl: a.ttl, qos: a.qos }), a.source.clone(), a.destination.clone()),
    };
    Draft {
        message_type: fields.message_type,
        message_version: fields.message_version,
        flags: fields.flags,
        number: fields.number,
        time: fields.time,
        service,
        source: &message[source],
        destination: &message[destination],
        body: &message[fields.body.clone()],
        integrity: match fields.integrity {
            Integrity::Application(number) => number,
            Integrity::None | Integrity::Crc(_) => 0,
        },
    }
}

/// The five numbers of a QoS field, highest bits first.
#[derive(Clone, Copy, Debug, PartialEq, Eq)]
pub struct Qos {
    pub service_request: u8,
    pub special_handling: u8,
    pub network_preference: u8,
    pub priority: u8,
    pub class: u8,
}

/// One of a QoS field's numbers does not fit its bits: refusal 41.
#[derive(Clone, Copy, Debug, PartialEq, Eq)]
pub struct DoesNotFit;

impl Qos {
    pub fn split(field: u16) -> Qos {
        let bits = |lowest: u32, width: u32| (field / 2_u16.pow(lowest) % 2_u16.pow(width)) as u8;
        Qos {
            service_request: bits(13, 3),
            special_handling: bits(9, 4),
            network_preference: bits(6, 3),
            priority: bits(3, 3),
            class: bits(0, 3),
        }
    }

    pub fn join(self) -> Result<u16, DoesNotFit> {
        let parts = [
            (self.service_request, 3),
            (self.special_handling, 4),
            (self.network_preference, 3),
            (self.priority, 3),
            (self.class, 3),
        ];
        parts.into_iter().try_fold(0, |field, (part, width)| {
            let values = 2_u16.pow(width);
            let part = u16::from(part);
            if part < values {
                Ok(field * values + part)
            } else {
                Err(DoesNotFit)
            }
        })
    }
}

#[derive(Clone, Copy, Debug, PartialEq, Eq)]
pub enum Lateness {
    InTime,
    Late,
    NoClock,
}

/// Whether a message is late at a clock, counted from its entry into the messaging infrastructure, both in seconds.
/// The TTL is absent where there is no variable header, and blank where it is 0.
pub fn lateness(ttl: Option<u16>, entry: u64, clock: u64) -> Lateness {
    match ttl {
        None | Some(0) => Lateness::NoClock,
        Some(ttl) if u128::from(clock) > u128::from(entry) + u128::from(ttl) => Lateness::Late,
        Some(_) => Lateness::InTime,
    }
}

#[derive(Clone, Copy, Debug, PartialEq, Eq)]
pub enum Sequence {
    Repeat,
    Next,
    Ahead(u32),
    Behind(u32),
}

/// From an old message number to a new one, the shorter way round; half way counts as behind.
pub fn distance(old: u32, new: u32) -> i64 {
    const ROUND: i64 = 1 << 32;
    let onward = (i64::from(new) - i64::from(old)).rem_euclid(ROUND);
    if onward < ROUND / 2 {
        onward
    } else {
        onward - ROUND
    }
}

pub fn sequence(old: u32, new: u32) -> Sequence {
    match distance(old, new) {
        0 => Sequence::Repeat,
        1 => Sequence::Next,
        ahead @ 2.. => Sequence::Ahead(ahead as u32),
        behind => Sequence::Behind(behind.unsigned_abs() as u32),
    }
}

#[cfg(test)]
mod tests {
    use super::*;
    use crate::cases;
    use crate::crc::Division;

    #[test]
    fn lettered_messages_are_judged_as_told() {
        for case in cases::messages() {
            let numbers = read::<Division>(&case.message).map_or_else(Unread::numbers, |_| (0, 0));
            assert_eq!(numbers, (case.answer, case.place), "case {}", case.name);
        }
    }

    #[test]
    fn an_accepted_message_is_written_again_as_it_was() {
        for case in cases::messages() {
            let Ok(fields) = read::<Division>(&case.message) else { continue };
            let mut buffer = vec![0xAA; case.message.len() + 1];
            let length = write::<Division>(&draft_of(&fields, &case.message), &mut buffer);
            assert_eq!(length, Ok(case.message.len()), "case {}", case.name);
            assert_eq!(buffer[..case.message.len()], case.message, "case {}", case.name);
            assert_eq!(buffer.last(), Some(&0xAA), "case {}", case.name);
        }
    }

    #[test]
    fn a_source_ends_at_its_own_zero() {
        let [left, right] = cases::one_letter_ends();
        let left = read::<Division>(&left).unwrap().addressing.unwrap();
        let right = read::<Division>(&right).unwrap().addressing.unwrap();
        assert_eq!((left.source, left.destination), (21..22, 23..23));
        assert_eq!((right.source, right.destination), (21..21, 22..23));
    }

    #[test]
    fn numbers_run_round() {
        assert_eq!(distance(u32::MAX, 0), 1);
        assert_eq!(sequence(0, 1 << 31), Sequence::Behind(1 << 31));
    }

    #[test]
    fn qos_fields_split_and_join() {
        let priority = Qos { service_request: 0, special_handling: 0, network_preference: 0, priority: 1, class: 0 };
        assert_eq!(Qos::split(8), priority);
        assert!((0..=u16::MAX).all(|field| Qos::split(field).join() == Ok(field)));
        assert_eq!(Qos { class: 8, ..priority }.join(), Err(DoesNotFit));
    }

    /// Late is past entry + TTL, so the very second is in time and the next one late.
    #[test]
    fn a_message_is_late_from_the_second_after_its_last() {
        let past_32_bits = (1 << 32) + 65_535;
        for (ttl, entry, last) in
            [(1, 0, 1), (1, 5, 6), (65_535, 0, 65_535), (65_535, 5, 65_540), (65_535, 1 << 32, past_32_bits)]
        {
            assert_eq!(lateness(Some(ttl), entry, entry), Lateness::InTime, "TTL {ttl}, entry {entry}");
            assert_eq!(lateness(Some(ttl), entry, last), Lateness::InTime, "TTL {ttl}, entry {entry}");
            assert_eq!(lateness(Some(ttl), entry, last + 1), Lateness::Late, "TTL {ttl}, entry {entry}");
        }
    }

    /// A clock before the entry is past nothing, however large the difference would be if it ran round.
    #[test]
    fn a_clock_before_the_entry_is_in_time() {
        for (entry, clock) in
            [(1, 0), (5, 4), (1 << 32, 0), (1 << 32, (1 << 32) - 1), (u64::MAX, 0), (u64::MAX, 1 << 63)]
        {
            for ttl in [1, 65_535] {
                assert_eq!(lateness(Some(ttl), entry, clock), Lateness::InTime, "TTL {ttl}, entry {entry}");
            }
        }
    }

    /// The sum is a whole number: no clock is past the largest entry and a TTL.
    #[test]
    fn a_late_sum_does_not_run_round_at_64_bits() {
        for clock in [0, 1, 65_534, 65_535, 65_536, u64::MAX - 1, u64::MAX] {
            assert_eq!(lateness(Some(1), u64::MAX, clock), Lateness::InTime, "clock {clock}");
            assert_eq!(lateness(Some(65_535), u64::MAX, clock), Lateness::InTime, "clock {clock}");
        }
        // The largest clock is past a sum just below it, and not past one that is the same.
        for ttl in [1, 65_535] {
            let entry = u64::MAX - u64::from(ttl);
            assert_eq!(lateness(Some(ttl), entry - 1, u64::MAX), Lateness::Late, "TTL {ttl}");
            assert_eq!(lateness(Some(ttl), entry, u64::MAX), Lateness::InTime, "TTL {ttl}");
        }
    }

    /// Neither the sum nor a number in it, nor what lies between entry and clock, is cut to 32 bits.
    #[test]
    fn lateness_has_no_edge_at_32_bits() {
        let last = u64::from(u32::MAX);
        assert_eq!(lateness(Some(1), last, last), Lateness::InTime);
        assert_eq!(lateness(Some(1), last, last + 1), Lateness::InTime);
        assert_eq!(lateness(Some(1), last, last + 2), Lateness::Late);
        assert_eq!(lateness(Some(1), 0, 1 << 32), Lateness::Late);
        assert_eq!(lateness(Some(65_535), 5, 5 + (1 << 32)), Lateness::Late);
        assert_eq!(lateness(Some(65_535), 0, u64::MAX), Lateness::Late);
    }

    /// A TTL of 0 is a blank one, and without a variable header there is none: nothing to count from any entry.
    #[test]
    fn a_ttl_of_0_or_an_absent_one_is_no_clock() {
        for (entry, clock) in [(0, 0), (5, 4), (5, 5), (5, 6), (0, u64::MAX), (u64::MAX, 0), (u64::MAX, u64::MAX)] {
            assert_eq!(lateness(Some(0), entry, clock), Lateness::NoClock, "entry {entry}, clock {clock}");
            assert_eq!(lateness(None, entry, clock), Lateness::NoClock, "entry {entry}, clock {clock}");
        }
    }
}
