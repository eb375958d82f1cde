//! The functions of include/morlewen.h that this example calls, each behind a safe function.
//! A slice goes to C as a pointer and a length, so whatever the caller lends is described rightly.

mod c {
    extern "C" {
        #[allow(clippy::too_many_arguments)]
        pub fn morlewen_write(
            message_type: u16,
            version: u8,
            flags: u8,
            number: u32,
            time: u32,
            addressed: u8,
            ttl: u16,
            qos: u16,
            source: *const u8,
            source_length: usize,
            destination: *const u8,
            destination_length: usize,
            body: *const u8,
            body_length: usize,
            integrity: u32,
            buffer: *mut u8,
            room: usize,
        ) -> u64;
        pub fn morlewen_make(message: *const u8, length: usize, buffer: *mut u8, room: usize) -> u64;
        pub fn morlewen_check(file: *const u8, length: usize) -> u64;
    }
}

/// What a sender gives.
#[derive(Clone, Copy)]
pub struct Message<'a> {
    pub message_type: u16,
    pub version: u8,
    pub flags: u8,
    pub number: u32,
    pub time: u32,
    /// TTL, QoS, source and destination.
    pub addressing: Option<(u16, u16, &'a str, &'a str)>,
    pub body: &'a [u8],
    pub integrity: u32,
}

/// A refusal: its number, the number that reading gave, or 0, and the place in the message, or 0.
#[derive(Debug, PartialEq)]
pub struct Refused {
    pub number: u8,
    pub reading: u8,
    pub place: u32,
}

/// Done with the value slot and the count slot, or refused.
fn told(answer: u64) -> Result<(u32, u16), Refused> {
    match answer as u8 {
        0 => Ok(((answer >> 32) as u32, (answer >> 16) as u16)),
        number => Err(Refused { number, reading: (answer >> 8) as u8, place: (answer >> 32) as u32 }),
    }
}

pub fn write(m: &Message, buffer: &mut [u8]) -> Result<usize, Refused> {
    let (addressed, (ttl, qos, source, destination)) = match m.addressing {
        Some(ends) => (1, ends),
        None => (0, (0, 0, "", "")),
    };
    let answer = unsafe {
        c::morlewen_write(
            m.message_type,
            m.version,
            m.flags,
            m.number,
            m.time,
            addressed,
            ttl,
            qos,
            source.as_ptr(),
            source.len(),
            destination.as_ptr(),
            destination.len(),
            m.body.as_ptr(),
            m.body.len(),
            m.integrity,
            buffer.as_mut_ptr(),
            buffer.len(),
        )
    };
    told(answer).map(|(length, _)| length as usize)
}

pub fn make(message: &[u8], buffer: &mut [u8]) -> Result<(), Refused> {
    let answer = unsafe { c::morlewen_make(message.as_ptr(), message.len(), buffer.as_mut_ptr(), buffer.len()) };
    told(answer).map(|_| ())
}

/// How many records there are, all of them good.
pub fn check(file: &[u8]) -> Result<u16, Refused> {
    told(unsafe { c::morlewen_check(file.as_ptr(), file.len()) }).map(|(_, count)| count)
}
