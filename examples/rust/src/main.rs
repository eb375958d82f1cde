//! sample FOLDER: writes the sample golden file and radio messages of data/ into a folder.
//! Every message is made by the library's `write`, and every record by its `make`.
mod morlewen;

use morlewen::{check, make, write, Message, Refused};
use std::path::Path;

const RECORD: usize = 512;
const ABSOLUTE: u8 = 0x01;
const CRC: u8 = 0x08;
const APPLICATION: u8 = 0x10;

/// The longest body that still fits a record beside these two ends.
const LONGEST: [u8; 469] = [0x55; 469];

/// The smallest message there is; the others say in what they differ.
const PLAIN: Message =
    Message { message_type: 6000, version: 1, flags: 0, number: 1, time: 0, addressing: None, body: b"", integrity: 0 };

fn references() -> [Message<'static>; 5] {
    let down = Some((120, 8, "rig.a", "loco.4711"));
    let up = Some((120, 8, "loco.4711", "rig.a"));
    let limit = b"speed limit 40 from km 117.2";
    let sent = Message { flags: ABSOLUTE | CRC, time: 1_791_000_000, addressing: down, ..PLAIN };
    [
        PLAIN,
        Message { message_type: 6010, number: 2, body: limit, ..sent },
        Message { message_type: 6011, number: 3, addressing: up, body: b"acknowledged", ..sent },
        Message {
            message_type: 6020,
            number: 4,
            flags: APPLICATION,
            body: b"brake test",
            integrity: 0x0BAD_CAFE,
            ..sent
        },
        Message { message_type: 6030, number: 5, body: &LONGEST, ..sent },
    ]
}

fn written(message: &Message) -> Result<Vec<u8>, Refused> {
    let mut buffer = [0; RECORD];
    let length = write(message, &mut buffer)?;
    Ok(buffer[..length].to_vec())
}

fn golden_file() -> Result<Vec<u8>, Refused> {
    let mut file = Vec::new();
    for reference in references() {
        let mut record = [0; RECORD];
        make(&written(&reference)?, &mut record)?;
        file.extend_from_slice(&record);
    }
    Ok(file)
}

/// A radio that answers rightly, one with another speed and an older time, and one whose message was damaged on its way.
fn radio_messages() -> Result<[(&'static str, Vec<u8>); 3], Refused> {
    let sent = &references()[1];
    let same = written(sent)?;
    let other = written(&Message { time: sent.time - 1, body: b"speed limit 90 from km 117.2", ..*sent })?;
    let mut damaged = same.clone();
    damaged[40] ^= 0x04;
    Ok([("radio-same", same), ("radio-other", other), ("radio-damaged", damaged)])
}

fn run(folder: &Path) -> Result<(), String> {
    let refused = |r: Refused| format!("the library refused with {r:?}");
    let golden = golden_file().map_err(refused)?;
    let records = check(&golden).map_err(refused)?;
    let save = |name: &str, bytes: &[u8]| std::fs::write(folder.join(name), bytes).map_err(|e| format!("{name}: {e}"));
    save("golden", &golden)?;
    for (name, bytes) in radio_messages().map_err(refused)? {
        save(name, &bytes)?;
    }
    println!("golden: {records} good records; radio-same, radio-other, radio-damaged");
    Ok(())
}

fn main() {
    let mut arguments = std::env::args_os().skip(1);
    let (Some(folder), None) = (arguments.next(), arguments.next()) else {
        eprintln!("usage: sample FOLDER");
        std::process::exit(2);
    };
    if let Err(why) = run(Path::new(&folder)) {
        eprintln!("sample: {why}");
        std::process::exit(1);
    }
}
