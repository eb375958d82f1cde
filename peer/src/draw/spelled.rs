//! Bytes spelled as words of a file of cases, in forms drawn at random.

use crate::casefile::quotable;
use crate::random::Random;

/// Words of BYTES that give these bytes; none where there are none.
pub fn spelled(random: &mut Random, bytes: &[u8]) -> String {
    let (mut words, mut rest) = (Vec::new(), bytes);
    while !rest.is_empty() {
        let (word, taken) = word(random, rest);
        words.push(word);
        rest = &rest[taken..];
    }
    words.join(" ")
}

/// A word for the first of these bytes, and how many it takes.
fn word(random: &mut Random, bytes: &[u8]) -> (String, usize) {
    let run = bytes.iter().take_while(|byte| **byte == bytes[0]).count();
    let letters = bytes.iter().take_while(|byte| quotable(&[**byte])).count();
    let pattern = bytes.iter().zip((0..251).cycle()).take_while(|(byte, wanted)| *byte == wanted).count();
    match random.up_to(3) {
        0 | 1 if run > 2 => (format!("{:02x}*{run}", bytes[0]), run),
        0 | 2 if letters > 1 => (format!("'{}'", String::from_utf8_lossy(&bytes[..letters])), letters),
        1 | 2 if pattern > 2 => (format!("pattern*{pattern}"), pattern),
        _ => {
            let taken = random.between(1, bytes.len().min(24));
            (hex(random, &bytes[..taken]), taken)
        }
    }
}

/// Hex digits, now and then in capitals.
fn hex(random: &mut Random, bytes: &[u8]) -> String {
    let digits: String = bytes.iter().map(|byte| format!("{byte:02x}")).collect();
    if random.once_in(8) {
        digits.to_uppercase()
    } else {
        digits
    }
}

#[cfg(test)]
mod tests {
    use super::*;
    use crate::casefile::run;
    use crate::crc::{Sum, Table};

    #[test]
    fn the_words_give_the_bytes() {
        let mut random = Random::new(1);
        let mut met = [false; 3];
        for round in 0..300 {
            let drawn = random.bytes(round % 50);
            let bytes = [drawn.as_slice(), &[7; 5], b"up.b:itc", &[0, 1, 2, 3]].concat();
            let words = spelled(&mut random, &bytes);
            let told = format!("sum a: {} {:08x}\n", bytes.len(), Table::of(&bytes));
            assert_eq!(String::from_utf8(run(format!("sum a: {words}").as_bytes())), Ok(told), "{words}");
            let forms = ["07*5", "'up.b:itc'", "pattern*4"];
            met = [0, 1, 2].map(|form| met[form] || words.contains(forms[form]));
        }
        assert_eq!(met, [true; 3]);
        assert_eq!(spelled(&mut random, &[]), "");
    }
}
