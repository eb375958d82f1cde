//! The arguments that are several words: BYTES and LIST.
//! A count is held to what there is room for before anything of that length is made.

use super::complaint::{Complaint, What};
use super::words::{decimal, within, Words};

/// The most bytes that BYTES may have where nothing less is said.
pub const MOST_BYTES: usize = 300_000;
pub const MOST_NUMBERS: usize = 600;

/// One word of BYTES.
enum Piece {
    Given(Vec<u8>),
    Run(u8, u128),
    Pattern(u128),
}

impl Piece {
    fn of(word: &[u8]) -> Option<Piece> {
        if let Some(count) = word.strip_prefix(b"pattern*") {
            return decimal(count).map(Piece::Pattern);
        }
        match word {
            [b'\'', quoted @ .., b'\''] => quotable(quoted).then(|| Piece::Given(quoted.to_vec())),
            [high, low, b'*', count @ ..] => Some(Piece::Run(byte(&[*high, *low])?, decimal(count)?)),
            _ => hex(word).map(Piece::Given),
        }
    }

    fn size(&self) -> u128 {
        match self {
            Piece::Given(bytes) => bytes.len() as u128,
            Piece::Run(_, count) | Piece::Pattern(count) => *count,
        }
    }

    /// The bytes themselves, of a piece whose size is known to be small.
    fn bytes(self) -> Vec<u8> {
        match self {
            Piece::Given(bytes) => bytes,
            Piece::Run(byte, count) => vec![byte; count as usize],
            Piece::Pattern(count) => (0..count).map(|place| (place % 251) as u8).collect(),
        }
    }
}

/// Printable ASCII with no space and no quote.
pub fn quotable(text: &[u8]) -> bool {
    text.iter().all(|byte| byte.is_ascii_graphic() && *byte != b'\'')
}

fn hex(digits: &[u8]) -> Option<Vec<u8>> {
    digits.chunks(2).map(byte).collect()
}

fn byte(digits: &[u8]) -> Option<u8> {
    let [high, low] = digits else { return None };
    let digit = |digit: &u8| char::from(*digit).to_digit(16);
    Some((digit(high)? << 4 | digit(low)?) as u8)
}

/// BYTES, of which there may be so many, up to this last word or to the end of the line.
pub fn bytes(words: &mut Words, most: usize, last: Option<&'static str>) -> Result<Vec<u8>, Complaint> {
    let mut bytes = Vec::new();
    while let Some(word) = words.before(last)? {
        let piece = Piece::of(word.text).ok_or(word.misfit(What::Bytes))?;
        if piece.size() > (most - bytes.len()) as u128 {
            return Err(word.misfit(What::MostBytes(most)));
        }
        bytes.extend(piece.bytes());
    }
    Ok(bytes)
}

/// LIST, up to this last word.
pub fn list(words: &mut Words, last: &'static str) -> Result<Vec<u32>, Complaint> {
    let mut list = Vec::new();
    while let Some(word) = words.before(Some(last))? {
        let misfit = word.misfit(What::Number(u32::MAX.into()));
        let (number, count) = repeated(word.text).ok_or(misfit)?;
        if count > (MOST_NUMBERS - list.len()) as u128 {
            return Err(word.misfit(What::MostNumbers(MOST_NUMBERS)));
        }
        list.extend(vec![number; count as usize]);
    }
    Ok(list)
}

/// `N` or `N*COUNT`.
fn repeated(word: &[u8]) -> Option<(u32, u128)> {
    let star = word.iter().position(|&byte| byte == b'*');
    let (digits, count) = match star {
        Some(star) => (&word[..star], decimal(&word[star + 1..])?),
        None => (word, 1),
    };
    Some((within(digits, u32::MAX.into())? as u32, count))
}

#[cfg(test)]
mod tests {
    use super::*;

    fn read(line: &str) -> Result<Vec<u8>, Complaint> {
        bytes(&mut Words::new(line.as_bytes()), 20, None)
    }

    fn misfit(column: usize, what: What) -> Complaint {
        Complaint::Expected { column, what }
    }

    #[test]
    fn each_form_gives_its_bytes() {
        let forms: [(&str, &[u8]); 9] = [
            ("", &[]),
            ("041770", &[4, 0x17, 0x70]),
            ("aB Cd", &[0xAB, 0xCD]),
            ("41*3", b"AAA"),
            ("fF*002", &[255, 255]),
            ("41*0 ''", &[]),
            ("'!~' 'a:b*2'", b"!~a:b*2"),
            ("pattern*3 pattern*2", &[0, 1, 2, 0, 1]),
            ("  01   02  ", &[1, 2]),
        ];
        for (line, given) in forms {
            assert_eq!(read(line).as_deref(), Ok(given), "{line}");
        }
    }

    #[test]
    fn a_pattern_begins_again_after_251() {
        let bytes = bytes(&mut Words::new(b"pattern*506"), 506, None).unwrap();
        assert_eq!((bytes[250], bytes[251], bytes[502], bytes[505]), (250, 0, 0, 3));
    }

    #[test]
    fn a_word_of_none_of_the_forms_is_told() {
        let words =
            ["0", "041", "0g", "4*3", "0417*2", "41*", "41*x", "41*-1", "*3", "pattern", "pattern*", "Pattern*3"];
        for word in words.into_iter().chain(["'", "'a", "a'", "'a'b'", "'a\tb'", "'\u{e9}'", "00\t", "00,"]) {
            assert_eq!(read(&format!("00 {word} zz")), Err(misfit(4, What::Bytes)), "{word}");
        }
    }

    #[test]
    fn the_word_that_makes_bytes_too_long_is_told() {
        assert_eq!(read("00*20 '' 41*0").map(|bytes| bytes.len()), Ok(20));
        for word in ["00", "'a'", "00*1", "pattern*1", "00*18446744073709551616"] {
            assert_eq!(read(&format!("00*20 {word} zz")), Err(misfit(7, What::MostBytes(20))), "{word}");
        }
        let endless = format!("00*1{}", "0".repeat(90));
        assert_eq!(read(&endless), Err(misfit(1, What::MostBytes(20))));
    }

    #[test]
    fn bytes_go_up_to_the_last_word() {
        let mut words = Words::new(b"01 02 body 03");
        assert_eq!(bytes(&mut words, 20, Some("body")), Ok(vec![1, 2]));
        assert_eq!(bytes(&mut words, 20, Some("body")), Err(misfit(14, What::Word("body"))));
    }

    #[test]
    fn a_list_has_numbers_one_by_one_or_many_times() {
        let read = |line: &str| list(&mut Words::new(line.as_bytes()), "with");
        assert_eq!(read("with"), Ok(vec![]));
        assert_eq!(read("7 4294967295*2 9*0 with"), Ok(vec![7, u32::MAX, u32::MAX]));
        assert_eq!(read("9*600 1*0 with").map(|list| list.len()), Ok(600));
        assert_eq!(read("9*600 1 with"), Err(misfit(7, What::MostNumbers(600))));
        assert_eq!(read("9 9*600 with"), Err(misfit(3, What::MostNumbers(600))));
        assert_eq!(read("9 7"), Err(misfit(4, What::Word("with"))));
        for word in ["4294967296", "x", "5*", "*5", "5*x", "5*2*2", "0x1", "''"] {
            let expected = Err(misfit(3, What::Number(4_294_967_295)));
            assert_eq!(read(&format!("1 {word} with")), expected, "{word}");
        }
    }
}
