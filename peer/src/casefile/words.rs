//! A line, read from left to right word by word.
//! Whatever does not fit is told with the column of its first character.

use super::complaint::{Complaint, What};

/// A word and the place of its first character. Behind the last word stands an empty one, at the line's end.
#[derive(Clone, Copy, Debug, PartialEq, Eq)]
pub struct Word<'a> {
    pub place: usize,
    pub text: &'a [u8],
}

impl Word<'_> {
    pub fn misfit(self, what: What) -> Complaint {
        Complaint::Expected { column: self.place + 1, what }
    }
}

pub struct Words<'a> {
    line: &'a [u8],
    place: usize,
}

impl<'a> Words<'a> {
    pub fn new(line: &'a [u8]) -> Words<'a> {
        Words { line, place: 0 }
    }

    fn peek(&self) -> Word<'a> {
        let rest = &self.line[self.place..];
        let spaces = rest.iter().take_while(|&&byte| byte == b' ').count();
        let size = rest[spaces..].iter().take_while(|&&byte| byte != b' ').count();
        Word { place: self.place + spaces, text: &rest[spaces..spaces + size] }
    }

    pub fn word(&mut self) -> Word<'a> {
        let word = self.peek();
        self.place = word.place + word.text.len();
        word
    }

    /// Takes the name and the colon that stand right behind the command, and gives the place behind the colon.
    pub fn name(&mut self) -> Result<usize, Complaint> {
        let rest = &self.line[self.place..];
        let missing = Complaint::Expected { column: self.place + 1, what: What::Name };
        let size = rest.iter().position(|&byte| byte == b':').ok_or(missing)?;
        if rest[..size].iter().all(|&byte| byte == b' ') {
            return Err(missing);
        }
        self.place += size + 1;
        Ok(self.place)
    }

    /// Takes this word if it comes next.
    pub fn takes(&mut self, word: &str) -> bool {
        let found = self.peek().text == word.as_bytes();
        if found {
            self.word();
        }
        found
    }

    pub fn the_word(&mut self, word: &'static str) -> Result<(), Complaint> {
        match self.takes(word) {
            true => Ok(()),
            false => Err(self.peek().misfit(What::Word(word))),
        }
    }

    pub fn number(&mut self, largest: u64) -> Result<u64, Complaint> {
        let word = self.word();
        within(word.text, largest).ok_or(word.misfit(What::Number(largest)))
    }

    /// A number behind the word that names it.
    pub fn named(&mut self, name: &'static str, largest: u64) -> Result<u64, Complaint> {
        self.the_word(name)?;
        self.number(largest)
    }

    /// The next word of several that go up to this last word, or to the end of the line where none must follow.
    pub fn before(&mut self, last: Option<&'static str>) -> Result<Option<Word<'a>>, Complaint> {
        let word = self.word();
        match last {
            Some(last) if word.text == last.as_bytes() => Ok(None),
            Some(last) if word.text.is_empty() => Err(word.misfit(What::Word(last))),
            None if word.text.is_empty() => Ok(None),
            _ => Ok(Some(word)),
        }
    }

    pub fn end(&mut self) -> Result<(), Complaint> {
        let word = self.word();
        match word.text {
            [] => Ok(()),
            _ => Err(word.misfit(What::End)),
        }
    }
}

/// The number that these digits write, however many they are; one past 128 bits stays the largest there is.
pub fn decimal(digits: &[u8]) -> Option<u128> {
    if digits.is_empty() {
        return None;
    }
    digits.iter().try_fold(0, |number: u128, digit| {
        let digit = char::from(*digit).to_digit(10)?;
        Some(number.saturating_mul(10).saturating_add(digit.into()))
    })
}

/// The number that these digits write, if it is no larger than this.
pub fn within(digits: &[u8], largest: u64) -> Option<u64> {
    u64::try_from(decimal(digits)?).ok().filter(|&number| number <= largest)
}

#[cfg(test)]
mod tests {
    use super::*;

    #[test]
    fn words_are_separated_by_spaces_and_by_nothing_else() {
        let mut words = Words::new(b"  a\tb  \tc,d ");
        assert_eq!(words.word(), Word { place: 2, text: b"a\tb" });
        assert_eq!(words.word(), Word { place: 7, text: b"\tc,d" });
        assert_eq!(words.word(), Word { place: 12, text: b"" });
        assert_eq!(words.word(), Word { place: 12, text: b"" });
    }

    #[test]
    fn digits_of_any_length_are_a_number() {
        assert_eq!(decimal(b"0"), Some(0));
        assert_eq!(decimal(&[[b'0'; 90].as_slice(), b"17"].concat()), Some(17));
        assert_eq!(decimal(&[b'9'; 90]), Some(u128::MAX));
        for not_digits in ["", "+1", "-1", "1_0", "0x10", "1.0", "\u{664}", "a", " 1"] {
            assert_eq!(decimal(not_digits.as_bytes()), None, "{not_digits}");
        }
    }

    #[test]
    fn a_largest_number_is_the_last_that_fits() {
        assert_eq!(within(b"255", 255), Some(255));
        assert_eq!(within(b"256", 255), None);
        assert_eq!(within(b"18446744073709551615", u64::MAX), Some(u64::MAX));
        assert_eq!(within(b"18446744073709551616", u64::MAX), None);
        assert_eq!(within(&[b'9'; 90], u64::MAX), None);
    }

    #[test]
    fn a_name_goes_up_to_the_first_colon() {
        let behind = |line: &[u8]| {
            let mut words = Words::new(line);
            words.word();
            words.name()
        };
        assert_eq!(behind(b"sum a b: c: 00"), Ok(8));
        assert_eq!(behind(b"sum a:00"), Ok(6));
        for line in ["sum", "sum ", "sum a", "sum :", "sum   : a: 00"] {
            assert_eq!(behind(line.as_bytes()), Err(Complaint::Expected { column: 4, what: What::Name }), "{line}");
        }
    }
}
