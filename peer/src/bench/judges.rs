//! A good message by the judge, and by our reading beside it.

use super::{repeated, Row, Side, Work};
use crate::interface::{FIELDS, RULES};
use crate::ours;
use peer::judge;
use std::hint::black_box;

pub fn judging<'a>(kind: &str, message: &'a [u8]) -> Row<'a> {
    let judged_by_ours = || {
        let mut verdicts = [0; RULES];
        let answer = ours::judge(black_box(message), &mut verdicts);
        (answer, verdicts)
    };
    let judged_by_the_peer = || {
        let verdicts = judge::judge(black_box(message));
        (judge::lowest_broken(&verdicts), verdicts)
    };
    let read_by_ours = || {
        let mut fields = [0; FIELDS];
        let answer = ours::read(black_box(message), &mut fields);
        (answer, fields)
    };
    assert_eq!(judged_by_ours().0.reading, 0, "our judge finds a broken rule");
    assert_eq!(judged_by_the_peer().0, None, "the peer's judge finds a broken rule");
    assert_eq!(read_by_ours().0.number, 0, "the message is refused");
    let sides: Vec<(Side, Work)> = vec![
        (Side::Ours, repeated(judged_by_ours)),
        (Side::Division, repeated(judged_by_the_peer)),
        (Side::OurReading, repeated(read_by_ours)),
    ];
    Row { name: format!("judging {} bytes, {kind}", message.len()), sides }
}
