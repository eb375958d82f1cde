//! What is asked of both sides about a feed: pieces, ends and restarts, and after each the message that was found.
//! Each side has the feed in storage of its own, all of which is compared after each call.

use super::lent::{array, hex, Lent};
use super::places;
use super::run::{Run, Shown};
use super::tally::{Operation, Outcome};
use crate::interface::{feed_number, Answer, FEED_NUMBERS, FEED_ROOM, FEED_WHOLE, FIELDS};
use crate::{mirror, ours};

#[derive(Clone, PartialEq)]
pub struct Stored {
    kept: Lent<u8>,
    numbers: Lent<u64>,
}

impl Stored {
    fn parts(&mut self) -> (&mut [u8; FEED_ROOM], &mut [u64; FEED_NUMBERS]) {
        (array(self.kept.part()), array(self.numbers.part()))
    }

    /// The same feed, with the one number for whole that a call leaves.
    fn told_whole(mut self) -> Stored {
        let standing = &mut self.parts().1[feed_number::STANDING];
        if !matches!(*standing, 0..=7 | 51 | 52) {
            *standing = FEED_WHOLE;
        }
        self
    }

    fn shown(&self) -> String {
        format!("a feed of numbers {:?}, kept {}", self.numbers.content(), hex(self.kept.content()))
    }

    fn first_difference(&self, other: &Stored) -> Option<String> {
        self.kept.first_difference(&other.kept).or_else(|| self.numbers.first_difference(&other.numbers))
    }
}

/// One feed, on our side and on the peer's.
pub struct Feeds {
    ours: Stored,
    peer: Stored,
}

impl Feeds {
    pub fn of(kept: &[u8; FEED_ROOM], numbers: [u64; FEED_NUMBERS]) -> Feeds {
        let mut ours = Stored { kept: Lent::new(FEED_ROOM), numbers: Lent::new(FEED_NUMBERS) };
        (*ours.parts().0, *ours.parts().1) = (*kept, numbers);
        let peer = ours.clone();
        Feeds { ours, peer }
    }

    pub fn new() -> Feeds {
        Feeds::of(&[0; FEED_ROOM], [0; FEED_NUMBERS])
    }

    pub fn take(&mut self, run: &mut Run, piece: &[u8]) -> Answer {
        let before = self.ours.clone();
        let same = before.clone().told_whole();
        let shown = || format!("piece {}, {}", hex(piece), before.shown());
        let ((kept, numbers), (peer_kept, peer_numbers)) = (self.ours.parts(), self.peer.parts());
        let (answer, fields) = run.beside(
            Operation::FeedTake,
            FIELDS,
            |fields| ours::feed_take(kept, numbers, piece, array(fields)),
            |fields| mirror::feed_take(peer_kept, peer_numbers, piece, array(fields)),
            &shown,
        );
        self.same_storage(run, Operation::FeedTake, &shown);
        let used = usize::from(answer.count);
        run.holds("no more is used than there is", used <= piece.len(), &shown);
        run.holds("where no byte is used nothing changes", used > 0 || self.ours == same, &shown);
        run.holds("bytes are used or refused", used > 0 || piece.is_empty() || answer.number != 0, &shown);
        if (answer.number, answer.value) == (0, 0) {
            run.holds("where nothing is found no field is written", fields == Lent::new(FIELDS), &shown);
        }
        self.placed(run, answer, &shown);
        let found = self.message(run, &shown);
        if answer.number == 0 && answer.value != 0 {
            let mut read = [0; FIELDS];
            let reading = found.as_deref().map(|message| ours::read(message, &mut read));
            let same = reading == Some(Answer::default()) && fields.content() == read;
            run.holds("what is found is a message, with the fields that reading gives", same, &shown);
        }
        answer
    }

    /// A refusal has the place of its number and of how many bytes are in, whether it is new or stands.
    fn placed(&self, run: &Run, answer: Answer, shown: Shown) {
        let count = self.ours.numbers.content()[feed_number::COUNT].min(FEED_ROOM as u64) as usize;
        let placed = answer.number == 0 || answer.value as usize == places::of(answer.number, count);
        run.holds("a refusal has the place that its number and the count tell", placed, shown);
    }

    /// The message that is whole, if one is.
    fn message(&mut self, run: &mut Run, shown: Shown) -> Option<Vec<u8>> {
        let ((kept, numbers), (peer_kept, peer_numbers)) = (self.ours.parts(), self.peer.parts());
        let answer = run.plain(
            Operation::FeedMessage,
            || ours::feed_message(kept, numbers),
            || mirror::feed_message(peer_kept, peer_numbers),
            shown,
        );
        self.same_storage(run, Operation::FeedMessage, shown);
        self.ours.kept.content().get(..answer.value as usize).filter(|message| !message.is_empty()).map(<[u8]>::to_vec)
    }

    pub fn end(&mut self, run: &mut Run) -> Answer {
        let before = self.ours.clone();
        let shown = || format!("the end of {}", before.shown());
        let (numbers, peer_numbers) = (self.ours.parts().1, self.peer.parts().1);
        let answer =
            run.plain(Operation::FeedEnd, || ours::feed_end(numbers), || mirror::feed_end(peer_numbers), &shown);
        self.same_storage(run, Operation::FeedEnd, &shown);
        let standing = self.ours.numbers.content()[feed_number::STANDING];
        let stands = if answer.number == 0 {
            self.ours == before.clone().told_whole()
        } else {
            standing == u64::from(answer.number)
        };
        run.holds("an end is refused and stands so, or changes nothing", stands, &shown);
        self.placed(run, answer, &shown);
        self.message(run, &shown);
        answer
    }

    pub fn restart(&mut self, run: &mut Run) {
        let before = self.ours.clone();
        let shown = || format!("a restart of {}", before.shown());
        let ((kept, numbers), (peer_kept, peer_numbers)) = (self.ours.parts(), self.peer.parts());
        ours::feed_restart(kept, numbers);
        mirror::feed_restart(peer_kept, peer_numbers);
        run.tally.count(Operation::FeedRestart, Outcome::Done("done"));
        self.same_storage(run, Operation::FeedRestart, &shown);
        run.holds("a restart makes a new feed", self.ours == Feeds::new().ours, &shown);
        self.message(run, &shown);
    }

    fn same_storage(&self, run: &Run, operation: Operation, shown: Shown) {
        if let Some(difference) = self.ours.first_difference(&self.peer) {
            run.disagree(&format!("{operation:?}, the feed afterwards"), &difference, shown);
        }
    }
}

/// All that comes of a stream.
#[derive(PartialEq)]
pub struct Came {
    messages: Vec<Vec<u8>>,
    /// The answer that refused, as the end repeats it; none of its slots is set where none did.
    refusal: Answer,
    used: usize,
    feed: Stored,
}

/// Everything about one stream in pieces of these sizes: what comes of it, its end, what comes after that, and a restart.
pub fn stream(run: &mut Run, stream: &[u8], cutting: &[usize]) -> Came {
    let lent = stream.to_vec();
    let mut feeds = Feeds::new();
    let came = pieces(run, &mut feeds, stream, cutting);
    let ended = feeds.end(run);
    let shown = || format!("cut {cutting:?}, stream {}", hex(stream));
    let repeated = came.refusal == Answer::default() || ended == came.refusal;
    run.holds("a refusal is repeated by the end, with its place", repeated, &shown);
    let again = (feeds.end(run), feeds.take(run, &[]), feeds.take(run, stream));
    if ended.number != 0 {
        run.holds("an end that is refused is repeated", again == (ended, ended, ended), &shown);
    }
    feeds.restart(run);
    run.holds("a stream lent to be read stays as it was", lent == stream, &shown);
    came
}

/// The pieces one after the other, each until it is used up, as far as the first refusal.
fn pieces(run: &mut Run, feeds: &mut Feeds, stream: &[u8], cutting: &[usize]) -> Came {
    let (mut messages, mut used, mut end) = (Vec::new(), 0, 0);
    for &size in cutting {
        end += size;
        loop {
            let answer = feeds.take(run, &stream[used..end]);
            used += usize::from(answer.count);
            if answer.number == 0 && answer.value != 0 {
                messages.push(feeds.ours.kept.content()[..answer.value as usize].to_vec());
            }
            if answer.number != 0 {
                return Came { messages, refusal: Answer { count: 0, ..answer }, used, feed: feeds.ours.clone() };
            }
            if used == end {
                break;
            }
        }
    }
    Came { messages, refusal: Answer::default(), used, feed: feeds.ours.clone() }
}

/// The stream in both cuttings; the same must come of it.
pub fn cut_twice(run: &mut Run, bytes: &[u8], one: &[usize], other: &[usize]) {
    let same = stream(run, bytes, one) == stream(run, bytes, other);
    run.holds("cutting elsewhere gives the same", same, &|| format!("cut {one:?} and {other:?}, {}", hex(bytes)));
}
