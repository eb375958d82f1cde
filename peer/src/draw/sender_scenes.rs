//! Scenes about the sender that is worked on: messages that wait, go out, are sent again and end.

use crate::random::Random;
use crate::sender::{MOST_RESENDS, MOST_WAITING};

type Scene = Vec<String>;

/// COMMIDs of which no two are alike.
fn commids<const COUNT: usize>(random: &mut Random) -> [u32; COUNT] {
    let mut commids = [0; COUNT];
    for place in 0..COUNT {
        commids[place] = random.number();
        while commids[..place].contains(&commids[place]) {
            commids[place] = random.number();
        }
    }
    commids
}

/// A NAK or a time-out.
fn turned_away(random: &mut Random, name: &str, commid: u32) -> String {
    format!("{} {name}: commid {commid}", random.pick(&["nak", "timeout"]))
}

/// Three messages with one resend each: the first fails and comes again, the others are settled.
pub fn three_messages(random: &mut Random) -> Scene {
    let [first, second, third, other] = commids(random);
    let above = random.pick(&[11, 12, 255, 256, 300, 1 << 32, u64::MAX]);
    let answer = random.pick(&["ack", "nak", "timeout"]);
    vec![
        "start with one resend: resends 1".to_string(),
        format!("submit at once: commid {first}"),
        format!("submit the second: commid {second}"),
        format!("start with too many resends: resends {above}"),
        format!("submit the third: commid {third}"),
        format!("submit one that is known: commid {}", random.pick(&[first, second, third])),
        format!("{answer} what is not in flight: commid {}", random.pick(&[second, third, other])),
        turned_away(random, "the first once", first),
        turned_away(random, "the first twice", first),
        format!("submit the first again: commid {first}"),
        format!("ack the second: commid {second}"),
        turned_away(random, "the third once", third),
        format!("ack the third: commid {third}"),
        turned_away(random, "the first again, once", first),
        turned_away(random, "the first again, twice", first),
        format!("submit a settled one: commid {second}"),
        format!("ack the last: commid {second}"),
    ]
}

/// As many messages as there can be, one more that is refused, and one that finds a place.
pub fn full_sender(random: &mut Random) -> Scene {
    let [one_more, all @ ..] = commids::<{ MOST_WAITING + 2 }>(random);
    let known = random.pick(&all);
    let mut scene = vec![format!("start before many: resends {}", random.up_to(MOST_RESENDS.into()))];
    scene.extend(all.iter().map(|commid| format!("submit one of 17: commid {commid}")));
    scene.push(format!("submit to a full sender: commid {}", random.pick(&[known, one_more])));
    scene.push(format!("ack the first of 17: commid {}", all[0]));
    scene.push(format!("submit behind it: commid {}", random.pick(&[all[0], one_more])));
    scene
}
