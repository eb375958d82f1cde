//! Inputs for the judge: messages with several faults at once, and cut short or with bytes behind them.

use super::inputs::{self, near};
use peer::crc::{Division, Sum};
use peer::envelope::{COMMON, FIELD, SERVICE};
use peer::random::Random;

// Where the flags stand, the lowest byte of D, and V.
const FLAGS: usize = 4;
const LOW_D: usize = 7;
const V: usize = 16;

/// A message with up to four faults, its field mended every other time; then cut short, lengthened, or neither.
pub fn faulty(random: &mut Random) -> Vec<u8> {
    let longest = random.pick(&[21, 27, 60, 160, 300]);
    let mut message = inputs::message(random, longest);
    for _ in 0..random.up_to(4) {
        fault(random, &mut message);
    }
    if random.once_in(2) {
        mend_field(&mut message);
    }
    match random.up_to(3) {
        0 => message.truncate(cut(random, &message)),
        1 => {
            let more = random.between(1, 9);
            message.extend(random.bytes(more));
        }
        _ => {}
    }
    message
}

fn fault(random: &mut Random, message: &mut [u8]) {
    match random.up_to(7) {
        0 => message[0] = near(random, message[0]),
        1 => message[FLAGS] ^= 1 << random.between(3, 7),
        2 => message[V] = random.pick(&[0, 1, 5, 6, 7, 8, 64, 131, 132, 133, 134, 255]),
        3 => message[V] = near(random, message[V]),
        4 => message[LOW_D] = near(random, message[LOW_D]),
        5 => message[random.pick(&[LOW_D - 2, LOW_D - 1])] ^= 1 << random.up_to(7),
        6 => zero_or_letter(random, message),
        _ => {
            let place = random.between(message.len() - FIELD, message.len() - 1);
            message[place] ^= 1 << random.up_to(7);
        }
    }
}

/// Changes a byte of where the addresses may be.
fn zero_or_letter(random: &mut Random, message: &mut [u8]) {
    let after = (COMMON + usize::from(message[V])).min(message.len());
    if after > COMMON + SERVICE {
        let place = random.between(COMMON + SERVICE, after - 1);
        message[place] = if message[place] == 0 { b'Z' } else { 0 };
    }
}

/// Where the integrity field begins by V and D, in a message that holds both.
pub fn field_place(message: &[u8]) -> usize {
    let d = u32::from_be_bytes([0, message[LOW_D - 2], message[LOW_D - 1], message[LOW_D]]);
    COMMON + usize::from(message[V]) + d as usize
}

/// Sets the field that V and D tell of right for its kind, where it is there.
pub fn mend_field(message: &mut [u8]) {
    let Some((summed, behind)) = message.split_at_mut_checked(field_place(message)) else { return };
    let Some(field) = behind.first_chunk_mut::<FIELD>() else { return };
    match summed[FLAGS] >> 3 & 3 {
        0 => field.fill(0),
        1 => *field = Division::of(summed).to_be_bytes(),
        _ => {}
    }
}

/// A length to cut a message to: any, or one about which a rule's bytes are all there.
fn cut(random: &mut Random, message: &[u8]) -> usize {
    let place = random.pick(&[1, FLAGS + 1, V + 1, COMMON + FIELD, COMMON + usize::from(message[V])]);
    let edge = random.pick(&[place, field_place(message) + FIELD]) - random.up_to(1);
    let any = random.up_to(message.len());
    random.pick(&[any, edge]).min(message.len())
}
