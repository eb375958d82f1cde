//! Inputs: orders for writers, messages, golden files, and damage to each; and clocks for lateness.
//! Lengths and numbers lean to the edges, where mistakes are made.

use crate::interface::Order;
use crate::mirror;
use peer::crc::{Division, Sum};
use peer::envelope::{COMMON, FIELD, LONGEST_END, SERVICE, SHORTEST};
use peer::golden::{LONGEST_MESSAGE, PREFIX, RECORD};
use peer::random::Random;

/// Assigned flags: two options and a time format beside each of three kinds.
const GOOD_FLAGS: usize = 24;

/// The length of the message an order asks for.
pub fn length(order: &Order) -> usize {
    let variable = if order.addressed == 0 { 0 } else { SERVICE + order.source.len() + order.destination.len() + 2 };
    SHORTEST + variable + order.body.len()
}

/// An order that a writer takes, for a message no longer than this.
pub fn order(random: &mut Random, longest: usize) -> Order {
    let mut order = Order {
        message_type: if random.once_in(2) { 6000 + random.up_to(3) as u16 } else { random.next() as u16 },
        version: random.byte(),
        flags: random.up_to(GOOD_FLAGS - 1) as u8,
        number: random.number(),
        time: random.number(),
        ttl: random.number() as u16,
        qos: random.next() as u16,
        ..Order::default()
    };
    let mut left = longest - SHORTEST;
    if left >= SERVICE + 2 && !random.once_in(4) {
        order.addressed = random.pick(&[1, 1, 1, 2, 0x80, 0xFF]);
        left -= SERVICE + 2;
        order.source = end(random, left);
        left -= order.source.len();
        order.destination = end(random, left);
        left -= order.destination.len();
    }
    let size = size(random, left);
    order.body = if random.once_in(8) { vec![0; size] } else { random.bytes(size) };
    if order.flags >> 3 == 2 {
        order.integrity = random.number();
    }
    order
}

/// An address of at most 63 letters, and no more than there is room for.
fn end(random: &mut Random, left: usize) -> Vec<u8> {
    let longest = left.min(LONGEST_END - 1);
    let size = size(random, longest);
    random.bytes(size).into_iter().map(|byte| byte.max(1)).collect()
}

/// A size from 0 to the largest, often one of these two.
fn size(random: &mut Random, largest: usize) -> usize {
    match random.up_to(7) {
        0 => 0,
        1 => largest,
        2..=4 => random.up_to(largest.min(12)),
        _ => random.up_to(largest),
    }
}

/// An order spoiled in one or two ways.
pub fn spoiled_order(random: &mut Random) -> Order {
    let mut order = order(random, 600);
    for _ in 0..random.between(1, 2) {
        match random.up_to(6) {
            0 => order.flags = random.byte(),
            1 => order.source = letters(random),
            2 => order.destination = letters(random),
            3 => put_zero(random, &mut order.source),
            4 => put_zero(random, &mut order.destination),
            5 => order.addressed ^= 1,
            _ => order.integrity = random.number(),
        }
    }
    order
}

/// Letters around the longest that an address may have.
fn letters(random: &mut Random) -> Vec<u8> {
    let size = random.pick(&[62, 63, 64, 65, 127, 128, 255, 256, 300]);
    vec![b'L'; size]
}

fn put_zero(random: &mut Random, end: &mut Vec<u8>) {
    let place = random.up_to(end.len());
    end.insert(place, 0);
}

/// The message of a good order.
pub fn written(order: &Order) -> Vec<u8> {
    let mut message = vec![0; length(order)];
    mirror::write(order, &mut message);
    message
}

/// A well-formed message no longer than this.
pub fn message(random: &mut Random, longest: usize) -> Vec<u8> {
    let order = order(random, longest);
    written(&order)
}

/// The message damaged in one to three places; every other time its sizes and sum are set right again.
pub fn damaged(random: &mut Random, mut message: Vec<u8>) -> Vec<u8> {
    for _ in 0..random.between(1, 3) {
        damage(random, &mut message);
    }
    if random.once_in(2) {
        seal(&mut message);
    }
    message
}

fn damage(random: &mut Random, message: &mut Vec<u8>) {
    if message.len() < SHORTEST {
        return message.push(random.byte());
    }
    let any = random.up_to(message.len() - 1);
    match random.up_to(9) {
        0 => message[any] = random.byte(),
        1 => message[any] ^= 1 << random.up_to(7),
        2 => {
            let inserted = random.between(1, 4);
            let inserted = random.bytes(inserted);
            drop(message.splice(any..any, inserted));
        }
        3 => {
            let last = message.len().min(any + random.between(1, 4));
            drop(message.drain(any..last));
        }
        4 => {
            let size = random.pick(&[5, 6, 7, 7, 7, 16, 16, 16]);
            message[size] = if random.once_in(3) { random.byte() } else { near(random, message[size]) };
        }
        5 => message[4] = random.byte(),
        6 => message[4] ^= 1 << random.up_to(7),
        7 => message[random.up_to(COMMON - 1)] = random.byte(),
        8 => message[0] = near(random, message[0]),
        _ => touch_ends(random, message),
    }
}

pub fn near(random: &mut Random, byte: u8) -> u8 {
    let by = random.between(1, 3) as u8;
    if random.once_in(2) {
        byte.wrapping_add(by)
    } else {
        byte.wrapping_sub(by)
    }
}

/// Puts a zero into the variable header, or takes one away.
fn touch_ends(random: &mut Random, message: &mut [u8]) {
    let after = COMMON + usize::from(message[16]);
    let first = COMMON + SERVICE;
    if first < after && after <= message.len() {
        let place = random.between(first, after - 1);
        message[place] = if message[place] == 0 { b'Z' } else { 0 };
    }
}

/// Sets the data length and the integrity field to what the rest asks for, where that can be done.
pub fn seal(message: &mut [u8]) {
    let Some(body) = message.len().checked_sub(SHORTEST) else { return };
    if let Some(body) = body.checked_sub(usize::from(message[16])) {
        message[5..8].copy_from_slice(&(body as u32).to_be_bytes()[1..]);
    }
    let (summed, field) = message.split_at_mut(message.len() - FIELD);
    match summed[4] >> 3 & 3 {
        0 => field.fill(0),
        1 => field.copy_from_slice(&Division::of(summed).to_be_bytes()),
        _ => {}
    }
}

/// A message of this length, with this variable header size and these flags, right in all else that it can be.
pub fn shaped(random: &mut Random, length: usize, flags: u8, variable: u8) -> Vec<u8> {
    let mut message = random.bytes(length);
    for (place, byte) in [(0, 4), (4, flags), (16, variable)] {
        if let Some(at) = message.get_mut(place) {
            *at = byte;
        }
    }
    let after = COMMON + usize::from(variable);
    if variable >= 6 && after <= length {
        let ends = &mut message[COMMON + SERVICE..after];
        ends.iter_mut().for_each(|byte| *byte = (*byte).max(1));
        let middle = ends.len() / 2 - 1;
        ends[middle] = 0;
        *ends.last_mut().expect("there are two ends") = 0;
    }
    seal(&mut message);
    message
}

/// A second, the one before and the next, as far as 64 bits go.
pub fn about(second: u64) -> [u64; 3] {
    [second.saturating_sub(1), second, second.saturating_add(1)]
}

/// Clocks at which a mistake in lateness shows: at both ends; about the entry; about the second at which the TTL runs
/// out; about where a sum that runs round at 64 or at 32 bits has that second; and about where a difference that is cut
/// to 16 or to 32 bits is small again.
pub fn clocks(ttl: u16, entry: u64) -> Vec<u64> {
    let ttl = u64::from(ttl);
    let (runs_out, run_round) = (entry.saturating_add(ttl), entry.wrapping_add(ttl));
    let [cut_16, cut_32] = [1 << 16, 1 << 32].map(|cut| entry.wrapping_add(cut));
    let mut clocks = [entry, runs_out, run_round, run_round % (1 << 32), cut_16, cut_32].map(about).concat();
    clocks.extend([0, u64::MAX]);
    clocks
}

/// A record that stores this length before these bytes.
pub fn record_of(length: usize, message: &[u8]) -> Vec<u8> {
    let mut record = [&(length as u16).to_be_bytes(), message].concat();
    record.resize(RECORD, 0);
    record
}

/// A record of this message that is seldom good.
fn bad_record(random: &mut Random, message: Vec<u8>) -> Vec<u8> {
    match random.up_to(6) {
        0 => record_of(random.pick(&[0, 1, 20, 511, 512, 513, 0x1500, 0xFFFF]), &message),
        1 => record_of(message.len() + 1, &message),
        2 => record_of(message.len() - 1, &message),
        3 => {
            let mut record = record_of(message.len(), &message);
            let after = random.between(PREFIX + message.len() - 1, RECORD - 1);
            let place = random.pick(&[RECORD - 1, after]);
            record[place] ^= 1 << random.up_to(7);
            record
        }
        4 => random.bytes(RECORD),
        _ => {
            let damaged = damaged(random, message);
            record_of(damaged.len(), &damaged)
        }
    }
}

/// So many orders for records, no two of them with one name, a type and a message number.
fn orders(random: &mut Random, count: usize) -> Vec<Order> {
    let mut orders: Vec<Order> = Vec::new();
    while orders.len() < count {
        let order = order(random, LONGEST_MESSAGE);
        if !orders.iter().any(|other| (other.message_type, other.number) == (order.message_type, order.number)) {
            orders.push(order);
        }
    }
    orders
}

/// Sets the mark of some records, good or bad: in half of the files of none, else of one in so many, or of all.
fn mark(random: &mut Random, file: &mut [u8]) {
    if random.once_in(2) {
        return;
    }
    let times = random.pick(&[1, 2, 3, 5]);
    for record in file.chunks_mut(RECORD) {
        if random.once_in(times) {
            record[0] |= 0x80;
        }
    }
}

/// The file of these orders: all records good, or one or more of them bad; some of them marked as retired.
fn file_of(random: &mut Random, orders: &[Order]) -> Vec<u8> {
    let bad = match random.up_to(3) {
        0 | 1 => 0,
        2 => 1,
        _ => random.between(1, 3),
    };
    let bad: Vec<usize> = (0..bad).map(|_| random.up_to(orders.len())).collect();
    let mut file = Vec::new();
    for (at, message) in orders.iter().map(written).enumerate() {
        file.extend(if bad.contains(&at) { bad_record(random, message) } else { record_of(message.len(), &message) });
    }
    mark(random, &mut file);
    file
}

/// A file of so many records, whose good ones have a name each, retired or live.
pub fn file(random: &mut Random, records: usize) -> Vec<u8> {
    let orders = orders(random, records);
    file_of(random, &orders)
}

/// A file of two records or more, of which a later one has the name of an earlier one, or nearly.
pub fn doubled_file(random: &mut Random, records: usize) -> Vec<u8> {
    let mut orders = orders(random, records);
    let (earlier, later) = two_places(random, records);
    double(random, &mut orders, earlier, later);
    file_of(random, &orders)
}

/// So many orders in ascending order of their names; mostly of few types, and often with numbers next to each other.
fn ascending_orders(random: &mut Random, count: usize) -> Vec<Order> {
    let mut orders = orders(random, count);
    if random.once_in(2) {
        for (order, place) in orders.iter_mut().zip(0..) {
            rename(order, 6000 + place / random.pick(&[3, 50]), place.into());
        }
    }
    orders.sort_by_key(|order| (order.message_type, order.number));
    orders
}

/// A file of so many records, in ascending order where they are good.
pub fn ascending_file(random: &mut Random, records: usize) -> Vec<u8> {
    let orders = ascending_orders(random, records);
    file_of(random, &orders)
}

/// The same of two records or more, but two of them have changed places, or a later has the name of an earlier one.
pub fn nearly_ascending_file(random: &mut Random, records: usize) -> Vec<u8> {
    let mut orders = ascending_orders(random, records);
    let (earlier, later) = two_places(random, records);
    if random.once_in(2) {
        orders.swap(earlier, later);
    } else {
        double(random, &mut orders, earlier, later);
    }
    file_of(random, &orders)
}

/// The first and the last of so many records, two next to each other, or any two.
fn two_places(random: &mut Random, records: usize) -> (usize, usize) {
    let later = random.between(1, records - 1);
    match random.up_to(3) {
        0 => (0, records - 1),
        1 => (later - 1, later),
        _ => (random.up_to(later - 1), later),
    }
}

/// Puts the earlier order's name, or a part of it, into the later one.
fn double(random: &mut Random, orders: &mut [Order], earlier: usize, later: usize) {
    let (message_type, number) = (orders[earlier].message_type, orders[earlier].number);
    match random.up_to(8) {
        0 => orders[later].message_type = message_type,
        1 => orders[later].number = number,
        2 => rename(&mut orders[later], message_type ^ 1 << random.up_to(15), number),
        3 => rename(&mut orders[later], message_type, number ^ 1 << random.up_to(31)),
        4 => orders[later] = orders[earlier].clone(),
        _ => rename(&mut orders[later], message_type, number),
    }
    // Three of one name, unless it is one of the two.
    if random.once_in(4) {
        let third = random.up_to(orders.len() - 1);
        rename(&mut orders[third], message_type, number);
    }
}

fn rename(order: &mut Order, message_type: u16, number: u32) {
    (order.message_type, order.number) = (message_type, number);
}

/// A file whose length is seldom right.
pub fn odd_file(random: &mut Random) -> Vec<u8> {
    let records = random.up_to(6);
    let mut file = file(random, records);
    let length = match random.up_to(5) {
        0 => random.pick(&[1, 511, 513, 65_535, 65_537, 66_048, 66_560, 131_072]),
        1 => file.len().saturating_sub(random.between(1, 511)),
        _ => file.len() + random.between(1, 511),
    };
    file.resize(length, 0);
    file
}
