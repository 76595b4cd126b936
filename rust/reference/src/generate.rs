//! Seeded inputs for every call: sound, mutated and adversarial ones, and a
//! count of which verdicts, refusals and answers they reach.

use crate::book::{Book, OpenPiece};
use crate::checksum;
use crate::crc::crc32c;
use crate::docket::{encode, list_options, list_reread};
use crate::reader::{
    next_option, read, reread, Apc, Fields, PacketOffset, Range, ReadOption, Reading, Rereading,
    Strictness, Verdict,
};
use crate::table::{
    bill, clock, fresh, in_range, piece, record_test, set_up, share, share_start, store_length,
    Answer, Assembly, Flow, PieceCall, Record, Slot, ASSEMBLIES, CLIENTS_MOST, LIFE, OFFERED_MOST,
    PIECES, PLACE,
};
use crate::writer::write;
use std::collections::BTreeMap;

/// A small generator of numbers (splitmix64).
#[derive(Clone, Debug)]
pub struct Random(u64);

impl Random {
    pub fn new(seed: u64) -> Random {
        Random(seed)
    }

    pub fn draw(&mut self) -> u64 {
        self.0 = self.0.wrapping_add(0x9E37_79B9_7F4A_7C15);
        let mut z = self.0;
        z = (z ^ z >> 30).wrapping_mul(0xBF58_476D_1CE4_E5B9);
        z = (z ^ z >> 27).wrapping_mul(0x94D0_49BB_1331_11EB);
        z ^ z >> 31
    }

    /// 0 to `count` - 1; 0 for a count of 0.
    pub fn below(&mut self, count: usize) -> usize {
        (self.draw() % count.max(1) as u64) as usize
    }

    /// True once in `count` times.
    pub fn one_in(&mut self, count: usize) -> bool {
        self.below(count) == 0
    }

    pub fn byte(&mut self) -> u8 {
        self.draw() as u8
    }

    pub fn bytes(&mut self, count: usize) -> Vec<u8> {
        (0..count).map(|_| self.byte()).collect()
    }

    pub fn four(&mut self) -> [u8; 4] {
        (self.draw() as u32).to_be_bytes()
    }

    /// One of a list that is not empty.
    pub fn pick<T: Copy>(&mut self, from: &[T]) -> T {
        from[self.below(from.len())]
    }
}

// ---------------------------------------------------------------- datagrams

/// Input of `read`.
#[derive(Clone, Debug)]
pub struct Datagram {
    pub source: [u8; 4],
    pub destination: [u8; 4],
    pub payload: Vec<u8>,
}

/// How a checksum field is filled.
#[derive(Clone, Copy, PartialEq, Eq)]
enum Sum {
    Right,
    Zero,
    Wrong,
}

/// A payload of user data and area, with both checksums filled as asked.
/// An area too short for an option checksum gets none.
fn build(random: &mut Random, user: &[u8], area: &[u8], udp: Sum, option: Sum) -> Datagram {
    let length = 8 + user.len();
    let mut payload = random.bytes(4);
    payload.extend((length as u16).to_be_bytes());
    payload.extend([0, 0]);
    payload.extend(user);
    payload.extend(area);
    let source = random.four();
    let destination = random.four();
    let pad = length % 2;
    if area.len() >= pad + 2 {
        let field = filled(
            random,
            option,
            checksum::area_sum(&payload[length..], pad == 1),
        );
        payload[length + pad..length + pad + 2].copy_from_slice(&field);
    }
    let sum = checksum::udp_sum(source, destination, &payload[..length]);
    let field = filled(random, udp, sum);
    payload[6..8].copy_from_slice(&field);
    Datagram {
        source,
        destination,
        payload,
    }
}

fn filled(random: &mut Random, how: Sum, sum: u16) -> [u8; 2] {
    let right = checksum::sent(sum);
    match how {
        Sum::Right => right,
        Sum::Zero => 0,
        Sum::Wrong => {
            // Neither 0 nor another spelling of the right one.
            let mut wrong = right;
            while wrong == right || wrong == 0 || (wrong == 0xFFFF && sum == 0) {
                wrong = random.draw() as u16;
            }
            wrong
        }
    }
    .to_be_bytes()
}

/// Works both checksums out again, where the payload has room for them.
fn repair(datagram: &mut Datagram) {
    let payload = &mut datagram.payload;
    if payload.len() < 8 {
        return;
    }
    let length = usize::from(u16::from_be_bytes([payload[4], payload[5]]));
    if length < 8 || length > payload.len() {
        return;
    }
    let at = length + length % 2;
    if payload.len() >= at + 2 {
        payload[at..at + 2].fill(0);
        let sum = checksum::sent(checksum::area_sum(&payload[length..], length % 2 == 1));
        payload[at..at + 2].copy_from_slice(&sum.to_be_bytes());
    }
    payload[6..8].fill(0);
    let sum = checksum::udp_sum(datagram.source, datagram.destination, &payload[..length]);
    payload[6..8].copy_from_slice(&checksum::sent(sum).to_be_bytes());
}

/// The pad, if the length is odd, and room for the option checksum.
fn area_head(user_length: usize) -> Vec<u8> {
    vec![0; user_length % 2 + 2]
}

/// Appends an option with a body, extended where that is needed or asked.
fn put_option(list: &mut Vec<u8>, kind: u8, body: &[u8], extended: bool) {
    list.push(kind);
    if body.len() + 2 > 254 || (extended && body.len() + 4 >= 255) {
        list.push(255);
        list.extend(((body.len() + 4) as u16).to_be_bytes());
    } else {
        list.push((body.len() + 2) as u8);
    }
    list.extend(body);
}

/// Appends NOPs: about as many as strict reading takes in a row, now and then
/// many more.
fn long_run(random: &mut Random, list: &mut Vec<u8>) {
    let count = match random.below(60) {
        0 => random.pick(&[1_400, 9_000]),
        1..=3 => random.pick(&[10, 15, 16, 17, 63, 64, 65, 71, 72, 73, 200]),
        _ => random.pick(&[6, 7, 7, 8, 9]),
    };
    list.extend(vec![1; count]);
}

/// Appends one sound option, and before it now and then NOPs.
fn sound_option(random: &mut Random, list: &mut Vec<u8>, user: &[u8]) {
    match random.below(32) {
        0 => long_run(random, list),
        1..=7 => list.extend(vec![1; 1 + random.below(3)]),
        _ => {}
    }
    match random.below(12) {
        0 | 1 => {
            let mut crc = crc32c(user).to_be_bytes();
            if random.one_in(3) {
                crc[random.below(4)] ^= 1 << random.below(8);
            }
            put_option(list, 2, &crc, false);
        }
        2 => put_option(list, 4, &random.bytes(2), false),
        3 => put_option(list, 5, &random.bytes(3), false),
        4 => put_option(list, 6, &random.bytes(4), false),
        5 => put_option(list, 7, &random.bytes(4), false),
        6 => put_option(list, 8, &random.bytes(8), false),
        other => {
            let kind = random.pick(&[9, 10, 126, 127, 128, 190, 191]);
            let length = if other == 11 && random.one_in(4) {
                random.pick(&[250, 251, 252, 253, 254, 600])
            } else {
                random.below(6)
            };
            let body = if random.one_in(8) {
                // Bytes that would be NOPs.
                vec![1; length + 8]
            } else {
                random.bytes(length)
            };
            let extended = random.one_in(2);
            put_option(list, kind, &body, extended);
        }
    }
}

/// Appends something that ends the walk with a fault.
fn fault(random: &mut Random, list: &mut Vec<u8>) {
    let safe = random.pick(&[2, 3, 4, 5, 6, 7, 8, 9, 127, 191]);
    match random.below(10) {
        0 => list.extend([safe, 0]),
        1 => list.extend([safe, 1]),
        2 => list.push(safe),
        3 => list.extend([random.pick(&[9, 127, 191]), 255, 0]),
        4 => {
            list.extend([random.pick(&[9, 127, 191]), 255, 0, 254]);
            list.extend(random.bytes(250));
        }
        5 => list.extend([random.pick(&[9, 127, 191]), 5, 0, 0]),
        6 => {
            // A fixed kind with a length near its own.
            let (kind, own) = random.pick(&[(2, 6), (4, 4), (5, 5), (6, 6), (7, 6), (8, 10)]);
            let wrong: u8 = if random.one_in(2) { own - 1 } else { own + 1 };
            list.extend([kind, wrong]);
            list.extend(random.bytes(20));
        }
        7 => {
            // FRAG in the wrong place, or of a wrong length.
            list.extend([6, 6, 0, 0, 0, 0]);
            list.extend([3, random.pick(&[9, 10, 11, 12, 13])]);
            list.extend(random.bytes(14));
        }
        _ => {
            let kind = random.pick(&[192, 193, 200, 254, 255]);
            list.push(kind);
            if random.one_in(2) {
                let length = random.below(4);
                list.extend(random.bytes(length));
            }
        }
    }
}

/// Appends EOL and bytes behind it: mostly zeros, else zeros but for one bit
/// of the first, the last or any of them, bytes of any value, or all 1.
fn end_list(random: &mut Random, list: &mut Vec<u8>) {
    list.push(0);
    let count = if random.one_in(40) {
        random.pick(&[1_400, 9_000, 65_000])
    } else {
        random.pick(&[0, 1, 2, 5, 8, 17, 63, 64, 65, 255, 300])
    };
    let mut behind = vec![0; count];
    let spot = match random.below(9) {
        0 => 0,
        1 => count.saturating_sub(1),
        2 => random.below(count),
        3 => {
            behind = random.bytes(count);
            count
        }
        4 => {
            behind.fill(1);
            count
        }
        _ => count,
    };
    if let Some(byte) = behind.get_mut(spot) {
        *byte = 1 << random.below(8);
    }
    list.extend(behind);
}

fn user_data(random: &mut Random) -> Vec<u8> {
    let count = random.pick(&[0, 1, 2, 3, 7, 8, 31, 32, 33, 200]);
    random.bytes(count)
}

/// An option list of up to 32 sound options and perhaps a fill.
fn sound_list(random: &mut Random, user: &[u8]) -> Vec<u8> {
    let mut list = Vec::new();
    let count = random.pick(&[0, 1, 1, 2, 3, 5, 31, 32]);
    for _ in 0..count {
        sound_option(random, &mut list, user);
    }
    if random.one_in(8) {
        long_run(random, &mut list);
    }
    if random.one_in(2) {
        end_list(random, &mut list);
    }
    list
}

/// A list with more than the options allowed, or with a fault, an end or NOPs
/// as the 33rd.
fn crowded_list(random: &mut Random, user: &[u8]) -> Vec<u8> {
    let mut list = Vec::new();
    let count = random.pick(&[32, 33, 33, 34, 60]);
    for _ in 0..count {
        sound_option(random, &mut list, user);
    }
    match random.below(5) {
        0 | 1 => fault(random, &mut list),
        2 => end_list(random, &mut list),
        3 => long_run(random, &mut list),
        _ => {}
    }
    list
}

/// Appends something that ends the walk with a fault, before it now and then
/// NOPs, and behind it an end of the list that the walk does not come to.
fn fault_and_end(random: &mut Random, list: &mut Vec<u8>) {
    if random.one_in(3) {
        list.extend(vec![1; 1 + random.below(3)]);
    }
    fault(random, list);
    if random.one_in(3) {
        end_list(random, list);
    }
}

/// A fragment's list and bytes; `from` is the list's packet offset. The
/// values stand at and around their bounds.
fn fragment_list(random: &mut Random, from: usize) -> Vec<u8> {
    let mut list = vec![1; random.pick(&[0, 0, 0, 1, 3])];
    if random.one_in(4) {
        long_run(random, &mut list);
    }
    let at = list.len();
    let last = random.one_in(2);
    list.extend([3, if last { 12 } else { 10 }, 0, 0]);
    list.extend(random.four());
    let offset = random.pick(&[8u16, 8, 9, 20, 4_103, 65_535]);
    let offset = if random.one_in(12) {
        random.pick(&[0, 7])
    } else {
        offset
    };
    list.extend(offset.to_be_bytes());
    if last {
        let start: u16 = if random.one_in(12) {
            random.pick(&[0, 7])
        } else {
            random.pick(&[8, 9, 300, 65_535])
        };
        list.extend(start.to_be_bytes());
    }
    let frag_end = list.len();
    if random.one_in(6) {
        long_run(random, &mut list);
    }
    let options = random.pick(&[0, 0, 0, 1, 2, 31, 32]);
    for _ in 0..options {
        sound_option(random, &mut list, &[]);
    }
    if random.one_in(8) {
        fault(random, &mut list);
    }
    if random.one_in(8) {
        long_run(random, &mut list);
    }
    if random.one_in(3) {
        end_list(random, &mut list);
    }
    let options_end = list.len();
    let count = random.pick(&[0, 1, 8, 40]);
    list.extend(random.bytes(count));
    let start = match random.below(12) {
        0 => frag_end,
        1 => frag_end.saturating_sub(1),
        2 => list.len(),
        3 => list.len() + 1,
        4 => options_end.saturating_sub(1),
        5 => frag_end + random.below(list.len() - frag_end + 1),
        _ => options_end,
    };
    let field = ((from + start) as u16).to_be_bytes();
    list[at + 2..at + 4].copy_from_slice(&field);
    list
}

/// One datagram of any sort.
pub fn datagram(random: &mut Random) -> Datagram {
    let user = user_data(random);
    let mut area = area_head(user.len());
    let (udp, option) = random.pick(&[
        (Sum::Right, Sum::Right),
        (Sum::Right, Sum::Right),
        (Sum::Right, Sum::Right),
        (Sum::Zero, Sum::Zero),
        (Sum::Zero, Sum::Right),
    ]);
    match random.below(18) {
        0 => build(random, &user, &[], udp, option),
        1 => {
            let count = random.below(user.len() % 2 + 2);
            let area = random.bytes(count);
            build(random, &user, &area, udp, option)
        }
        2 => {
            let user = random.pick(&[&[7u8][..], &[1, 2, 3]]);
            let mut area = area_head(user.len());
            area[0] = 1 << random.below(8);
            area.extend(sound_list(random, user));
            build(random, user, &area, udp, option)
        }
        3 => {
            area.extend(sound_list(random, &user));
            build(random, &user, &area, Sum::Right, Sum::Zero)
        }
        4 => {
            area.extend(sound_list(random, &user));
            build(random, &user, &area, udp, Sum::Wrong)
        }
        5..=8 => {
            area.extend(sound_list(random, &user));
            build(random, &user, &area, udp, option)
        }
        9 => {
            area.extend(crowded_list(random, &user));
            build(random, &user, &area, udp, option)
        }
        10 => {
            let count = random.below(4);
            for _ in 0..count {
                sound_option(random, &mut area, &user);
            }
            fault_and_end(random, &mut area);
            build(random, &user, &area, udp, option)
        }
        11..=13 => {
            let mut area = area_head(0);
            area.extend(fragment_list(random, 10));
            build(random, &[], &area, udp, option)
        }
        14 => {
            let from = 8 + user.len() + area.len();
            area.extend(fragment_list(random, from));
            build(random, &user, &area, udp, option)
        }
        15 | 16 => mutated(random),
        _ => odd_datagram(random),
    }
}

/// A datagram with a few bytes changed, cut or added; the checksums are
/// mostly worked out again, so that the change is looked at.
fn mutated(random: &mut Random) -> Datagram {
    let mut datagram = datagram(random);
    for _ in 0..1 + random.below(3) {
        let length = datagram.payload.len();
        let at = random.below(length);
        match random.below(6) {
            0 => datagram.payload.truncate(at),
            1 => {
                let byte = random.byte();
                datagram.payload.insert(at.min(length), byte);
            }
            2 if length > 0 => {
                datagram.payload.remove(at);
            }
            3 if length > 5 => datagram.payload[5] = datagram.payload[5].wrapping_add(1),
            _ if length > 0 => {
                datagram.payload[at] = random.pick(&[0, 1, 3, 6, 8, 10, 12, 192, 254, 255]);
            }
            _ => {}
        }
    }
    if !random.one_in(4) {
        repair(&mut datagram);
    }
    datagram
}

/// Too short, too long, a wrong length field or a wrong UDP checksum.
fn odd_datagram(random: &mut Random) -> Datagram {
    let user = user_data(random);
    let mut datagram = build(random, &user, &[], Sum::Right, Sum::Right);
    match random.below(5) {
        0 => datagram.payload.truncate(random.below(8)),
        1 => {
            let length = random.pick(&[65_514usize, 65_515, 65_515, 65_516, 66_000]);
            datagram.payload.resize(length, 0);
            repair(&mut datagram);
        }
        2 => {
            let length = random.pick(&[0, 7, datagram.payload.len() as u16 + 1, 65_535]);
            datagram.payload[4..6].copy_from_slice(&length.to_be_bytes());
        }
        3 => {
            let count = random.below(40);
            datagram.payload = random.bytes(count);
        }
        _ => datagram = build(random, &user, &[], Sum::Wrong, Sum::Right),
    }
    datagram
}

/// An original and its option start, as `reread` takes them.
pub fn original(random: &mut Random) -> (Vec<u8>, usize) {
    if random.one_in(40) {
        let length = random.pick(&[65_506, 65_507, 65_508, 70_000]);
        let r = random.pick(&[0, 1, length - 2, length, length + 1]);
        return (vec![0; length], r);
    }
    let user = user_data(random);
    let mut area = area_head(user.len());
    match random.below(8) {
        0 => area.clear(),
        1 => area.truncate(1),
        2 => {
            area[0] = 1;
            area.extend(sound_list(random, &user));
        }
        3 => area.extend(crowded_list(random, &user)),
        4 => {
            let from = user.len() + area.len();
            area.extend(fragment_list(random, from));
        }
        5 => {
            for _ in 0..random.below(3) {
                sound_option(random, &mut area, &user);
            }
            fault_and_end(random, &mut area);
        }
        _ => area.extend(sound_list(random, &user)),
    }
    let pad = user.len() % 2;
    if area.len() >= pad + 2 {
        let how = random.pick(&[Sum::Right, Sum::Right, Sum::Zero, Sum::Zero, Sum::Wrong]);
        area[pad..pad + 2].fill(0);
        let field = filled(random, how, checksum::area_sum(&area, pad == 1));
        area[pad..pad + 2].copy_from_slice(&field);
    }
    let mut whole = user.clone();
    whole.extend(&area);
    let r = match random.below(24) {
        0 => whole.len() + 1,
        1 => usize::MAX,
        2 => random.below(whole.len() + 1),
        _ => user.len(),
    };
    (whole, r)
}

// ------------------------------------------------------------------ writing

/// Input of `write`; the buffer is lent with this length.
#[derive(Clone, Debug)]
pub struct Writing {
    pub source: [u8; 4],
    pub destination: [u8; 4],
    pub source_port: u16,
    pub destination_port: u16,
    pub user: Vec<u8>,
    pub docket: Vec<u8>,
    pub fill: u8,
    pub buffer: usize,
}

/// A docket that the writer takes.
pub fn docket(random: &mut Random) -> Vec<u8> {
    let count = random.pick(&[0, 1, 1, 2, 3, 8, 32]);
    let long = random.pick(&[0, 1, 5, 20, 126, 127, 128, 251, 252, 253, 254, 1_000]);
    let bodies: Vec<Vec<u8>> = (0..count)
        .map(|_| {
            let length = if random.one_in(6) {
                long
            } else {
                random.below(8)
            };
            random.bytes(length)
        })
        .collect();
    let options: Vec<ReadOption> = bodies.iter().map(|body| entry(random, body)).collect();
    encode(&options)
}

fn entry<'a>(random: &mut Random, body: &'a [u8]) -> ReadOption<'a> {
    let wide = [0, 1, 127, 128, 300, 16_383, 16_384, 63_985, u32::MAX];
    let number = |random: &mut Random, most: u32| {
        if random.one_in(2) {
            random.pick(&wide).min(most)
        } else {
            (random.draw() % (u64::from(most) + 1)) as u32
        }
    };
    let kind = random.pick(&[2, 4, 5, 6, 7, 8, 9, 10, 127, 128, 191]);
    let fields = match kind {
        2 => Fields::None,
        4 => Fields::One(number(random, 0xFFFF)),
        5 => Fields::Two(number(random, 0xFFFF), number(random, 0xFF)),
        6 | 7 => Fields::One(number(random, u32::MAX)),
        8 => Fields::Two(number(random, u32::MAX), number(random, u32::MAX)),
        _ => Fields::Body(body),
    };
    ReadOption { kind, fields }
}

/// A docket that is mostly refused.
pub fn bad_docket(random: &mut Random) -> Vec<u8> {
    let fixed: [&[u8]; 24] = [
        &[],
        &[0x80],
        &[33],
        &[0x80, 0],
        &[1],
        &[1, 0],
        &[1, 1],
        &[1, 3],
        &[1, 0xC0, 1],
        &[1, 0xFF, 1],
        &[1, 0x80, 2],
        &[1, 0x83, 0],
        &[1, 6, 0x80, 0],
        &[1, 6, 0xFF, 0xFF, 0xFF, 0xFF, 0x10],
        &[1, 6, 0xFF, 0xFF, 0xFF, 0xFF, 0x0F],
        &[1, 4, 0x80, 0x80, 4],
        &[1, 5, 0, 0x80, 2],
        &[1, 9, 0xFC, 0xFF, 3],
        &[1, 9, 3, 1, 2],
        &[2, 6, 0, 3],
        &[2, 6, 0x80, 0, 3],
        &[1, 3, 0xFF, 0xFF],
        &[0x80, 0x80, 0x80, 0x80, 0x80, 0x80, 0x80, 0x80, 0x80, 2],
        &[1, 0x86, 0x80, 0x80, 0x80, 0x10, 0],
    ];
    if random.one_in(2) {
        return random.pick(&fixed).to_vec();
    }
    let mut docket = docket(random);
    for _ in 0..1 + random.below(2) {
        let length = docket.len();
        let at = random.below(length);
        match random.below(4) {
            0 => docket.truncate(at),
            1 => docket.push(random.byte()),
            _ if length > 0 => docket[at] = random.byte(),
            _ => {}
        }
    }
    docket
}

/// One call of the writer.
pub fn writing(random: &mut Random) -> Writing {
    let user = if random.one_in(60) {
        let count = random.pick(&[65_000, 65_504, 65_505, 65_506, 65_507, 65_508, 70_000]);
        random.bytes(count)
    } else {
        user_data(random)
    };
    let docket = if random.one_in(4) {
        bad_docket(random)
    } else {
        docket(random)
    };
    let mut writing = Writing {
        source: random.four(),
        destination: random.four(),
        source_port: random.draw() as u16,
        destination_port: random.draw() as u16,
        user,
        docket,
        fill: random.pick(&[0, 0, 1, 2, 7, 255]),
        buffer: 70_000,
    };
    // The buffer's length stands around the payload's.
    let needed = writing.run(&mut vec![0; 70_000]).unwrap_or(12);
    writing.buffer = match random.below(6) {
        0 => needed - 1,
        1 => 0,
        2 => needed + 3,
        3 => 70_000,
        _ => needed,
    };
    writing
}

impl Writing {
    pub fn run(&self, buffer: &mut [u8]) -> Result<usize, u32> {
        write(
            self.source,
            self.destination,
            self.source_port,
            self.destination_port,
            &self.user,
            &self.docket,
            self.fill,
            buffer,
        )
    }
}

// -------------------------------------------------------------- table calls

/// What a call's book sees of the table lent to it: each record's plan, and
/// the store's length.
#[derive(Clone, Debug, PartialEq, Eq)]
pub struct Lent {
    pub plans: Vec<u64>,
    pub store: usize,
}

impl Lent {
    /// The table of clients with these plans.
    pub fn of(plans: &[u64]) -> Lent {
        Lent {
            plans: plans.to_vec(),
            store: plans.iter().map(|&plan| share(plan)).sum(),
        }
    }

    /// The count of records.
    pub fn records(&self) -> usize {
        self.plans.len()
    }

    /// Whether 20 and 32 let it pass.
    pub fn passes(&self) -> bool {
        self.refusal().is_none()
    }

    /// 20 or 32.
    pub fn refusal(&self) -> Option<u32> {
        let wrong_count = !(1..=CLIENTS_MOST).contains(&self.records());
        let wrong_plan = !self.plans.iter().all(|&plan| in_range(plan));
        let wrong_store = self.store != Lent::of(&self.plans).store;
        match (wrong_count, wrong_plan, wrong_store) {
            (true, _, _) => Some(20),
            (_, true, _) => Some(32),
            (_, _, true) => Some(20),
            _ => None,
        }
    }

    /// What 20 or 32 finds wrong, in a call of this client: a name of
    /// [`TABLE_FAULTS`].
    pub fn fault(&self, client: Option<usize>) -> Option<&'static str> {
        let plans = self.plans.iter();
        let wrong: Vec<bool> = plans.map(|&plan| !in_range(plan)).collect();
        let own = client.and_then(|client| wrong.get(client)).copied();
        match self.refusal()? {
            32 if own == Some(true) => Some("refused 32, its own plan"),
            32 => Some("refused 32, another's plan"),
            _ if (1..=CLIENTS_MOST).contains(&self.records()) => Some("refused 20, store"),
            _ if wrong.contains(&true) => Some("refused 20, count, with a wrong plan"),
            _ => Some("refused 20, count"),
        }
    }
}

/// Every name that [`Lent::fault`] has.
pub const TABLE_FAULTS: [&str; 5] = [
    "refused 20, count",
    "refused 20, count, with a wrong plan",
    "refused 32, its own plan",
    "refused 32, another's plan",
    "refused 20, store",
];

/// A plan in range.
pub fn plan(random: &mut Random) -> u64 {
    let any = 1 + random.below(ASSEMBLIES) as u64;
    random.pick(&[1, 2, 4, 8, any, any])
}

/// A plan out of range. The lowest bits of some are in range, or those of the
/// share that they would have.
pub fn wrong_plan(random: &mut Random) -> u64 {
    let low = plan(random);
    let past = ASSEMBLIES as u64 + 1;
    let high = low | 1 << random.pick(&[8, 16, 32, 51, 63]);
    random.pick(&[0, 0, past, past, past + 1, 12, u64::MAX, high, high])
}

/// The plans of up to `clients` clients.
fn plans(random: &mut Random, clients: usize) -> Vec<u64> {
    let count = 1 + random.below(clients);
    (0..count).map(|_| plan(random)).collect()
}

/// What a call asks of the table.
#[derive(Clone, Debug)]
pub enum Ask {
    SetUp,
    Piece {
        client: usize,
        time: u64,
        flow: Flow,
        identification: u32,
        place: usize,
        bytes: Vec<u8>,
        last: bool,
        r: usize,
        /// The out buffer's length.
        out: usize,
    },
    Clock {
        client: usize,
        time: u64,
    },
    Bill {
        client: usize,
    },
}

/// One call of a list.
#[derive(Clone, Debug)]
pub struct Call {
    pub lent: Lent,
    pub ask: Ask,
}

impl Call {
    /// The client asked for; none for a set-up.
    pub fn client(&self) -> Option<usize> {
        match self.ask {
            Ask::SetUp => None,
            Ask::Piece { client, .. } | Ask::Clock { client, .. } | Ask::Bill { client } => {
                Some(client)
            }
        }
    }

    /// The call's word, for counts.
    pub fn word(&self) -> &'static str {
        match self.ask {
            Ask::SetUp => "set up",
            Ask::Piece { .. } => "piece",
            Ask::Clock { .. } => "clock",
            Ask::Bill { .. } => "bill",
        }
    }

    /// The out buffer's length; 0 where the call has none.
    pub fn out_length(&self) -> usize {
        match self.ask {
            Ask::Piece { out, .. } => out,
            _ => 0,
        }
    }

    /// Runs the call on a lent table.
    pub fn on_table(&self, records: &mut [Record], store: &mut [u8], out: &mut [u8]) -> Answer {
        match &self.ask {
            Ask::SetUp => set_up(records, store),
            Ask::Clock { client, time } => clock(records, store, *client, *time),
            Ask::Bill { client } => bill(records, store, *client),
            Ask::Piece { .. } => match self.piece_call() {
                Some(call) => piece(records, store, &call, out),
                None => Answer::Refused(0),
            },
        }
    }

    /// Runs the call on the book of its client.
    pub fn on_book(&self, book: &mut Book, out: &mut [u8]) -> Answer {
        let (plans, store) = (&self.lent.plans, self.lent.store);
        match &self.ask {
            Ask::SetUp => book.set_up(plans, store),
            Ask::Clock { time, .. } => book.clock(plans, store, *time),
            Ask::Bill { .. } => book.bill(plans, store),
            Ask::Piece { .. } => match self.piece_call() {
                Some(call) => book.piece(plans, store, &call, out),
                None => Answer::Refused(0),
            },
        }
    }

    /// The arguments of a piece call; none for another call.
    pub fn piece_call(&self) -> Option<PieceCall<'_>> {
        match &self.ask {
            Ask::Piece {
                client,
                time,
                flow,
                identification,
                place,
                bytes,
                last,
                r,
                ..
            } => Some(PieceCall {
                client: *client,
                time: *time,
                flow: *flow,
                identification: *identification,
                place: *place,
                bytes,
                last: *last,
                r: *r,
            }),
            _ => None,
        }
    }
}

/// A table that lists are run on.
#[derive(Clone, Debug, PartialEq, Eq)]
pub struct World {
    pub records: Vec<Record>,
    pub store: Vec<u8>,
}

impl World {
    /// A table of any plans and length; the store starts with bytes that are
    /// not 0.
    pub fn new(lent: &Lent) -> World {
        World {
            records: lent.plans.iter().map(|&plan| fresh(plan)).collect(),
            store: vec![0xA5; lent.store],
        }
    }

    pub fn lent(&self) -> Lent {
        Lent {
            plans: self.records.iter().map(|record| record.plan).collect(),
            store: self.store.len(),
        }
    }

    /// The table as it is, with other plans and lengths: what 20 or 32 refuses
    /// leaves live records alone, and a set-up taken makes them fresh.
    pub fn resized(&self, lent: &Lent) -> World {
        let mut other = self.clone();
        other.records.resize(lent.records(), fresh(0));
        other.store.resize(lent.store, 0xA5);
        for (record, &plan) in other.records.iter_mut().zip(&lent.plans) {
            record.plan = plan;
        }
        other
    }

    /// Runs a call on this table if it is the one lent; else a set-up that 20
    /// and 32 let pass brings another table, and other calls get a table of
    /// their own that is dropped again.
    pub fn run(&mut self, call: &Call, out: &mut [u8]) -> Answer {
        if call.lent == self.lent() {
            return call.on_table(&mut self.records, &mut self.store, out);
        }
        let mut other = self.resized(&call.lent);
        let answer = call.on_table(&mut other.records, &mut other.store, out);
        if answer == Answer::SetUp {
            *self = other;
        }
        answer
    }
}

/// Where the original is cut that a key's pieces are of, and the order in which
/// they mostly come.
#[derive(Clone, Debug)]
struct Cutting {
    cuts: Vec<usize>,
    r: usize,
    order: Vec<usize>,
}

fn cutting(random: &mut Random) -> Cutting {
    let t = random.pick(&[1, 2, 12, 40, 40, 100, PLACE - 1, PLACE]);
    let count = random.pick(&[1, 2, 3, 5, 17, PIECES - 1, PIECES, PIECES + 1]);
    cut_into(random, t, count)
}

/// About as many pieces as an assembly may have.
fn long_cutting(random: &mut Random) -> Cutting {
    let t = random.pick(&[100, 300, PLACE - 1, PLACE]);
    let count = random.pick(&[PIECES - 1, PIECES, PIECES + 1, PIECES + 1]);
    cut_into(random, t, count)
}

fn cut_into(random: &mut Random, t: usize, count: usize) -> Cutting {
    let cuts = cuts(random, t, count.min(t));
    let mut order: Vec<usize> = (0..cuts.len() - 1).collect();
    arrange(random, &mut order);
    let r = random.pick(&[0, t / 2, t]);
    Cutting { cuts, r, order }
}

/// Where an original of `t` bytes is cut into `count` pieces: both ends, and
/// what lies between, rising.
fn cuts(random: &mut Random, t: usize, count: usize) -> Vec<usize> {
    let mut cuts = vec![0, t];
    while cuts.len() <= count {
        let cut = 1 + random.below(t - 1);
        if !cuts.contains(&cut) {
            cuts.push(cut);
        }
    }
    cuts.sort_unstable();
    cuts
}

/// Puts what rises into an order: as it is, from behind, from both ends
/// inwards, or mixed.
fn arrange<T: Clone>(random: &mut Random, list: &mut [T]) {
    let count = list.len();
    match random.below(4) {
        0 => {}
        1 => list.reverse(),
        2 => {
            let rising = list.to_vec();
            for (at, item) in list.iter_mut().enumerate() {
                let from = if at % 2 == 0 {
                    at / 2
                } else {
                    count - 1 - at / 2
                };
                *item = rising[from].clone();
            }
        }
        _ => {
            for at in (1..count).rev() {
                list.swap(at, random.below(at + 1));
            }
        }
    }
}

/// How many keys there are: more than any plan allows.
const KEYS: usize = 10;

/// Keys that mostly differ in one component.
fn key(number: usize) -> (Flow, u32) {
    let mut flow = Flow {
        source: [10, 0, 0, 1],
        destination: [10, 0, 0, 2],
        source_port: 4_000,
        destination_port: 5_000,
    };
    let mut identification = 7;
    match number {
        1 => flow.source[3] = 9,
        2 => flow.destination[0] = 11,
        3 => flow.source_port = 4_001,
        4 => flow.destination_port = 4_000,
        5 => identification = u32::MAX,
        6 => identification = 7 << 24,
        7 => flow.source[0] = 11,
        8 => flow.destination[3] = 1,
        9 => (flow.source_port, flow.destination_port) = (5_000, 4_000),
        _ => {}
    }
    (flow, identification)
}

/// The byte of a key's original at a place.
fn content(number: usize, place: usize) -> u8 {
    Random::new((number * 65_536 + place) as u64).byte()
}

/// A table that 20 or 32 refuses.
fn wrong_lent(random: &mut Random, right: &Lent) -> Lent {
    let mut wrong = right.clone();
    match random.below(12) {
        0 => wrong = Lent::of(&[]),
        1 => wrong = Lent::of(&[plan(random); CLIENTS_MOST + 1]),
        2 => {
            // Too many records, one of them with a wrong plan.
            wrong.plans.resize(CLIENTS_MOST + 1, 1);
            misplan(random, &mut wrong.plans);
            wrong.store = Lent::of(&wrong.plans).store;
        }
        3 => wrong.plans.push(plan(random)),
        4 => {
            wrong.plans.pop();
        }
        5 => {
            // Another plan, whose share is not there.
            let at = random.below(right.records());
            wrong.plans[at] = wrong.plans[at] % ASSEMBLIES as u64 + 1;
        }
        6 => wrong.store -= 1,
        7 => wrong.store += random.pick(&[1, PLACE]),
        8 => wrong.store = 0,
        _ => {
            misplan(random, &mut wrong.plans);
            match random.below(3) {
                0 => wrong.store = Lent::of(&wrong.plans).store,
                1 => wrong.store += PLACE,
                _ => {}
            }
        }
    }
    debug_assert!(!wrong.passes());
    wrong
}

/// Puts a plan out of range into one of the records, now and then into all.
fn misplan(random: &mut Random, plans: &mut [u64]) {
    let wrong = wrong_plan(random);
    if random.one_in(8) {
        plans.fill(wrong);
    }
    let at = random.below(plans.len());
    plans[at] = wrong;
}

/// The next time of a client: mostly at once or soon, now and then at an
/// expiry's edge, earlier than before, or near 2^64. A greater pace means
/// fewer steps.
fn next_time(random: &mut Random, now: &mut u64, pace: usize) -> u64 {
    let step = match random.below(pace) {
        0 => LIFE - 1,
        1 => LIFE,
        2 => LIFE + 1,
        3..=5 => random.below(20_000) as u64,
        6 => return now.saturating_sub(1 + random.below(3) as u64),
        7 => {
            if random.one_in(6) {
                *now = (*now).max(u64::MAX - random.below(300_000) as u64);
            }
            0
        }
        8..=15 => random.below(50) as u64,
        _ => 0,
    };
    *now = now.saturating_add(step);
    *now
}

/// A list of calls on a table of at most `clients` clients. Every call that
/// 20 and 32 let pass gets the table of the last set-up taken.
pub fn calls(random: &mut Random, clients: usize, count: usize) -> Vec<Call> {
    let mut table = Lent::of(&plans(random, clients));
    // Of each client and of one that is none: the time, and how far it is in
    // the pieces of each key.
    let mut now = [0u64; CLIENTS_MOST + 1];
    let mut sent = [[0usize; KEYS]; CLIENTS_MOST + 1];
    // A calm list changes little, has a place for each key, and favours one
    // client and one key, so that assemblies grow to the limit.
    let calm = random.one_in(2);
    let pace = if calm { 1_000 } else { random.pick(&[50, 400]) };
    let mut cuttings: Vec<Cutting> = (0..KEYS).map(|_| cutting(random)).collect();
    if calm {
        cuttings[0] = long_cutting(random);
    }
    let mut list = vec![Call {
        lent: table.clone(),
        ask: Ask::SetUp,
    }];
    while list.len() < count {
        let mut lent = table.clone();
        if random.one_in(50) {
            lent = wrong_lent(random, &table);
        }
        let client = if random.one_in(50) {
            random.pick(&[table.records(), CLIENTS_MOST, CLIENTS_MOST + 1, usize::MAX])
        } else if calm && !random.one_in(4) {
            0
        } else {
            random.below(table.records())
        };
        let known = client.min(CLIENTS_MOST);
        let ask = match random.below(100) {
            0 if random.one_in(if calm { 8 } else { 2 }) => {
                match random.below(4) {
                    0 => lent = wrong_lent(random, &table),
                    1 if lent == table => {
                        table = Lent::of(&plans(random, clients));
                        lent = table.clone();
                    }
                    2 if lent == table => {
                        // As many bytes, in other shares.
                        table.plans.rotate_left(1);
                        lent = table.clone();
                    }
                    _ => {}
                }
                if lent == table {
                    now = [0; CLIENTS_MOST + 1];
                }
                Ask::SetUp
            }
            1..=4 => Ask::Clock {
                client,
                time: next_time(random, &mut now[known], pace),
            },
            5..=8 => Ask::Bill { client },
            _ => {
                let favoured = calm && !random.one_in(4);
                let own = table.plans.get(client).map_or(1, |&plan| plan as usize);
                let number = match calm {
                    _ if favoured => 0,
                    true => random.below(own),
                    false => random.below(KEYS),
                };
                if random.one_in(if calm { 300 } else { 20 }) {
                    cuttings[number] = if favoured {
                        long_cutting(random)
                    } else {
                        cutting(random)
                    };
                }
                let changed = random.one_in(if calm { 200 } else { 7 });
                let time = next_time(random, &mut now[known], pace);
                let cutting = &cuttings[number];
                let index = if random.one_in(8) || lent != table {
                    random.pick(&cutting.order)
                } else {
                    sent[known][number] += 1;
                    cutting.order[(sent[known][number] - 1) % cutting.order.len()]
                };
                cut_piece(random, cutting, index, number, client, time, changed)
            }
        };
        list.push(Call { lent, ask });
    }
    list
}

/// The pieces of one original, at one time and in any order, for a client with
/// a plan of 1: as many as an assembly may have, or nearly, or some.
pub fn original_calls(random: &mut Random) -> Vec<Call> {
    let t = random.pick(&[100, 300, PLACE - 1, PLACE]);
    let count = random.pick(&[2, 17, PIECES - 1, PIECES, PIECES]);
    let cutting = cut_into(random, t, count);
    let one = |&index: &usize| Call {
        lent: Lent::of(&[1]),
        ask: cut_piece(random, &cutting, index, 0, 0, 5, false),
    };
    cutting.order.iter().map(one).collect()
}

/// A piece of an original, as it should be or with one thing changed.
fn cut_piece(
    random: &mut Random,
    cutting: &Cutting,
    index: usize,
    number: usize,
    client: usize,
    time: u64,
    changed: bool,
) -> Ask {
    let (flow, identification) = key(number);
    let mut place = cutting.cuts[index];
    let mut end = cutting.cuts[index + 1];
    let mut last = index + 2 == cutting.cuts.len();
    let mut r = if last {
        cutting.r
    } else {
        random.below(PLACE + 1_000)
    };
    let mut out = PLACE;
    let mut altered = false;
    match random.below(9) {
        _ if !changed => {}
        0 => altered = true,
        1 => last = !last,
        2 => r = random.pick(&[0, end, end + 1, usize::MAX]),
        3 => place = place.saturating_sub(1),
        4 => end += 1,
        5 => {
            place = random.below(end + 2);
            end = place + 1 + random.below(4);
            last = random.one_in(3);
        }
        6 => end = place,
        7 => end = random.pick(&[PLACE, PLACE + 1]),
        _ => out = random.pick(&[0, PLACE - 1, PLACE + 5]),
    }
    let mut bytes: Vec<u8> = (place..end).map(|at| content(number, at)).collect();
    if altered {
        let at = random.below(bytes.len());
        bytes[at] ^= 1;
    }
    if random.one_in(400) {
        place = random.pick(&[usize::MAX, usize::MAX - bytes.len(), 65_536, 65_535]);
    }
    Ask::Piece {
        client,
        time,
        flow,
        identification,
        place,
        bytes,
        last,
        r,
        out,
    }
}

// ----------------------------------------------------------- forged records

/// A record that passes the record test, without a history.
pub fn sound_record(random: &mut Random) -> Record {
    let mut record = fresh(plan(random));
    record.time = match random.below(4) {
        0 => random.below(200_000) as u64,
        1 => u64::MAX - random.below(200_000) as u64,
        2 => u64::MAX,
        _ => random.draw(),
    };
    let skip = random.below(KEYS);
    let places = &mut record.assemblies[..record.plan as usize];
    // Now and then as many are live as the plan allows.
    let full = random.one_in(3);
    for (number, assembly) in places.iter_mut().enumerate() {
        if !full && random.one_in(3) {
            continue;
        }
        let (flow, identification) = key((number + skip) % KEYS);
        let age = random.pick(&[0, 1, 60_000, LIFE - 1]);
        *assembly = Assembly {
            flow,
            identification,
            opened: record.time.saturating_sub(age),
            ..Assembly::default()
        };
        sound_pieces(random, assembly);
        record.held += assembly
            .pieces
            .iter()
            .map(|s| u64::from(s.length))
            .sum::<u64>();
    }
    for figure in [
        &mut record.delivered,
        &mut record.expired,
        &mut record.clashed,
        &mut record.repeated,
        &mut record.turned_away,
    ] {
        *figure = random.pick(&[0, 0, 7, PLACE as u64, 1 << 32]);
    }
    if random.one_in(3) {
        // Offered stands at or near its limit.
        record.delivered = 0;
        let others = figures(&record);
        record.delivered = OFFERED_MOST - others - random.pick(&[0, 0, 1, 5, 100]);
    }
    record.offered = figures(&record);
    record
}

fn figures(record: &Record) -> u64 {
    record.held
        + record.delivered
        + record.expired
        + record.clashed
        + record.repeated
        + record.turned_away
}

/// Gives an assembly pieces, up to the limit, that don't overlap and are not
/// whole.
fn sound_pieces(random: &mut Random, assembly: &mut Assembly) {
    let mut slots = scattered(random);
    if random.one_in(2) {
        mark_last(random, &mut slots);
    }
    arrange(random, &mut slots);
    assembly.count = slots.len() as u64;
    assembly.pieces[..slots.len()].copy_from_slice(&slots);
}

/// Pieces that rise, some of them touching, with at least one gap before the
/// end of the furthest. Many start or end beside a multiple of 64, at the
/// front or at the limit.
fn scattered(random: &mut Random) -> Vec<Slot> {
    let count = random.pick(&[1, 2, 3, 5, 17, PIECES - 1, PIECES, PIECES]);
    let end = random.pick(&[200, 300, PLACE - 1, PLACE, PLACE]);
    let mut edges = vec![0, end];
    while edges.len() < 2 * count + 2 {
        let block = 64 * random.below(end / 64 + 1);
        let edge = match random.below(4) {
            0 => block,
            1 => block + 1,
            2 => block + 63,
            _ => random.below(end),
        };
        if edge < end && !edges.contains(&edge) {
            edges.push(edge);
        }
    }
    edges.sort_unstable();
    // Of the ranges between two edges one stays open, and then as many as are
    // too many; the last is held.
    let mut ranges: Vec<&[usize]> = edges.windows(2).collect();
    while ranges.len() > count {
        ranges.remove(random.below(ranges.len() - 1));
    }
    let one = |range: &&[usize]| Slot {
        offset: range[0] as u16,
        length: (range[1] - range[0]) as u16,
        // Ignored in a piece that is not last.
        option_start: random.pick(&[0, 0, 0, 9_999]),
        last: 0,
    };
    ranges.iter().map(one).collect()
}

/// Marks the last of pieces that rise. Any number but 0 says last.
fn mark_last(random: &mut Random, slots: &mut [Slot]) {
    if let Some(slot) = slots.last_mut() {
        slot.last = random.pick(&[1, 1, 2, 255, 256, u16::MAX]);
        let end = slot.offset + slot.length;
        slot.option_start = random.pick(&[0, end, end / 2]);
    }
}

/// The count of ways in which `damage` breaks a record.
pub const DAMAGES: usize = 33;

/// Breaks one field of a sound record, so that it fails the record test.
/// False where the record has nothing to break in this way.
pub fn damage(random: &mut Random, record: &mut Record, way: usize) -> bool {
    let live: Vec<usize> = (0..ASSEMBLIES)
        .filter(|&index| record.assemblies[index].count != 0)
        .collect();
    let unused: Vec<usize> = (0..ASSEMBLIES)
        .filter(|&index| record.assemblies[index].count == 0)
        .collect();
    // Figures that must fit each other.
    match way {
        0 => record.offered = record.offered.wrapping_add(1),
        1 => record.offered = u64::MAX,
        2 => record.held = record.held.wrapping_sub(1),
        3 => record.delivered = u64::MAX,
        4 => record.expired += 1,
        5 => record.clashed += 1,
        6 => record.repeated += 1,
        7 => record.turned_away += 1,
        8 => {
            // Fits modulo 2^64 only.
            record.delivered = u64::MAX;
            record.expired = 1 + record.expired.max(1);
            record.offered = record
                .held
                .wrapping_add(record.delivered)
                .wrapping_add(record.expired)
                .wrapping_add(record.clashed)
                .wrapping_add(record.repeated)
                .wrapping_add(record.turned_away);
        }
        9 => {
            record.delivered += OFFERED_MOST + 1;
            record.offered += OFFERED_MOST + 1;
        }
        10 => {
            record.held += 1;
            record.offered += 1;
        }
        // An unused assembly that is not fresh.
        11..=16 => {
            if unused.is_empty() {
                return false;
            }
            let assembly = &mut record.assemblies[random.pick(&unused)];
            match way {
                11 => assembly.opened = record.time.max(1),
                12 => assembly.identification = 7,
                13 => assembly.flow.destination_port = 1,
                14 => assembly.flow.source[0] = 1,
                15 => assembly.pieces[PIECES - 1].offset = 1,
                _ => assembly.pieces[0].last = random.pick(&[1, 2, 255, 256]),
            }
        }
        _ => {
            if live.is_empty() {
                return false;
            }
            let index = random.pick(&live);
            let count = record.assemblies[index].filled();
            if way == 17 {
                let Some(&other) = live.iter().find(|&&other| other != index) else {
                    return false;
                };
                record.assemblies[index].flow = record.assemblies[other].flow;
                record.assemblies[index].identification = record.assemblies[other].identification;
                return true;
            }
            // A live one past the plan, which is less now.
            if way == 31 {
                if index > 0 {
                    record.plan = 1 + random.below(index) as u64;
                }
                return index > 0;
            }
            // One that has changed its place for one past the plan.
            if way == 32 {
                let plan = record.plan as usize;
                let past = plan + random.below(ASSEMBLIES - plan);
                if past < ASSEMBLIES {
                    record.assemblies.swap(index, past);
                }
                return past < ASSEMBLIES;
            }
            let time = record.time;
            let assembly = &mut record.assemblies[index];
            let slot = random.below(count);
            match way {
                18 if time < u64::MAX => assembly.opened = time + 1,
                19 if time >= LIFE => assembly.opened = time - LIFE,
                20 => {
                    let past = PIECES as u64 + 1;
                    assembly.count = random.pick(&[past, past + 1, 255, 256, past + 255, u64::MAX]);
                }
                // One more piece that is empty, one less that is left behind.
                21 if count < PIECES => assembly.count += 1,
                22 => assembly.count -= 1,
                23 => assembly.pieces[slot].length = 0,
                24 => {
                    assembly.pieces[slot].offset = PLACE as u16 + 1 - assembly.pieces[slot].length
                }
                25 => assembly.pieces[slot].offset = u16::MAX,
                26 if count > 1 => {
                    let other = if slot == 0 { 1 } else { 0 };
                    assembly.pieces[slot].offset = assembly.pieces[other].offset;
                }
                27 => {
                    let last = assembly.pieces[..count].iter().find(|slot| slot.is_last());
                    if last.is_none() || count == 1 {
                        return false;
                    }
                    let other = assembly.pieces[..count]
                        .iter_mut()
                        .find(|slot| !slot.is_last());
                    if let Some(other) = other {
                        other.last = random.pick(&[1, 2, 255]);
                        other.option_start = 0;
                    }
                }
                28 => {
                    let last = assembly.pieces[..count]
                        .iter_mut()
                        .find(|slot| slot.is_last());
                    let Some(last) = last else { return false };
                    last.option_start = last.offset + last.length + 1;
                }
                29 if count < PIECES => {
                    let slot = &mut assembly.pieces[PIECES - 1];
                    match random.below(4) {
                        0 => slot.offset = 1,
                        1 => slot.length = 1,
                        2 => slot.option_start = 1,
                        _ => slot.last = random.pick(&[1, 2, 255, 256]),
                    }
                }
                30 => {
                    // The whole original in one last piece.
                    let before: u64 = assembly.pieces.iter().map(|s| u64::from(s.length)).sum();
                    assembly.count = 1;
                    assembly.pieces = [Slot::default(); PIECES];
                    assembly.pieces[0] = Slot {
                        offset: 0,
                        length: 1,
                        option_start: 0,
                        last: 1,
                    };
                    record.held = record.held - before + 1;
                    record.turned_away += before - 1;
                }
                _ => return false,
            }
        }
    }
    true
}

/// The pieces of an original of T bytes, in any order, with the last one
/// marked: their lengths sum to T, and they cover it.
fn cut(random: &mut Random) -> Vec<Slot> {
    let end = random.pick(&[1, 2, 8, 8, 64, 65, 300, PLACE - 1, PLACE]);
    let most = random.pick(&[5, 17, PIECES]);
    let some = 1 + random.below(most);
    let count = random.pick(&[some, some, some, PIECES]).min(end);
    let cuts = cuts(random, end, count);
    let one = |pair: &[usize]| Slot {
        offset: pair[0] as u16,
        length: (pair[1] - pair[0]) as u16,
        ..Slot::default()
    };
    let mut slots: Vec<Slot> = cuts.windows(2).map(one).collect();
    slots[count - 1].last = random.pick(&[1, 1, 2, 255, 256, u16::MAX]);
    slots[count - 1].option_start = random.below(end + 1) as u16;
    arrange(random, &mut slots);
    slots
}

/// Changes an original's pieces so that the lengths still sum to T, or
/// nearly, or leaves them. Returns how many of them are counted.
fn bend(random: &mut Random, slots: &mut Vec<Slot>) -> usize {
    let count = slots.len();
    let end: u16 = slots.iter().map(|slot| slot.length).sum();
    let others: Vec<usize> = (0..count).filter(|&at| !slots[at].is_last()).collect();
    if others.is_empty() {
        return count;
    }
    let one = random.pick(&others);
    let length = slots[one].length;
    match random.below(10) {
        // Anywhere in the original: an overlap and a gap.
        0 | 1 => slots[one].offset = random.below(usize::from(end - length) + 1) as u16,
        // A byte from one to another: a gap, and mostly an overlap.
        2 if length > 1 => {
            slots[one].length -= 1;
            slots[random.pick(&others)].length += 1;
        }
        // Past the end, where there is room: a gap and no overlap.
        3 => slots[one].offset = end.min(PLACE as u16 - length),
        // In a slot past the count.
        4 => return count - 1,
        // Covered, with a byte twice.
        5 => slots[one].length += 1,
        // A second last one.
        6 => slots[one].last = 1,
        // Sound: a byte is open, or a piece, or there is no last one.
        7 if length > 1 => slots[one].length -= 1,
        8 => {
            slots.remove(one);
            return count - 1;
        }
        9 => slots.iter_mut().for_each(|slot| slot.last = 0),
        _ => {}
    }
    count
}

/// Gives a live assembly of a sound record pieces whose lengths sum to the
/// last one's end, or nearly. The figures fit what is held then. False if none
/// is live.
pub fn summed(random: &mut Random, record: &mut Record) -> bool {
    let mut slots = cut(random);
    let count = bend(random, &mut slots);
    replace_pieces(random, record, &slots, count)
}

/// Gives a live assembly of a sound record pieces that don't overlap, or of
/// which one was stretched, moved or repeated, mostly by a byte. One may be
/// marked last, and others may end past it. The figures fit what is held then.
/// False if none is live.
pub fn crossed(random: &mut Random, record: &mut Record) -> bool {
    let mut slots = scattered(random);
    if random.one_in(3) {
        mark_last(random, &mut slots);
    }
    if !random.one_in(4) {
        cross(random, &mut slots);
    }
    if random.one_in(12) {
        let at = random.below(slots.len());
        slots[at].last = 1;
        slots[at].option_start = 0;
    }
    arrange(random, &mut slots);
    if random.one_in(3) {
        // Two of them change places, which may be all that does not rise.
        let (one, other) = (random.below(slots.len()), random.below(slots.len()));
        slots.swap(one, other);
    }
    let count = slots.len();
    replace_pieces(random, record, &slots, count)
}

/// Changes one of pieces that rise: a byte more in front or behind, a
/// neighbour's first or last byte, a range that is there already, or all from
/// one to another.
fn cross(random: &mut Random, slots: &mut [Slot]) {
    let at = random.below(slots.len());
    let other = slots[random.below(slots.len())];
    let behind = slots.get(at + 1).copied();
    let slot = &mut slots[at];
    match random.below(6) {
        0 if slot.offset > 0 => {
            slot.offset -= 1;
            slot.length += 1;
        }
        1 if usize::from(slot.offset + slot.length) < PLACE => slot.length += 1,
        // Up to the first byte of what is next, that one included.
        2 => {
            if let Some(behind) = behind {
                slot.length = behind.offset + 1 - slot.offset;
            }
        }
        // The last byte of another, by itself.
        3 => {
            slot.offset = other.offset + other.length - 1;
            slot.length = 1;
        }
        // The first byte of another, by itself.
        4 => {
            slot.offset = other.offset;
            slot.length = 1;
        }
        _ => {
            slot.offset = other.offset;
            slot.length = other.length;
        }
    }
}

/// Puts other pieces in the place of a live assembly's, of which `count` are
/// counted. The figures fit what is held then. False if none is live.
fn replace_pieces(random: &mut Random, record: &mut Record, slots: &[Slot], count: usize) -> bool {
    let mut live: Vec<_> = record.assemblies.iter_mut().collect();
    live.retain(|assembly| assembly.count != 0);
    if live.is_empty() {
        return false;
    }
    let at = random.below(live.len());
    let assembly = &mut live[at];
    assembly.count = count as u64;
    assembly.pieces = [Slot::default(); PIECES];
    assembly.pieces[..slots.len()].copy_from_slice(slots);
    let held = record.assemblies.iter();
    let held = held.flat_map(|assembly| &assembly.pieces[..assembly.filled()]);
    record.held = held.map(|slot| u64::from(slot.length)).sum();
    // Offered may stand at its limit.
    record.delivered -= record.delivered.min(1 << 20);
    record.offered = figures(record);
    true
}

/// A forged table: mostly sound records, a few with one damaged field or a
/// list of pieces that may overlap, and a store of any bytes.
pub fn forged_world(random: &mut Random, clients: usize) -> World {
    let records: Vec<Record> = (0..clients)
        .map(|_| {
            let mut record = sound_record(random);
            match random.below(8) {
                0 | 1 => {
                    let way = random.below(DAMAGES);
                    damage(random, &mut record, way);
                }
                2 => {
                    crossed(random, &mut record);
                }
                _ => {}
            }
            record
        })
        .collect();
    let store = random.bytes(store_length(&records));
    World { records, store }
}

/// Breaks a table so that 20 or 32 refuses it: a byte of store too many or too
/// few, or a plan out of range.
pub fn misfit(random: &mut Random, world: &mut World) {
    let mut lent = world.lent();
    match random.below(4) {
        0 => lent.store -= 1,
        1 => lent.store += 1,
        2 => misplan(random, &mut lent.plans),
        _ => {
            misplan(random, &mut lent.plans);
            lent.store = Lent::of(&lent.plans).store;
        }
    }
    *world = world.resized(&lent);
}

/// A call on a forged table that looks at what its client's record holds.
pub fn call_on(random: &mut Random, world: &World) -> Call {
    let lent = world.lent();
    let client = random.below(world.records.len());
    let record = &world.records[client];
    let mut now = record.time;
    let time = next_time(random, &mut now, 40);
    let ask = match random.below(10) {
        0 => Ask::Clock { client, time },
        1 => Ask::Bill { client },
        2 | 3 => {
            let cutting = cutting(random);
            let index = random.pick(&cutting.order);
            let number = random.below(KEYS);
            cut_piece(random, &cutting, index, number, client, time, true)
        }
        _ => near_piece(random, world, client, time),
    };
    Call { lent, ask }
}

/// A piece at or beside one that is held.
fn near_piece(random: &mut Random, world: &World, client: usize, time: u64) -> Ask {
    // Mostly within the plan.
    let plan = world.records[client].plan.min(ASSEMBLIES as u64) as usize;
    let places = if random.one_in(8) { ASSEMBLIES } else { plan };
    let index = random.below(places);
    let assembly = &world.records[client].assemblies[index];
    let count = assembly.filled();
    let slot = assembly.pieces[random.below(count)];
    let mut place = usize::from(slot.offset).min(PLACE - 1);
    let mut end = (place + usize::from(slot.length).max(1)).min(PLACE);
    let mut last = slot.is_last();
    let mut r = usize::from(slot.option_start);
    match random.below(8) {
        0 => {
            // The gap before it.
            end = place.max(1);
            place = end - 1;
            last = false;
        }
        1 => {
            place = end.min(PLACE - 1);
            end = place + 1;
            last = random.one_in(2);
            r = 0;
        }
        2 => last = !last,
        3 => r ^= 1,
        4 => end = (end + 1).min(PLACE),
        _ => {}
    }
    let start = share_start(&world.records, client) + index * PLACE;
    // A place past the plan may lie past the store.
    let mut bytes = match world.store.get(start + place..start + end) {
        Some(held) => held.to_vec(),
        None => random.bytes(end - place),
    };
    if random.one_in(8) {
        bytes[0] ^= 0x10;
    }
    Ask::Piece {
        client,
        time,
        flow: assembly.flow,
        identification: assembly.identification,
        place,
        bytes,
        last,
        r,
        out: PLACE,
    }
}

/// The book that stands where a sound record and its store stand.
pub fn book_of(world: &World, client: usize) -> Book {
    let record = &world.records[client];
    let mut book = Book::new(client, record.plan);
    book.time = record.time;
    book.offered = record.offered;
    book.delivered = record.delivered;
    book.expired = record.expired;
    book.clashed = record.clashed;
    book.repeated = record.repeated;
    book.turned_away = record.turned_away;
    for (index, assembly) in record.assemblies.iter().enumerate() {
        let start = share_start(&world.records, client) + index * PLACE;
        for slot in &assembly.pieces[..assembly.filled()] {
            let from = start + usize::from(slot.offset);
            book.open.push(OpenPiece {
                key: (assembly.flow, assembly.identification),
                time: assembly.opened,
                place: usize::from(slot.offset),
                bytes: world.store[from..from + usize::from(slot.length)].to_vec(),
                last: slot.is_last(),
                r: usize::from(slot.option_start),
            });
        }
    }
    book
}

// ----------------------------------------------------------------- coverage

/// How often each verdict, refusal and answer came, by name.
pub type Coverage = BTreeMap<String, u64>;

fn count(coverage: &mut Coverage, name: String) {
    *coverage.entry(name).or_insert(0) += 1;
}

fn count_result(coverage: &mut Coverage, call: &str, verdict: &Verdict, apc: Apc) {
    count(coverage, format!("{call}: verdict {}", verdict.word()));
    let apc = match apc {
        Apc::None => "none",
        Apc::Right => "right",
        Apc::Wrong => "wrong",
    };
    count(coverage, format!("{call}: apc {apc}"));
}

fn count_answer(coverage: &mut Coverage, call: &Call, answer: &Answer) {
    let name = match answer {
        Answer::Refused(number) => format!("refused {number}"),
        Answer::Stored => "stored".into(),
        Answer::Repeated => "repeated".into(),
        Answer::Clash => "clash".into(),
        Answer::Delivered { .. } => "delivered".into(),
        Answer::SetUp | Answer::Clocked | Answer::Billed(_) => "taken".into(),
    };
    count(coverage, format!("{}: {name}", call.word()));
}

/// The plan at which a new key was turned away.
pub fn full_plan(call: &Call, answer: &Answer) -> Option<String> {
    let plan = call.lent.plans.get(call.client()?)?;
    (*answer == Answer::Refused(29)).then(|| format!("a key too many for a plan of {plan}"))
}

/// How many pieces the assembly holds that a piece is for, at the time of its
/// call.
pub fn held_before(world: &World, piece: &PieceCall) -> usize {
    let record = world.records.get(piece.client);
    let held = record.and_then(|record| {
        let mut live = record.assemblies.iter().filter(|a| a.count != 0);
        live.find(|a| (a.flow, a.identification) == (piece.flow, piece.identification))
    });
    match held {
        Some(assembly) if piece.time.saturating_sub(assembly.opened) < LIFE => assembly.filled(),
        _ => 0,
    }
}

/// What an answer to a piece has to do with the limits: names of
/// [`LIMIT_SORTS`].
pub fn limit_sorts(held: usize, answer: &Answer) -> Vec<&'static str> {
    let mut names = Vec::new();
    match answer {
        Answer::Stored if held + 1 == PIECES => names.push("stored in the last slot"),
        Answer::Stored if held >= 16 => names.push("stored behind 16 or more"),
        Answer::Delivered { .. } if held + 1 == PIECES => names.push("delivered from all slots"),
        Answer::Delivered { .. } if held >= 16 => names.push("delivered from 17 or more"),
        _ => {}
    }
    if matches!(answer, Answer::Delivered { t: PLACE, .. }) {
        names.push("delivered, the longest");
    }
    names
}

/// Every name that [`limit_sorts`] has.
pub const LIMIT_SORTS: [&str; 5] = [
    "stored in the last slot",
    "stored behind 16 or more",
    "delivered from all slots",
    "delivered from 17 or more",
    "delivered, the longest",
];

/// How a list of pieces is made up: how many, in which order, what overlaps,
/// and where the last one stands. Names of [`LIST_SORTS`].
pub fn list_sorts(pieces: &[Slot]) -> Vec<&'static str> {
    let ranges: Vec<(usize, usize)> = pieces
        .iter()
        .map(|piece| (usize::from(piece.offset), usize::from(piece.length)))
        .map(|(start, length)| (start, start + length))
        .collect();
    let mut names = vec![match pieces.len() {
        0..=1 => "1 piece",
        2..=16 => "2 to 16 pieces",
        PIECES.. => "all slots",
        _ => "17 pieces or more",
    }];
    names.push(order_of(&ranges));
    names.extend(overlaps(&ranges));
    let lasts = pieces.iter().enumerate().filter(|(_, p)| p.is_last());
    let lasts: Vec<usize> = lasts.map(|(at, _)| at).collect();
    names.push(match lasts[..] {
        [] => "no last one",
        [at] if ranges.iter().any(|range| range.1 > ranges[at].1) => "one past the last one's end",
        [0] => "the last one came first",
        [at] if at + 1 == pieces.len() => "the last one came last",
        [_] => "the last one came between",
        _ => "two last ones",
    });
    names
}

/// Rising: each starts where the one before it ends, or behind that.
fn order_of(ranges: &[(usize, usize)]) -> &'static str {
    if ranges.windows(2).all(|two| two[0].1 <= two[1].0) {
        "rising"
    } else if ranges.windows(2).all(|two| two[1].1 <= two[0].0) {
        "falling"
    } else {
        "neither rising nor falling"
    }
}

/// What two pieces have in common.
fn overlaps(ranges: &[(usize, usize)]) -> Vec<&'static str> {
    let mut names = Vec::new();
    let mut shared = Vec::new();
    for (at, one) in ranges.iter().enumerate() {
        for (before, other) in ranges[..at].iter().enumerate() {
            let (start, end) = (one.0.max(other.0), one.1.min(other.1));
            if start < end {
                shared.push((start, end - start, at - before));
            }
            if one == other && start < end {
                names.push("a range twice");
            }
        }
    }
    match shared[..] {
        [] => names.push("no overlap"),
        [(place, 1, _)] => {
            names.push("one byte twice");
            match place % 64 {
                0 => names.push("the first byte of 64 twice"),
                63 => names.push("the last byte of 64 twice"),
                _ => {}
            }
        }
        _ => names.push("more bytes twice"),
    }
    if !shared.is_empty() && shared.iter().all(|&(_, _, apart)| apart > 1) {
        names.push("overlaps only of others than neighbours");
    }
    names.dedup();
    names
}

/// Every name that [`list_sorts`] has.
pub const LIST_SORTS: [&str; 20] = [
    "1 piece",
    "2 to 16 pieces",
    "17 pieces or more",
    "all slots",
    "rising",
    "falling",
    "neither rising nor falling",
    "no overlap",
    "one byte twice",
    "the first byte of 64 twice",
    "the last byte of 64 twice",
    "more bytes twice",
    "a range twice",
    "overlaps only of others than neighbours",
    "no last one",
    "the last one came first",
    "the last one came between",
    "the last one came last",
    "two last ones",
    "one past the last one's end",
];

/// Tail or padded, and where, if FRAG is the first option that is no NOP.
pub fn fault_led_by_frag(payload: &[u8], reading: &Reading) -> Option<&'static str> {
    let from = reading.user.to + reading.user.to % 2 + 2;
    let list = payload.get(from..).unwrap_or(&[]);
    let nops = list.iter().take_while(|byte| **byte == 1).count();
    if list.get(nops) != Some(&3) {
        return None;
    }
    match reading.verdict {
        Verdict::Tail(_) => Some("tail led by FRAG"),
        Verdict::Padded(_) if nops > 7 => Some("padded before FRAG"),
        Verdict::Padded(_) => Some("padded behind FRAG"),
        _ => None,
    }
}

/// Behind what a fault of the walk was met, and at which parity of L (of 8 + r in
/// an original): names of [`fault_names`]. `user_end` is the index where the
/// area starts, `origin` the offset of the first byte: 0, or 8 of an original.
pub fn fault_sorts(bytes: &[u8], user_end: usize, origin: usize, verdict: &Verdict) -> Vec<String> {
    let Some(PacketOffset(offset)) = verdict.fault_at() else {
        return Vec::new();
    };
    let (list, at) = (user_end + user_end % 2 + 2, offset - origin);
    let before = &bytes[list..at];
    let nops = before.iter().take_while(|byte| **byte == 1).count();
    let behind_frag = origin == 0 && before.get(nops) == Some(&3);
    let place = match verdict {
        Verdict::Tail(_) if at == end_of_list(bytes, list, at) + 1 => "right behind EOL",
        Verdict::Tail(_) => "behind zeros",
        Verdict::Padded(_) if nops == before.len() => "at the front",
        Verdict::Padded(_) => "behind an option",
        _ if behind_frag => "in a fragment's list",
        _ if before.is_empty() => "at the front",
        _ if nops == before.len() => "behind NOPs",
        _ => "behind an option",
    };
    let word = match verdict {
        Verdict::Malformed(_) if bytes[at] == 3 => "malformed FRAG",
        other => other.word(),
    };
    let parity = if user_end % 2 == 1 { "odd" } else { "even" };
    vec![format!("{word} {place}"), format!("{word} at {parity} L")]
}

/// The index of the EOL that stands before `to`, in a list from `from` on.
fn end_of_list(bytes: &[u8], from: usize, to: usize) -> usize {
    let mut rest = Range { from, to };
    while let Some(found) = next_option(bytes, true, rest) {
        rest.from = found.body.to;
    }
    let nops = bytes[rest.from..to].iter().take_while(|byte| **byte == 1);
    rest.from + nops.count()
}

/// Every name that [`fault_sorts`] has for packets, or for originals.
pub fn fault_names(originals: bool) -> Vec<String> {
    let anywhere = ["at the front", "behind NOPs", "behind an option"];
    let mut sorts = vec![
        ("malformed", &anywhere[..]),
        ("malformed FRAG", &anywhere),
        ("crowded", &["behind an option"]),
        ("tail", &["right behind EOL", "behind zeros"]),
        ("padded", &["at the front", "behind an option"]),
    ];
    if !originals {
        sorts.push(("unsafe", &anywhere));
        sorts.push(("fragdata", &["at the front", "behind NOPs"]));
    }
    let mut names = Vec::new();
    for (word, places) in sorts {
        let places = places.iter().chain(&["at even L", "at odd L"]);
        names.extend(places.map(|place| format!("{word} {place}")));
    }
    if !originals {
        let words = ["malformed", "malformed FRAG", "unsafe", "crowded"];
        names.extend(words.map(|word| format!("{word} in a fragment's list")));
    }
    names
}

/// Counts a reading.
fn count_reading(coverage: &mut Coverage, payload: &[u8], result: &Result<Reading, u32>) {
    match result {
        Err(number) => count(coverage, format!("read: refused {number}")),
        Ok(reading) => {
            count_result(coverage, "read", &reading.verdict, reading.apc);
            for name in fault_sorts(payload, reading.user.to, 0, &reading.verdict) {
                count(coverage, format!("read: {name}"));
            }
            if let Some(word) = fault_led_by_frag(payload, reading) {
                count(coverage, format!("read: {word}"));
            }
        }
    }
}

/// Counts a rereading.
fn count_rereading(coverage: &mut Coverage, original: &[u8], result: &Result<Rereading, u32>) {
    match result {
        Err(number) => count(coverage, format!("reread: refused {number}")),
        Ok(reading) => {
            count_result(coverage, "reread", &reading.verdict, reading.apc);
            for name in fault_sorts(original, reading.user.to, 8, &reading.verdict) {
                count(coverage, format!("reread: {name}"));
            }
        }
    }
}

/// Runs `rounds` inputs of each sort and counts what came of them.
pub fn coverage(seed: u64, rounds: usize) -> Coverage {
    let mut random = Random::new(seed);
    let mut seen = Coverage::new();
    for _ in 0..rounds {
        let Datagram {
            source,
            destination,
            payload,
        } = datagram(&mut random);
        let (whole, r) = original(&mut random);
        for strictness in [Strictness::Plain, Strictness::Strict] {
            let result = read(&payload, source, destination, strictness);
            count_reading(&mut seen, &payload, &result);
            if let Ok(reading) = result {
                let mut buffer = vec![0; random.below(200)];
                match list_options(&payload, &reading, &mut buffer) {
                    Ok(_) => count(&mut seen, "list: taken".into()),
                    Err(number) => count(&mut seen, format!("list: refused {number}")),
                }
            }
            let result = reread(&whole, r, strictness);
            count_rereading(&mut seen, &whole, &result);
            if let Ok(reading) = result {
                let mut buffer = vec![0; random.below(200)];
                match list_reread(&whole, &reading, &mut buffer) {
                    Ok(_) => count(&mut seen, "list reread: taken".into()),
                    Err(number) => count(&mut seen, format!("list reread: refused {number}")),
                }
            }
        }
        let writing = writing(&mut random);
        match writing.run(&mut vec![0; writing.buffer]) {
            Ok(_) => count(&mut seen, "write: taken".into()),
            Err(number) => count(&mut seen, format!("write: refused {number}")),
        }
    }
    for round in 0..rounds.div_ceil(100) {
        let clients = if round % 2 == 0 { 1 } else { CLIENTS_MOST };
        let mut world = World::new(&Lent::of(&[1]));
        for call in calls(&mut random, clients, 250) {
            let mut out = vec![0; call.out_length()];
            let held = call.piece_call().map(|piece| held_before(&world, &piece));
            let answer = world.run(&call, &mut out);
            count_answer(&mut seen, &call, &answer);
            if let Some(name) = call.lent.fault(call.client()) {
                count(&mut seen, format!("table: {name}"));
            }
            if let Some(name) = full_plan(&call, &answer) {
                count(&mut seen, format!("piece: {name}"));
            }
            for name in limit_sorts(held.unwrap_or(0), &answer) {
                count(&mut seen, format!("piece: {name}"));
            }
        }
        let mut world = forged_world(&mut random, 1 + round % 3);
        for record in &world.records {
            for assembly in record.assemblies.iter().filter(|a| a.count != 0) {
                for name in list_sorts(&assembly.pieces[..assembly.filled()]) {
                    count(&mut seen, format!("forged list: {name}"));
                }
            }
            let word = if record_test(record) {
                "sound"
            } else {
                "damaged"
            };
            count(&mut seen, format!("forged record: {word}"));
        }
        if round % 8 == 7 {
            misfit(&mut random, &mut world);
        }
        for _ in 0..20 {
            let call = call_on(&mut random, &world);
            let mut out = vec![0; call.out_length()];
            let answer = world.run(&call, &mut out);
            count_answer(&mut seen, &call, &answer);
        }
    }
    seen
}

/// Every name that `coverage` should reach.
pub fn wanted() -> Vec<String> {
    let mut names = Vec::new();
    let mut add = |call: &str, results: &[&str]| {
        names.extend(results.iter().map(|result| format!("{call}: {result}")));
    };
    add(
        "read",
        &["refused 1", "refused 2", "refused 3", "refused 4"],
    );
    add("read", &["apc none", "apc right", "apc wrong"]);
    add("reread", &["apc none", "apc right", "apc wrong"]);
    add("reread", &["refused 2", "refused 6", "refused 5"]);
    for word in [
        "none",
        "short",
        "pad",
        "badsum",
        "malformed",
        "crowded",
        "tail",
        "padded",
        "read",
    ] {
        add("read", &[&format!("verdict {word}")]);
        add("reread", &[&format!("verdict {word}")]);
    }
    for word in ["unsummed", "unsafe", "fragdata", "piece"] {
        add("read", &[&format!("verdict {word}")]);
    }
    add("read", &["tail led by FRAG"]);
    add("read", &["padded before FRAG", "padded behind FRAG"]);
    for name in fault_names(false) {
        add("read", &[&name]);
    }
    for name in fault_names(true) {
        add("reread", &[&name]);
    }
    add("list", &["taken", "refused 8"]);
    add("list reread", &["taken", "refused 8"]);
    add("write", &["taken", "refused 7", "refused 8", "refused 9"]);
    add("set up", &["taken", "refused 20", "refused 32"]);
    let refused = ["refused 20", "refused 32", "refused 21", "refused 22"];
    add("bill", &["taken"]);
    add("bill", &refused);
    add("clock", &["taken", "refused 27"]);
    add("clock", &refused);
    add("piece", &["stored", "repeated", "clash", "delivered"]);
    for number in (20..=30).chain([32]) {
        add("piece", &[&format!("refused {number}")]);
    }
    for plan in 1..=ASSEMBLIES {
        let name = format!("a key too many for a plan of {plan}");
        add("piece", &[&name]);
    }
    add("table", &TABLE_FAULTS);
    add("piece", &LIMIT_SORTS);
    add("forged record", &["sound", "damaged"]);
    add("forged list", &LIST_SORTS);
    names
}
