//! Reads datagrams, puts a fragmented one together, and shows an account. Options
//! and faults are shown with their offsets, as in a packet trace.

use wuraketozo::{
    entries, list, relist, reread, rewalk, store_length, walk, write, Answer, Apc, Client, Entry,
    Flow, Located, Plan, Received, Refusal, Strictness, Table, Value, Verdict, ORIGINAL_LIMIT,
};

const GAUGE: Flow = Flow {
    source: [192, 0, 2, 1],
    destination: [198, 51, 100, 7],
    source_port: 4_660,
    destination_port: 53,
};

/// More than seven NOPs in a row would be the verdict `Padded`.
const STRICTNESS: Strictness = Strictness::Strict;

/// An option as the list has it, and where it stands.
fn show_option(option: &Entry, at: &Located) {
    let offset = at.offset;
    match option.value {
        Value::None => println!("  kind {} at {offset}", option.kind),
        Value::One(a) => println!("  kind {} {a} at {offset}", option.kind),
        Value::Two(a, b) => println!("  kind {} {a} {b} at {offset}", option.kind),
        Value::Body(body) => println!("  kind {} {body:02x?} at {offset}", option.kind),
    }
}

/// Shows the user data of what was read, and the options of the list.
fn show<'a>(
    user: &[u8],
    verdict: &Verdict,
    apc: Apc,
    list: &[u8],
    walk: impl Iterator<Item = Located<'a>>,
) {
    let user = String::from_utf8_lossy(user);
    match verdict.fault_at() {
        Some(at) => println!("\"{user}\", verdict {} at {at}", verdict.word()),
        None => println!("\"{user}\", verdict {}, APC {apc:?}", verdict.word()),
    }
    for (option, at) in entries(list).zip(walk) {
        show_option(&option, &at);
    }
}

/// A fragment's payload without checksums, which IPv4 allows.
fn fragment(identification: u8, place: u16, bytes: &[u8], option_start: Option<u16>) -> Vec<u8> {
    let mut payload = vec![0x12, 0x34, 0, 53, 0, 8, 0, 0, 0, 0];
    let length: u8 = if option_start.is_some() { 12 } else { 10 };
    // FRAG: kind, length, where the bytes start, identification, offset.
    payload.extend([3, length, 0, 10 + length, 0, 0, 0, identification]);
    payload.extend((8 + place).to_be_bytes());
    if let Some(start) = option_start {
        payload.extend((8 + start).to_be_bytes());
    }
    payload.extend(bytes);
    payload
}

/// A datagram without checksums whose REQ is cut short.
fn faulty() -> Vec<u8> {
    let mut payload = vec![0x12, 0x34, 0, 53, 0, 20, 0, 0];
    payload.extend(b"level 412 cm");
    payload.extend([0, 0, 1, 6, 6, 0, 0]);
    payload
}

fn main() -> Result<(), Refusal> {
    // The first client may have eight originals under way at once, the other one.
    let mut records = [Plan::LARGEST, Plan::SMALLEST].map(Client::new);
    let mut store = vec![0; store_length(&records)];
    let mut out = vec![0; ORIGINAL_LIMIT];
    let mut table = Table::new(&mut records, &mut store);
    table.reset()?;

    // A datagram with an APC and a REQ with token 300, one with a fault, then a
    // fragmented original, its last fragment first: 12 bytes of data, then its
    // options. A fragment of another original comes in between: the plan has no
    // place for it.
    let mut whole = [0; 64];
    let length = write(&GAUGE, b"level 412 cm", &[2, 2, 6, 0xAC, 2], 0, &mut whole)?;
    let arrivals = [
        whole[..length].to_vec(),
        faulty(),
        fragment(7, 6, b"413 cm\0\0\x06\x06\0\0\x01\x2d", Some(12)),
        fragment(8, 0, b"next: ", None),
        fragment(7, 0, b"level ", None),
    ];
    let mut buffer = [0; 256];
    for (time, payload) in arrivals.iter().enumerate() {
        let time = time as u64;
        let (source, destination) = (GAUGE.source, GAUGE.destination);
        match table.receive(1, time, source, destination, STRICTNESS, payload, &mut out) {
            Received::Unread(refusal) => println!("{refusal}"),
            Received::Datagram(reading) => {
                let listing = list(payload, &reading, &mut buffer)?;
                let user = reading.user_data(payload);
                let listed = &buffer[..listing.size];
                let walk = walk(payload, &reading);
                show(user, &reading.verdict, reading.apc, listed, walk);
            }
            Received::Fragment(Ok(Answer::Delivered {
                length,
                option_start,
            })) => {
                let original = &out[..length];
                let rereading = reread(original, option_start, STRICTNESS)?;
                let listing = relist(original, &rereading, &mut buffer)?;
                let user = rereading.user_data(original);
                let listed = &buffer[..listing.size];
                let walk = rewalk(original, &rereading);
                show(user, &rereading.verdict, rereading.apc, listed, walk);
            }
            Received::Fragment(other) => println!("fragment: {other:?}"),
        }
    }
    println!("{:?}", table.account(1)?);
    Ok(())
}
