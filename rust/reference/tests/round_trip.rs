//! The writer, the reader and the listing against each other; dockets.

use reference::generate::{bad_docket, datagram, docket, original, writing, Random};
use reference::*;

#[test]
fn writer_reader_listing() {
    let mut random = Random::new(4);
    let mut taken = 0;
    for _ in 0..40_000 {
        let input = writing(&mut random);
        let mut buffer = vec![0xEE; input.buffer];
        let length = match input.run(&mut buffer) {
            Ok(length) => length,
            Err(number) => {
                assert!(buffer.iter().all(|&byte| byte == 0xEE));
                // 8 comes last: a docket refused is refused in any buffer.
                match decode(&input.docket) {
                    Ok(_) => assert_eq!(number, 8),
                    Err(of_docket) => assert_eq!(number, of_docket),
                }
                continue;
            }
        };
        taken += 1;
        let options = decode(&input.docket).unwrap();
        assert!(buffer[length..].iter().all(|&byte| byte == 0xEE));
        let payload = &buffer[..length];
        assert_eq!(payload[0..2], input.source_port.to_be_bytes());
        assert_eq!(payload[2..4], input.destination_port.to_be_bytes());
        assert_ne!(payload[6..8], [0, 0]);
        let [reading, strict] = [Strictness::Plain, Strictness::Strict]
            .map(|strictness| read(payload, input.source, input.destination, strictness).unwrap());
        assert_eq!(strict, reading);
        assert_eq!(reading.verdict, Verdict::Read);
        assert_eq!(payload[8..reading.user.to], input.user);
        assert_eq!(reading.count, options.len());
        assert_eq!(reading.fill, usize::from(input.fill));
        let summed = options.iter().any(|option| option.kind == 2);
        let apc = if summed { Apc::Right } else { Apc::None };
        assert_eq!(reading.apc, apc);
        // The listing, also into a buffer one byte too small.
        let needed = input.docket.len();
        let mut listed = vec![0xEE; needed + 2];
        let listing = list_options(payload, &reading, &mut listed).unwrap();
        assert_eq!((listing.length, listing.fill), (needed, reading.fill));
        assert_eq!(listed[..needed], input.docket);
        assert_eq!(listed[needed..], [0xEE; 2]);
        let mut listed = vec![0xEE; needed - 1];
        assert_eq!(list_options(payload, &reading, &mut listed), Err(8));
        assert!(listed.iter().all(|&byte| byte == 0xEE));
    }
    assert!(taken > 10_000);
}

/// 8's exact cause: the payload over 65,515 or over the buffer.
#[test]
fn writer_room() {
    let mut buffer = vec![0xEE; 70_000];
    let mut write = |user: usize, fill: u8, room: usize| {
        let user = vec![3; user];
        let docket = [2, 6, 0, 9, 1, 7];
        write(
            [1; 4],
            [2; 4],
            3,
            4,
            &user,
            &docket,
            fill,
            &mut buffer[..room],
        )
    };
    // 8 + 2 + 6 + 3 bytes beside the user data, one more at an odd length.
    assert_eq!(write(0, 0, 19), Ok(19));
    assert_eq!(write(0, 0, 18), Err(8));
    assert_eq!(write(1, 0, 21), Ok(21));
    assert_eq!(write(1, 0, 20), Err(8));
    assert_eq!(write(0, 255, 274), Ok(274));
    assert_eq!(write(65_496, 0, 70_000), Ok(65_515));
    assert_eq!(write(65_496, 1, 70_000), Err(8));
    assert_eq!(write(65_495, 0, 70_000), Ok(65_515));
    assert_eq!(write(65_497, 0, 70_000), Err(8));
    assert_eq!(write(70_000, 0, 70_000), Err(8));
    assert_eq!(write(0, 0, 0), Err(8));
}

#[test]
fn docket_refusals() {
    let refusal = |docket: &[u8]| decode(docket).map(|options| options.len());
    assert_eq!(refusal(&[]), Err(7));
    assert_eq!(refusal(&[0]), Ok(0));
    assert_eq!(refusal(&[0, 0]), Err(7));
    assert_eq!(refusal(&[0x80, 0]), Err(7));
    assert_eq!(refusal(&[33]), Err(7));
    assert_eq!(refusal(&[1]), Err(7));
    assert_eq!(refusal(&[2, 6, 0, 3]), Err(9));
    assert_eq!(refusal(&[2, 6, 0x80, 0, 3]), Err(7));
    assert_eq!(refusal(&[1, 0x83, 0]), Err(7));
    assert_eq!(refusal(&[1, 3, 0xFF, 0xFF]), Err(9));
    assert_eq!(refusal(&[1, 0x80, 2]), Err(7)); // kind 256
    for kind in 0..=255u8 {
        let expected = match kind {
            0 | 1 | 3 | 192..=255 => Err(9),
            2 => Ok(1),
            _ => Err(7), // a field is missing
        };
        let number = if kind < 128 {
            vec![1, kind]
        } else {
            vec![1, kind, 1]
        };
        assert_eq!(refusal(&number), expected, "{kind}");
    }
    let two_to_the_64 = [0x80, 0x80, 0x80, 0x80, 0x80, 0x80, 0x80, 0x80, 0x80, 2];
    assert_eq!(refusal(&two_to_the_64), Err(7));
    assert_eq!(refusal(&[1, 0x86, 0x80, 0x80, 0x80, 0x10, 0]), Err(7));
    assert_eq!(refusal(&[1, 6, 0xFF, 0xFF, 0xFF, 0xFF, 0x0F]), Ok(1));
    assert_eq!(refusal(&[1, 6, 0x80, 0x80, 0x80, 0x80, 0x10]), Err(7));
    assert_eq!(refusal(&[1, 4, 0xFF, 0xFF, 3]), Ok(1));
    assert_eq!(refusal(&[1, 4, 0x80, 0x80, 4]), Err(7));
    assert_eq!(refusal(&[1, 5, 0, 0xFF, 1]), Ok(1));
    assert_eq!(refusal(&[1, 5, 0, 0x80, 2]), Err(7));
    assert_eq!(refusal(&[1, 9, 2, 7]), Err(7));
    assert_eq!(refusal(&[1, 9, 1, 7]), Ok(1));
    let mut long = vec![1, 9, 0xFB, 0xFF, 3];
    long.resize(5 + 65_531, 0);
    assert_eq!(refusal(&long), Ok(1));
    long[2] = 0xFC;
    long.push(0);
    assert_eq!(refusal(&long), Err(7));
    assert_eq!(refusal(&[&[32][..], &[2; 32]].concat()), Ok(32));
}

#[test]
fn encode_is_the_inverse_of_decode() {
    let mut random = Random::new(5);
    for round in 0..60_000 {
        let docket = if round % 2 == 0 {
            docket(&mut random)
        } else {
            bad_docket(&mut random)
        };
        match decode(&docket) {
            Ok(options) => assert_eq!(encode(&options), docket),
            Err(number) => assert!(number == 7 || number == 9),
        }
    }
}

/// The extended form only where the short would pass 254.
#[test]
fn body_forms() {
    for length in [0usize, 1, 251, 252, 253, 254, 255, 1_000, 65_000] {
        let body = vec![5; length];
        let option = ReadOption {
            kind: 191,
            fields: Fields::Body(&body),
        };
        let docket = encode(&[option]);
        let mut buffer = vec![0; 65_515];
        let written = write([1; 4], [2; 4], 3, 4, &[], &docket, 0, &mut buffer).unwrap();
        let list = &buffer[10..written];
        if length <= 252 {
            assert_eq!(list[..2], [191, length as u8 + 2]);
            assert_eq!(list[2..], body);
        } else {
            let whole = ((length + 4) as u16).to_be_bytes();
            assert_eq!(list[..4], [191, 255, whole[0], whole[1]]);
            assert_eq!(list[4..], body);
        }
    }
}

/// A listing can be decoded and names the options of the reading; without
/// the verdict "read" it is one 0 byte beside fill 0.
#[test]
fn listings_of_any_reading() {
    let mut random = Random::new(6);
    let mut buffer = vec![0; 70_000];
    for _ in 0..60_000 {
        let input = datagram(&mut random);
        let strictness = random.pick(&[Strictness::Plain, Strictness::Strict]);
        if let Ok(reading) = read(&input.payload, input.source, input.destination, strictness) {
            let listing = list_options(&input.payload, &reading, &mut buffer).unwrap();
            let options = reading.options(&input.payload);
            let options = options.map(|located| located.option).collect();
            check(&buffer[..listing.length], options);
            assert_eq!(listing.fill, reading.fill);
            if reading.verdict != Verdict::Read {
                assert_eq!((&buffer[..listing.length], listing.fill), (&[0][..], 0));
                assert_eq!(list_options(&input.payload, &reading, &mut []), Err(8));
            }
        }
        let (whole, r) = original(&mut random);
        if let Ok(reading) = reread(&whole, r, strictness) {
            let listing = list_reread(&whole, &reading, &mut buffer).unwrap();
            let options = reading.options(&whole);
            let options = options.map(|located| located.option).collect();
            check(&buffer[..listing.length], options);
            assert_eq!(listing.fill, reading.fill);
        }
    }
}

fn check(docket: &[u8], options: Vec<ReadOption>) {
    let listed = decode(docket).unwrap();
    assert_eq!(listed.len(), options.len());
    for (listed, option) in listed.iter().zip(&options) {
        assert_eq!(listed.kind, option.kind);
        if option.kind != 2 {
            assert_eq!(listed.fields, option.fields);
        }
    }
}
