//! The tables and worked examples of `docs/FORMAT.md`.

use crate::calls::{run, Answer, Call, Calls, Desk, Ended};
use crate::dictionary::Dictionary;
use crate::edition::earlier_edition;
use crate::form::Open;
use crate::frame::{Frame, What};
use crate::listing::listing;
use crate::refusal::{Reason, Refusal};
use crate::stream::{cut, Cut};
use crate::types::{Meaning, Type, Value};

/// Bytes written in hexadecimal, with gaps.
fn hex(text: &str) -> Vec<u8> {
    let digits: Vec<u32> = text.chars().filter_map(|c| c.to_digit(16)).collect();
    digits.chunks(2).map(|pair| (pair[0] * 16 + pair[1]) as u8).collect()
}

fn numbers<T>(result: Result<T, Refusal>) -> Option<(u8, usize, u32)> {
    result.err().map(|refusal| (refusal.reason.number(), refusal.place, refusal.tag))
}

fn example() -> Vec<u8> {
    hex("01 00 64 00 01 00 06 00 5D 00 07 00 00 00 0C 0D
         01 00 00 00 0B 00 00 00 00 03 01 02 0E 01 00 00
         00 36 00 04 00 00 07 01 31 32 0D 01 00 00 00 6E
         00 06 00 00 02 00 01 0D 01 00 00 89 31 00 08 00
         05 03 00 01 08 02 00 00 00 4E 00 02 0D 01 00 00
         00 50 00 00 00 00 02 01 00 02 03 09 04 00 00 14
         1D 00 00 32")
}

fn earlier() -> Vec<u8> {
    hex("01 00 57 00 01 00 04 00 50 00 07 00 00 00 08 0D
         01 00 00 00 0B 00 00 00 00 03 01 02 0E 01 00 00
         00 36 00 04 00 00 07 01 31 32 0D 01 00 00 00 6E
         00 06 00 00 02 00 01 08 02 00 00 00 4E 00 02 0D
         01 00 00 00 50 00 00 00 00 02 01 00 02 03 09 04
         00 00 14 1D 00 00 32")
}

fn frame_at_6() -> Vec<u8> {
    hex("20 00 50 EB 0C 00 07 00 01 00 06 00
         05 00 00 00 31 00 00 00 2C 01 00 00
         02 00 01 64 00
         02 4F 4B")
}

fn frame_at_4() -> Vec<u8> {
    hex("1C 00 50 EB 08 00 07 00 01 00 04 00
         05 00 00 00 31 00 00 00
         02 00 01 64 00
         02 4F 4B")
}

fn decimal(mantissa: i64, decimals: u8) -> Value<'static> {
    Value::Decimal { mantissa, decimals }
}

fn investor(prefix: u16, document: u32) -> Value<'static> {
    Value::Investor { prefix, document }
}

#[test]
fn types_read() {
    let refused = Err(16);
    let value = |value| Ok(Meaning::Value(value));
    for (number, argument, bytes, meaning) in [
        (2, "01", "00 00", Ok(Meaning::Absent)),
        (3, "02", "05 00 00", refused),
        (5, "00", "FF FF FF FF", value(Value::Signed(-1))),
        (5, "00", "00 00 00 80", value(Value::Signed(-2147483648))),
        (5, "02", "FF FF FF FF", Ok(Meaning::Absent)),
        (6, "03", "00 00 00 00 00 00 00 80", Ok(Meaning::Absent)),
        (7, "31 32", "31", value(Value::Unsigned(49))),
        (7, "31 32", "00", Ok(Meaning::Absent)),
        (7, "31 32", "33", refused),
        (7, "00 31", "00", value(Value::Unsigned(0))),
        (65, "03", "41 00 42", refused),
        (65, "03", "41 42 43", value(Value::Text(b"ABC"))),
        (65, "03", "20 42 00", value(Value::Text(b" B"))),
        (65, "03", "41 7F 00", refused),
        (65, "03", "00 00 00", Ok(Meaning::Absent)),
        (66, "", "2C 01 00 01 40 E2 01 00", refused),
        (66, "", "2C 01 00 00 40 E2 01 00", value(investor(300, 123456))),
        (66, "", "00 00 00 00 00 00 00 00", Ok(Meaning::Absent)),
        (66, "", "00 00 00 00 01 00 00 00", value(investor(0, 1))),
    ] {
        let (argument, bytes) = (hex(argument), hex(bytes));
        let read = Type::new(number, &argument).unwrap().read(&bytes);
        assert_eq!(read.map_err(|refusal| refusal.reason.number()), meaning, "{number} {argument:?} {bytes:?}");
    }
}

#[test]
fn types_write() {
    for (number, argument, value, pattern) in [
        (2, "01", Value::Unsigned(0), None),
        (2, "01", Value::Unsigned(65_535), Some("FF FF")),
        (2, "00", Value::Unsigned(65_536), None),
        (3, "02", Value::Unsigned(4_294_967_295), None),
        (3, "02", Value::Signed(5), None),
        (4, "00", Value::Unsigned(u64::MAX), Some("FF FF FF FF FF FF FF FF")),
        (5, "03", Value::Signed(-2147483648), None),
        (5, "00", Value::Signed(-2147483648), Some("00 00 00 80")),
        (5, "00", Value::Signed(2147483648), None),
        (6, "02", Value::Signed(-1), None),
        (7, "31 32", Value::Unsigned(0), None),
        (7, "00 31", Value::Unsigned(0), Some("00")),
        (7, "00 31", Value::Unsigned(256), None),
        (8, "00 04", decimal(1000200, 4), Some("08 43 0F 00 00 00 00 00")),
        (8, "00 04", decimal(10002, 2), None),
        (65, "03", Value::Text(b"AB"), Some("41 42 00")),
        (65, "03", Value::Text(b""), None),
        (65, "03", Value::Text(b"ABCD"), None),
        (66, "", investor(300, 123456), Some("2C 01 00 00 40 E2 01 00")),
        (66, "", investor(0, 0), None),
    ] {
        let argument = hex(argument);
        let kind = Type::new(number, &argument).unwrap();
        match pattern {
            Some(bytes) => assert_eq!(*kind.write(&value).unwrap(), *hex(bytes)),
            None => assert_eq!(kind.write(&value), Err(Reason::NoSuchValue.at(0, 0))),
        }
    }
}

#[test]
fn types_known() {
    for (number, argument, width, blank) in [
        (1, "02", 1, "FF"),
        (2, "00", 2, "00 00"),
        (3, "01", 4, "00 00 00 00"),
        (3, "02", 4, "FF FF FF FF"),
        (4, "02", 8, "FF FF FF FF FF FF FF FF"),
        (5, "03", 4, "00 00 00 80"),
        (6, "00", 8, "00 00 00 00 00 00 00 00"),
        (7, "31", 1, "00"),
        (7, "00 31", 1, "00"),
        (8, "03 09", 8, "00 00 00 00 00 00 00 80"),
        (65, "14", 20, "00 00 00 00 00 00 00 00 00 00 00 00 00 00 00 00 00 00 00 00"),
        (66, "", 8, "00 00 00 00 00 00 00 00"),
    ] {
        let argument = hex(argument);
        let kind = Type::new(number, &argument).unwrap();
        assert_eq!((kind.width(), &*kind.blank()), (width, &*hex(blank)));
    }
    let mut unknown = vec![(7, "".to_string()), (7, "32 31".into()), (7, "31 31".into()), (8, "00".into())];
    unknown.extend([(8, "00 04 00".into()), (8, "00 0A".into()), (8, "04 00".into()), (65, "00".into())]);
    unknown.extend([(65, "15".into()), (65, "".into()), (65, "03 03".into()), (66, "00".into()), (0, "00".into())]);
    unknown.extend([(9, "00".into()), (64, "".into()), (67, "".into()), (255, "".into())]);
    unknown.extend((1..=4).map(|number| (number, "03".into())));
    unknown.extend((1..=6).flat_map(|number| [(number, "04".into()), (number, "".into()), (number, "00 00".into())]));
    unknown.push((7, (1..=33).map(|code| format!("{code:02X}")).collect()));
    for (number, argument) in unknown {
        assert_eq!(Type::new(number, &hex(&argument)), Err(Reason::UnknownType.at(0, 0)), "{number} {argument}");
    }
    let codes: Vec<u8> = (1..=32).collect();
    assert!(Type::new(7, &codes).is_ok());
}

#[test]
fn check_of_the_example() {
    assert_eq!(numbers(Dictionary::check(&example())), None);
    assert_eq!(numbers(Dictionary::check(&earlier())), None);
    assert_eq!(numbers(Dictionary::check(&hex("01 0007 0001 0006"))), None);
    for (place, bytes, refusal) in [
        (0, "02", Some((2, 0, 0))),
        (1, "0065", Some((1, 0, 0))),
        (7, "005E", Some((3, 7, 0))),
        (7, "005C", Some((3, 91, 0))),
        (90, "05", Some((3, 89, 0))),
        (44, "0000000B", Some((4, 42, 0))),
        (93, "0000004E", Some((4, 91, 0))),
        (78, "0000000B", None),
        (27, "03", Some((5, 15, 11))),
        (26, "02", Some((5, 15, 11))),
        (99, "00", Some((5, 91, 5149))),
        (99, "FF", Some((5, 91, 5149))),
        (99, "FE", None),
        (13, "000B", Some((6, 55, 35121))),
        (13, "3FF5", Some((6, 7, 0))),
        (34, "0003", Some((6, 28, 54))),
        (63, "0007", Some((6, 55, 35121))),
        (50, "0006", Some((6, 55, 35121))),
        (74, "3FF5", Some((6, 68, 78))),
    ] {
        let mut dictionary = example();
        let bytes = hex(bytes);
        dictionary[place..place + bytes.len()].copy_from_slice(&bytes);
        assert_eq!(numbers(Dictionary::check(&dictionary)), refusal, "{place} {bytes:?}");
    }
    for (taken, refusal) in [(89..91, (3, 89, 0)), (89..100, (3, 68, 0))] {
        let mut dictionary = example();
        let less = taken.len() as u8;
        dictionary.drain(taken);
        dictionary[2] -= less;
        dictionary[8] -= less;
        assert_eq!(numbers(Dictionary::check(&dictionary)), Some(refusal));
    }
}

#[test]
fn seen_at_a_version() {
    let example = example();
    let dictionary = Dictionary::check(&example).unwrap();
    let template = dictionary.find(7, 0).unwrap();
    assert_eq!(template.place, 7);
    assert!(dictionary.find(8, 6).is_none());
    for version in 0..10 {
        let tags: Vec<u32> = template.root().fields_at(version).map(|field| field.tag).collect();
        let (all, length) = if version < 5 { (&[11, 54, 110][..], 8) } else { (&[11, 54, 110, 35121][..], 12) };
        assert_eq!((&tags[..], template.root().length_at(version)), (all, length));
        let groups: Vec<_> = template.groups().map(|(group, block)| (group.tag, block.length_at(version))).collect();
        assert_eq!(groups, [(78, 2)]);
        assert_eq!(template.data_at(version).map(|data| data.tag).collect::<Vec<_>>(), [5149]);
    }
}

#[test]
fn cutting() {
    for (stream, missing) in
        [("", Ok(4)), ("0C 00 50", Ok(1)), ("0C 00 50 EB", Ok(8)), ("00 40 50 EB", Ok(16_380))].into_iter().chain([
            ("0C 00 EB 50", Err((11, 2, 0))),
            ("0B 00 51 EB", Err((11, 2, 0))),
            ("0B 00 50 EB", Err((10, 0, 0))),
            ("01 40 50 EB", Err((10, 0, 0))),
        ])
    {
        let stream = hex(stream);
        match missing {
            Ok(count) => assert_eq!(cut(&stream), Ok(Cut::Missing(count))),
            Err(refusal) => assert_eq!(numbers(cut(&stream)), Some(refusal)),
        }
    }
    let stream = hex("0C 00 50 EB 00 00 07 00 01 00 06 00 FF");
    assert_eq!(cut(&stream), Ok(Cut::Frame { frame: &stream[..12], rest: &[0xFF] }));
}

#[test]
fn accepting_and_reading() {
    let (example, earlier) = (example(), earlier());
    let dictionary = Dictionary::check(&example).unwrap();
    let bytes = frame_at_6();
    let frame = Frame::accept(dictionary, &bytes).unwrap();
    let read = |group, entry, tag| frame.read(group, entry, tag).map(|found| (found.what, found.at, found.bytes.len()));
    assert_eq!(read(0, 0, 11), Ok((What::Value(Value::Unsigned(5)), 12, 4)));
    assert_eq!(read(0, 0, 54), Ok((What::Value(Value::Unsigned(49)), 16, 1)));
    assert_eq!(read(0, 0, 110), Ok((What::Absent, 18, 2)));
    assert_eq!(read(0, 0, 35121), Ok((What::Value(Value::Unsigned(300)), 20, 4)));
    assert_eq!(read(78, 0, 80), Ok((What::Value(Value::Unsigned(100)), 27, 2)));
    assert_eq!(read(0, 0, 5149), Ok((What::Data, 30, 2)));
    assert_eq!(numbers(frame.read(0, 1, 11)), Some((22, 0, 0)));
    assert_eq!(numbers(frame.read(78, 1, 80)), Some((22, 0, 78)));
    assert_eq!(numbers(frame.read(79, 0, 80)), Some((22, 0, 79)));
    assert_eq!(numbers(frame.read(78, 0, 5149)), Some((22, 0, 5149)));
    assert_eq!(numbers(frame.read(0, 0, 78)), Some((22, 0, 78)));

    let bytes = frame_at_4();
    let frame = Frame::accept(dictionary, &bytes).unwrap();
    let found = frame.read(0, 0, 35121).unwrap();
    assert_eq!((found.what, found.at, found.bytes.len()), (What::Absent, 0, 0));

    for (place, byte, refusal) in [
        (17, 1, (15, 17, 0)),
        (16, 0x33, (16, 16, 54)),
        (16, 0, (17, 16, 54)),
        (0, 0x21, (10, 0, 0)),
        (2, 0x51, (11, 2, 0)),
        (8, 2, (12, 8, 0)),
        (6, 8, (13, 6, 0)),
        (4, 8, (14, 4, 0)),
        (10, 4, (14, 4, 0)),
        (24, 3, (14, 24, 78)),
        (26, 0xFF, (19, 26, 78)),
        (26, 4, (18, 31, 78)),
        (29, 3, (18, 29, 5149)),
        (29, 51, (19, 29, 5149)),
        (29, 1, (20, 31, 0)),
    ] {
        let mut damaged = frame_at_6();
        damaged[place] = byte;
        assert_eq!(numbers(Frame::accept(dictionary, &damaged)), Some(refusal), "{place} {byte}");
    }

    // The earlier edition takes the newer frame, with what it knows of it.
    let bytes = frame_at_6();
    let frame = Frame::accept(Dictionary::check(&earlier).unwrap(), &bytes).unwrap();
    assert_eq!(frame.read(78, 0, 80).unwrap().at, 27);
    assert_eq!(numbers(frame.read(0, 0, 35121)), Some((22, 0, 35121)));
}

#[test]
fn forms() {
    let example = example();
    let dictionary = Dictionary::check(&example).unwrap();
    let mut buffer = [0xFF; 32];
    let mut desk = Desk::default();
    let set = |group, tag, number| Call::Set { group, entry: 0, tag, value: Value::Unsigned(number) };
    let refused = |reason: Reason, place, tag| Answer::Refused(reason.at(place, tag));
    let opened = hex("1C00 50EB 0C00 0700 0100 0600 FFFFFFFF 0000 0000 00000000 0200 00 00 FFFFFFFF");
    for (call, answer, after) in [
        (Call::Close, Answer::OutOfTurn, None),
        (Call::Open { template: 7, version: 7 }, refused(Reason::CannotOpen, 0, 0), None),
        (Call::Open { template: 7, version: 6 }, Answer::Accepted, Some(opened)),
        (Call::Reopen, Answer::OutOfTurn, None),
        (Call::Close, refused(Reason::RequiredAbsent, 12, 11), None),
        (set(0, 11, 4_294_967_295), refused(Reason::NoSuchValue, 12, 11), None),
        (set(0, 11, 5), Answer::Accepted, None),
        (set(0, 54, 49), Answer::Accepted, None),
        (set(0, 110, 0), refused(Reason::NoSuchValue, 18, 110), None),
        (set(0, 35121, 300), Answer::Accepted, None),
        (set(78, 80, 100), refused(Reason::NotFound, 0, 78), None),
        (Call::Drop { group: 78 }, refused(Reason::NotFound, 0, 78), None),
        (Call::Append { group: 0 }, refused(Reason::NotFound, 0, 0), None),
        (Call::Append { group: 78 }, Answer::Accepted, None),
        (set(78, 80, 100), Answer::Accepted, None),
        (Call::Write { tag: 5149, bytes: &[0x4F, 0x4B, 0x21] }, refused(Reason::NoRoom, 33, 0), None),
        (Call::Write { tag: 5149, bytes: &[0; 51] }, refused(Reason::Full, 29, 5149), None),
        (Call::Write { tag: 5149, bytes: &[0x4F, 0x4B] }, Answer::Accepted, None),
        (Call::Close, Answer::Accepted, Some(frame_at_6())),
        (Call::Append { group: 78 }, Answer::OutOfTurn, Some(frame_at_6())),
        (Call::Reopen, Answer::Accepted, Some(frame_at_6())),
    ] {
        let before = buffer;
        assert_eq!(desk.call(dictionary, &mut buffer, &call), answer, "{call:?}");
        if answer != Answer::Accepted {
            assert_eq!(buffer, before);
        }
        if let Some(after) = after {
            assert_eq!(buffer[..], after[..]);
        }
    }

    // The old bytes stand behind a frame that becomes shorter.
    assert_eq!(desk.call(dictionary, &mut buffer, &Call::Drop { group: 78 }), Answer::Accepted);
    assert_eq!(buffer[24..], hex("0200 00 02 4F 4B 4F 4B"));
    // Another message of the same length is worked on as it is; anything else is not this form's.
    buffer[28] = 0x21;
    assert_eq!(desk.call(dictionary, &mut buffer, &set(0, 11, 6)), Answer::Accepted);
    buffer[10] = 5;
    assert_eq!(desk.call(dictionary, &mut buffer, &set(0, 11, 6)), refused(Reason::NotThisForm, 0, 0));

    let refusal = Open::open(dictionary, &mut [0; 27], 7, 6).unwrap_err();
    assert_eq!(refusal, Reason::NoRoom.at(28, 0));
    let mut buffer = [0; 100];
    let mut open = Open::open(dictionary, &mut buffer, 7, 6).unwrap();
    assert_eq!(open.write(dictionary, &mut buffer, 5149, &[1; 50]), Ok(()));
    assert_eq!(open.length(), 78);
}

#[test]
fn encoded_calls() {
    let calls = [
        Call::Open { template: 7, version: 6 },
        Call::Set { group: 78, entry: 3, tag: 80, value: decimal(-1, 4) },
        Call::Set { group: 0, entry: 0, tag: 80, value: Value::Text(b"AB") },
        Call::Set { group: 0, entry: 0, tag: 80, value: investor(1, 2) },
        Call::Set { group: 0, entry: u64::MAX, tag: 80, value: Value::Signed(-5) },
        Call::Clear { group: 0, entry: 0, tag: 11 },
        Call::Append { group: 78 },
        Call::Drop { group: 78 },
        Call::Write { tag: 5149, bytes: b"OK" },
        Call::Poke { place: 300, byte: 9 },
        Call::Close,
        Call::Reopen,
    ];
    let mut bytes = Vec::new();
    calls.iter().for_each(|call| call.encode(&mut bytes));
    assert_eq!(Calls::new(&bytes).collect::<Vec<_>>(), calls);

    let example = example();
    let (mut buffer, mut answers) = ([0; 64], [9; 32]);
    let encoded = hex("01 0700 0600 07");
    assert_eq!(run(&example, &mut buffer, &encoded, &mut answers), Ended::Done);
    assert_eq!(answers[..], hex("00 00 0000 00000000 0000000000000000  01 11 0000 0B000000 0C00000000000000"));
    assert_eq!(run(&example, &mut buffer, &encoded, &mut answers[..31]), Ended::NoRoom);
    assert_eq!(run(&example, &mut buffer, &encoded[..4], &mut answers), Ended::NoCall);
}

#[test]
fn the_listing() {
    let mut stream = frame_at_6();
    stream.extend(frame_at_4());
    stream.extend(&frame_at_6()[..10]);
    let first = "F 0 32 7 6\nr 11 5\nr 54 49\nr 110 -\nr 35121 300\ng 78 1\ne 80 100\nd 5149 4F4B\n";
    let second = "F 32 28 7 4\nr 11 5\nr 54 49\nr 110 -\ng 78 1\ne 80 100\nd 5149 4F4B\nW 60 22\n";
    assert_eq!(listing(&example(), &stream), format!("{first}{second}"));
    stream[34] = 0x51;
    assert_eq!(listing(&example(), &stream), format!("{first}X 32 11 2 0\n"));
    assert_eq!(listing(&example(), &[]), "");
    assert_eq!(listing(&[], &stream), "D 0 1\n");
}

#[test]
fn the_listing_of_the_guide() {
    let file = |name: &str| std::fs::read(format!("{}/../examples/guide/{name}", env!("CARGO_MANIFEST_DIR"))).unwrap();
    let listed = listing(&file("dictionary.bin"), &file("stream.bin"));
    assert_eq!(listed.as_bytes(), file("listing.txt"));
}

#[test]
fn editions() {
    let (example, mut earlier) = (example(), earlier());
    let is_earlier =
        |earlier: &[u8], later: &[u8]| earlier_edition(Dictionary::unchecked(earlier), Dictionary::unchecked(later));
    assert!(is_earlier(&earlier, &example));
    assert!(is_earlier(&example, &example));
    assert!(!is_earlier(&example, &earlier));
    earlier[6] = 5;
    assert!(Dictionary::check(&earlier).is_ok());
    assert!(!is_earlier(&earlier, &example));
}
