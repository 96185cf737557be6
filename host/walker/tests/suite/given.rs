//! What a walk gives, and what is no input.

use formats::frames::Frame;
use formats::readers::Readers;
use formats::rows::{Flags, Row};
use formats::sizes::{ROOM_FOUND, ROOM_PENDING, ROOM_SCRATCH};
use luspemaro::{Refusal, WalkRefusal};
use second::{collect, Table};
use walker::{walk, InputError, WalkFound};

/// Frames, one a line.
fn input(frames: impl IntoIterator<Item = Frame>) -> Vec<u8> {
    frames.into_iter().flat_map(|frame| [frame.encode(), b"\n".to_vec()].concat()).collect()
}

fn subscribed(name: &str, readers: Readers) -> Vec<u8> {
    let flags = Flags::EXISTS.with(Flags::SUBSCRIBED);
    Row { flags, readers, name: name.as_bytes() }.to_bytes().expect("a row")
}

fn edit(line: &str) -> Frame {
    Frame::Command { reader: 0, line: format!("{line}\r\n").into_bytes() }
}

const WALK: Frame = Frame::Walk { reader: 0, option: 0 };

/// The largest tables, which the buffers of the program do not take: as the second program walks them.
#[test]
fn large_tables() {
    let deep = |at: usize| format!("{at:03}{}", "/n".repeat(14));
    let wide = |at: usize| format!("Client {at:03}/Mail");
    let long = |at: usize| format!("{at:03}{}", "n".repeat(150));
    for names in [
        (0..400).map(deep).collect(),
        (0..512).map(wide).collect(),
        (0..200).map(long).collect::<Vec<_>>(),
    ] {
        let table: Vec<u8> = names.iter().flat_map(|name| subscribed(name, Readers::ALL)).collect();
        let rows = table.chunks(2_000).map(|part| Frame::Row(part.to_vec()));
        let given = walk(&input(rows.chain([WALK]))).expect("an input").expect("a walk");
        let [mut scratch, mut found, mut pending] =
            [ROOM_SCRATCH, ROOM_FOUND, ROOM_PENDING].map(|room| vec![0; room]);
        let walked = collect(0, Table::Packed(&table), 0, &mut scratch, &mut found, &mut pending);
        let (commands, length) = walked.expect("a walk");
        assert_eq!(given, WalkFound { commands, names: found[..length].to_vec() });
    }
}

#[test]
fn edits_are_made() {
    let row = Frame::Row(subscribed("a", Readers::ALL));
    let frames = [row, edit("s SUBSCRIBE b/c"), edit("u UNSUBSCRIBE a"), WALK];
    let found = walk(&input(frames)).expect("an input");
    assert_eq!(found, Ok(WalkFound { commands: 2, names: b"\x03b/c".to_vec() }));
}

#[test]
fn readers_and_options() {
    let hidden = subscribed("a", Readers::from_bits(0b1000));
    for (reader, names) in [(0, b"".as_slice()), (3, b"\x01a")] {
        let frames = [Frame::Row(hidden.clone()), Frame::Walk { reader, option: 0 }];
        let found = walk(&input(frames)).expect("an input");
        assert_eq!(found, Ok(WalkFound { commands: 1, names: names.to_vec() }), "{reader}");
    }
    for (reader, option, row, refusal) in [
        (8, 9, "?", WalkRefusal::Reader),
        (0, 9, "%", WalkRefusal::Table),
        (0, 9, "a", WalkRefusal::UnknownOption),
    ] {
        let row = Frame::Row(subscribed(row, Readers::ALL));
        let refused = walk(&input([row, Frame::Walk { reader, option }])).expect("an input");
        assert_eq!(refused, Err(refusal));
    }
}

#[test]
fn what_is_no_input() {
    let row = || Frame::Row(subscribed("a", Readers::ALL));
    assert_eq!(walk(&input([row()])), Err(InputError::NoWalk));
    assert!(matches!(walk(b"570000"), Err(InputError::Frame(1, _))));
    let other = Frame::Command { reader: 1, line: b"s SUBSCRIBE b\r\n".to_vec() };
    for frames in [
        vec![row(), edit("s SUBSCRIBE b"), row(), WALK],
        vec![WALK, WALK],
        vec![other, WALK],
        vec![Frame::Entry(vec![0, 0, 0]), WALK],
    ] {
        assert!(matches!(walk(&input(frames)), Err(InputError::Frame(_, _))));
    }
    // Edits that the program cannot have accepted.
    let bad = Frame::Row(b"?".to_vec());
    assert!(matches!(walk(&input([bad, edit("s SUBSCRIBE b"), WALK])), Err(InputError::Table(_))));
    let refused = walk(&input([row(), edit("s SUBSCRIBE \"%\""), WALK]));
    assert_eq!(refused, Err(InputError::Edit(1, Refusal::UnlawfulName)));
}
