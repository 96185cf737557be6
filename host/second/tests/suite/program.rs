//! The program: frames in, answers out.

use std::io::{self, Read, Write};

use second::frames::{self, hex_of};

/// The program's output for an input, both as text.
pub fn output_of(input: &str) -> String {
    let mut output = Vec::new();
    frames::run(input.as_bytes(), &mut output).expect("no error in memory");
    String::from_utf8(output).expect("hexadecimal")
}

/// A frame of a first byte and the bytes behind it, with its LF.
pub fn frame(first: u8, behind: &[u8]) -> String {
    let digits = hex_of(&[&[first], behind].concat());
    String::from_utf8(digits).expect("hexadecimal") + "\n"
}

/// A frame with a command of a reader, its CR LF added.
pub fn command_from(reader: u8, text: &str) -> String {
    frame(frames::COMMAND, &[&[reader], text.as_bytes(), b"\r\n"].concat())
}

const NAMESPACE: &str = "430061204E414D4553504143450D0A\n";
const NAMESPACE_ANSWER: &str =
    "412A204E414D455350414345204E494C204E494C204E494C0D0A61204F4B20646F6E650D0A\n";
pub const BAD_FRAME: &str = "520D\n";

#[test]
fn the_session_of_document_01() {
    assert_eq!(output_of(NAMESPACE), NAMESPACE_ANSWER);
    assert_eq!(output_of(&NAMESPACE.to_ascii_lowercase()), NAMESPACE_ANSWER);
}

#[test]
fn bad_frames() {
    let lines = [
        "",
        "4",
        "434",
        "0x43",
        "4300 0D0A",
        "4G",
        " 43",
        "4300\r",
        "00",
        "41",
        "52",
        "6D",
        "43",
        "57",
        "5700",
        "57000",
        "57000000",
        "570001 ",
        "570801 ",
        "57080100",
        "-1",
        "+1",
    ];
    for line in lines {
        assert_eq!(output_of(&format!("{line}\n")), BAD_FRAME, "{line:?}");
    }
    assert_eq!(output_of("\n\n"), BAD_FRAME.repeat(2));
}

#[test]
fn input_without_a_last_lf() {
    assert_eq!(output_of(""), "");
    assert_eq!(output_of("570000"), BAD_FRAME);
    assert_eq!(output_of("4D"), BAD_FRAME);
    assert_eq!(output_of(&format!("{NAMESPACE}4300")), format!("{NAMESPACE_ANSWER}{BAD_FRAME}"));
}

/// 4,102 digits hold a reader and a line of 2,049 bytes, which is 3; one byte more is an overlong frame.
#[test]
fn lengths_of_frames() {
    let line_shape = "5203\n";
    for (digits, answer) in [
        (4, line_shape),
        (4_100, line_shape),
        (4_102, line_shape),
        (4_103, BAD_FRAME),
        (4_104, BAD_FRAME),
        (1_000_000, BAD_FRAME),
    ] {
        let overlong = format!("4300{}\n", "6".repeat(digits - 4));
        assert_eq!(output_of(&(overlong + NAMESPACE)), format!("{answer}{NAMESPACE_ANSWER}"));
    }
    for first in [frames::ROW, frames::ENTRY] {
        let room = if first == frames::ROW { "" } else { "5202\n" };
        assert_eq!(output_of(&frame(first, &[0; 2_050])), room);
        assert_eq!(output_of(&frame(first, &[0; 2_051])), BAD_FRAME);
    }
}

#[test]
fn walks() {
    let rows = frame(frames::ROW, b"\x00\x02\xFF\x03a/b");
    assert_eq!(output_of("570000\n"), "570001\n");
    assert_eq!(output_of(&format!("{rows}570000\n570001\n")), "57000203612F62\n".repeat(2));
    assert_eq!(output_of(&format!("{rows}570002\n570004\n5700ff\n")), "570001\n5206\n5206\n");
    let used = frame(frames::ROW, b"\x20\x01\xFF\x03a/b");
    assert_eq!(
        output_of(&format!("{used}570002\n570006\n570007\n570008\n")),
        "570001\n57000203612F62\n57000203612F62\n5206\n"
    );
    let bad_table = frame(frames::ROW, b"\x00");
    assert_eq!(output_of(&format!("{bad_table}570004\n")), "5201\n");
    let bad_list = frame(frames::ENTRY, b"\x00");
    assert_eq!(output_of(&format!("{bad_list}570000\n{NAMESPACE}")), "570001\n5202\n");
}

/// A frame may hold half a row, two rows or nothing; the table is judged at the next command.
#[test]
fn rows_in_pieces() {
    let list = command_from(0, "a LIST \"\" %");
    let two = "* LIST () \"/\" \"a\"\r\n* LIST () \"/\" \"b\"\r\na OK done\r\n";
    let listed = frame(frames::ANSWER, two.as_bytes());
    let pieces: [&[&[u8]]; 3] = [
        &[b"\x00\x01\xFF\x01a\x00\x01\xFF\x01b"],
        &[b"\x00\x01\xFF\x01a\x00", b"\x01\xFF\x01", b"", b"b"],
        &[b"", b"\x00\x01\xFF\x01a", b"\x00\x01\xFF\x01b", b""],
    ];
    for rows in pieces {
        let sent: String = rows.iter().map(|row| frame(frames::ROW, row)).collect();
        assert_eq!(output_of(&(sent + &list)), listed);
    }
    let half = frame(frames::ROW, b"\x00\x01\xFF\x01");
    let rest = frame(frames::ROW, b"a");
    assert_eq!(output_of(&format!("{half}{list}{rest}")), "5201\n");
}

/// Room counts bytes alone; nothing of a frame without room is stored.
#[test]
fn room_for_rows_and_entries() {
    let rooms = [
        (frames::ROW, frames::TABLE_ROOM, "5201\n"),
        (frames::ENTRY, frames::NAMESPACES_ROOM, "5202\n"),
    ];
    for (first, room, refused) in rooms {
        let filling = frame(first, &[0; 128]).repeat(room / 128 - 1);
        let last = frame(first, &[0; 128]);
        let too_long = frame(first, &[0; 129]);
        let one_byte = frame(first, &[0]);
        assert_eq!(output_of(&format!("{filling}{last}")), "");
        assert_eq!(output_of(&format!("{filling}{too_long}{last}")), refused);
        assert_eq!(output_of(&format!("{filling}{last}{one_byte}")), refused);
        assert_eq!(output_of(&format!("{filling}{last}{}", frame(first, &[]))), "");
    }
}

#[test]
fn a_bad_frame_keeps_the_stored_bytes() {
    let row = frame(frames::ROW, b"\x00\x01\xFF\x01a");
    let list = command_from(0, "a LIST \"\" %");
    let listed = frame(frames::ANSWER, b"* LIST () \"/\" \"a\"\r\na OK done\r\n");
    assert_eq!(output_of(&format!("{row}4D0\n4F00\n{list}")), format!("520D\n520D\n{listed}"));
}

/// Input that comes a byte at a time gives the same output.
#[test]
fn input_in_single_bytes() {
    struct SingleBytes<'a>(&'a [u8]);
    impl Read for SingleBytes<'_> {
        fn read(&mut self, room: &mut [u8]) -> io::Result<usize> {
            let one = room.len().min(1);
            self.0.read(&mut room[..one])
        }
    }
    let input = format!("{NAMESPACE}\n{}570000\n4300", frame(frames::ROW, b"\x00\x02\xFF\x01a"));
    let mut output = Vec::new();
    frames::run(SingleBytes(input.as_bytes()), &mut output).expect("no error in memory");
    assert_eq!(output, output_of(&input).into_bytes());
}

/// A closed output ends the program with an error and without a panic.
#[test]
fn closed_output() {
    struct Closed;
    impl Write for Closed {
        fn write(&mut self, _: &[u8]) -> io::Result<usize> {
            Err(io::ErrorKind::BrokenPipe.into())
        }
        fn flush(&mut self) -> io::Result<()> {
            Ok(())
        }
    }
    let result = frames::run(NAMESPACE.as_bytes(), Closed);
    assert_eq!(result.map_err(|error| error.kind()), Err(io::ErrorKind::BrokenPipe));
}
