//! The feeder (document 02, W2), by the sentences of the request.

use second::Event::{self, Command, GoOn};
use second::{answer_reading, Feeder, Refusal, Table};

/// Of every cause.
const REFUSED: Event = Event::Refused(Refusal::LineShape);
const FIRST: Feeder = Feeder::Reading(Vec::new());
const DROPPING: Feeder = Feeder::Dropping { after_cr: false };
const DROPPING_AFTER_CR: Feeder = Feeder::Dropping { after_cr: true };

fn command(bytes: impl AsRef<[u8]>) -> Event {
    Command(bytes.as_ref().to_vec())
}

fn reading(bytes: impl AsRef<[u8]>) -> Feeder {
    Feeder::Reading(bytes.as_ref().to_vec())
}

fn x(count: usize) -> String {
    "x".repeat(count)
}

/// Feeds chunks from the first state.
fn fed<'c>(chunks: impl IntoIterator<Item = &'c [u8]>) -> (Vec<Event>, Feeder) {
    let mut feeder = Feeder::default();
    let events = chunks.into_iter().flat_map(|chunk| feeder.feed(chunk)).collect();
    (events, feeder)
}

/// Checks what a stream gives and leaves, fed whole, in two chunks and byte by byte.
fn check(stream: impl AsRef<[u8]>, events: &[Event], end: Feeder) {
    let stream = stream.as_ref();
    let expected = (events.to_vec(), end);
    let text = stream.escape_ascii();
    assert_eq!(fed([stream]), expected, "{text}");
    assert_eq!(fed(stream.chunks(1).flat_map(|byte| [byte, b""])), expected, "{text}");
    for cut in 0..=stream.len().min(60) {
        let (one, other) = stream.split_at(cut);
        assert_eq!(fed([one, other]), expected, "{text}, cut at {cut}");
    }
}

/// "fed chunks of any length, zero too, and hands over whole commands"
#[test]
fn whole_commands_are_handed_over() {
    check("", &[], FIRST);
    check("a NAMESPACE\r\n", &[command("a NAMESPACE\r\n")], FIRST);
    check("a\r\nb\r\nc", &[command("a\r\n"), command("b\r\n")], reading("c"));
    check("\r\n\r\n", &[command("\r\n"), command("\r\n")], FIRST);
}

/// "`{n}` CR LF with n up to 1,024 asks for the continuation line `+ go` CR LF"
#[test]
fn a_header_asks_for_the_continuation_line() {
    check("a {3}\r\n", &[GoOn], reading("a {3}\r\n"));
    check("{0}\r\n", &[GoOn], reading("{0}\r\n"));
    check("a {3}\r", &[], reading("a {3}\r"));
    assert_eq!(second::feeder::CONTINUATION, b"+ go\r\n");
}

/// "then n bytes 01 to FF count as a string": CR LF, a header and FF are bytes of it.
#[test]
fn literals_are_bytes_of_their_command() {
    for whole in [
        b"a {3}\r\nabc\r\n".as_slice(),
        b"a {2}\r\n\r\n\r\n",
        b"a {5}\r\n{9}\r\n\r\n",
        b"a {3}\r\n\x01\x80\xFF\r\n",
        b"a {1}\r\n\r\r\n",
        b"a {1}\r\n\n\r\n",
        b"a {0}\r\n\r\n",
        b"a {3}\r\n{9} x\r\n",
        b"a {3}\r\nx{9} x\r\n",
    ] {
        check(whole, &[GoOn, command(whole)], FIRST);
    }
    let twice = "a {1}\r\nb{0}\r\n{0}\r\nc\r\n";
    check(twice, &[GoOn, GoOn, GoOn, command(twice)], FIRST);
}

/// A CR that is a literal's last byte and the LF behind it are no CR LF.
#[test]
fn a_cr_lf_stands_outside_literals_whole() {
    check(b"{1}\r\n\r\n", &[GoOn], reading("{1}\r\n\r\n"));
    check(b"{1}\r\n\r\n\r\n", &[GoOn, command("{1}\r\n\r\n\r\n")], FIRST);
}

/// "A larger n .. is refused with 3; after a larger n the command ends at that line"
#[test]
fn both_sides_of_1024() {
    let most = format!("a {{1024}}\r\n{}\r\n", x(1_024));
    check(&most, &[GoOn, command(&most)], FIRST);
    check("a {1025}\r\n", &[REFUSED], FIRST);
    check("a {1025}\r\nb\r\n", &[REFUSED, command("b\r\n")], FIRST);
    check("a {1}\r\nb {1025}\r\nc\r\n", &[GoOn, REFUSED, command("c\r\n")], FIRST);
    check("a {1025}", &[], reading("a {1025}"));
    check("a {1025}\r", &[], reading("a {1025}\r"));
}

/// One or more digits: zeros before the number, and numbers that no machine word holds.
#[test]
fn any_number_of_digits() {
    let zeros = format!("{{{}2}}\r\nab\r\n", "0".repeat(1_499));
    check(&zeros, &[GoOn, command(&zeros)], FIRST);
    for digits in ["9".repeat(1_500), "18446744073709551617".to_string(), "4294967297".to_string()]
    {
        check(format!("{{{digits}}}\r\n"), &[REFUSED], FIRST);
    }
    let over = format!("{{{}}}\r\n", "0".repeat(2_045));
    check(&over, &[REFUSED], FIRST);
}

/// "Any line that ends, outside literals, in `{`, one or more digits and `}` is read so, wherever
/// that stands"
#[test]
fn headers_stand_anywhere() {
    for line in ["{2}", "a{2}", "a LIST \"{2}", "{{2}", "}{2}", "{1}{2}", "\r{2}", "\n{2}", "\t{2}"]
    {
        let whole = format!("{line}\r\nab\r\n");
        check(&whole, &[GoOn, command(&whole)], FIRST);
    }
    check(b"\xFF{0}\r\n\r\n", &[GoOn, command(b"\xFF{0}\r\n\r\n")], FIRST);
}

/// Lines that end otherwise are text; so is a header of which a part stands in a literal.
#[test]
fn lines_that_end_otherwise() {
    for line in ["{}", "{3+}", "{ 3}", "{3 }", "{-3}", "{x}", "{3", "3}", "{3}x", "{3} ", "{3}\r"] {
        let whole = format!("{line}\r\n");
        check(format!("{whole}abc"), &[command(&whole)], reading("abc"));
    }
    check("{1}\r\n{3}\r\nabc", &[GoOn, command("{1}\r\n{3}\r\n")], reading("abc"));
    check("{2}\r\n{3}\r\nabc", &[GoOn, command("{2}\r\n{3}\r\n")], reading("abc"));
}

/// "a command over 2,048 bytes in all is refused with 3", at byte 2,049.
#[test]
fn both_sides_of_2048() {
    let longest = format!("{}\r\n", x(2_046));
    check(&longest, &[command(&longest)], FIRST);
    check(x(2_048), &[], reading(x(2_048)));
    check(x(2_049), &[REFUSED], DROPPING);
    check(format!("{}\r\n", x(2_047)), &[REFUSED], FIRST);
    check(format!("{}\r\nb", x(2_048)), &[REFUSED], reading("b"));
    check(format!("{}\r\nb", x(3_000)), &[REFUSED], reading("b"));
    let filled = format!("{{1024}}\r\n{}", x(1_024));
    let whole = format!("{filled}{}\r\n", x(2_046 - filled.len()));
    check(&whole, &[GoOn, command(&whole)], FIRST);
    check(format!("{filled}{}\r\n", x(2_047 - filled.len())), &[GoOn, REFUSED], FIRST);
}

/// The length is reached at byte 2,049, not when `{n}` announces it.
#[test]
fn headers_at_2048() {
    let start = format!("{}{{1000}}\r\n", x(1_492));
    assert_eq!(start.len(), 1_500);
    check(&start, &[GoOn], reading(&start));
    check(format!("{start}{}", x(548)), &[GoOn], reading(format!("{start}{}", x(548))));
    check(format!("{start}{}", x(549)), &[GoOn, REFUSED], DROPPING);
    for header in ["{0}\r\n", "{1}\r\n", "{1024}\r\n"] {
        let last = format!("{}{header}", x(2_048 - header.len()));
        check(&last, &[GoOn], reading(&last));
        check(format!("{last}\r"), &[GoOn, REFUSED], DROPPING_AFTER_CR);
        check(format!("{last}\r\n"), &[GoOn, REFUSED], FIRST);
        check(format!("x{last}"), &[REFUSED], FIRST);
    }
}

/// "at one byte the length of the command comes before n": one refusal, and nothing is dropped that
/// is not dropped already.
#[test]
fn length_before_n() {
    let header = "{1025}\r\n";
    for before in [2_048 - header.len(), 2_049 - header.len()] {
        check(format!("{}{header}b\r\n", x(before)), &[REFUSED, command("b\r\n")], FIRST);
    }
}

/// "a byte 00 anywhere .. is refused with 3 .. bytes are dropped through the next CR LF"
#[test]
fn a_byte_00_anywhere() {
    check("\0", &[REFUSED], DROPPING);
    check("a\0b", &[REFUSED], DROPPING);
    check("a\0b\r\nc\r\n", &[REFUSED, command("c\r\n")], FIRST);
    check("{3}\r\na\0c\r\nd", &[GoOn, REFUSED], reading("d"));
    check("{3}\r\nabc\0\r\nd", &[GoOn, REFUSED], reading("d"));
    check("{3\0}\r\nabc", &[REFUSED], reading("abc"));
    check("{9999}\0\r\na\r\n", &[REFUSED, command("a\r\n")], FIRST);
}

/// "Where two causes meet, the earlier byte decides"
#[test]
fn the_earlier_byte_decides() {
    check("{9999}\r\0\nb\r\n", &[REFUSED], FIRST);
    check("{9999}\r\n\0\r\n", &[REFUSED, REFUSED], FIRST);
    check("\0{9999}\r\nb\r\n", &[REFUSED, command("b\r\n")], FIRST);
    check(format!("{}\0\r\nb", x(2_048)), &[REFUSED], reading("b"));
    check(format!("{}\0x\r\nb", x(2_047)), &[REFUSED], reading("b"));
    check(format!("{}x\0\r\nb", x(2_048)), &[REFUSED], reading("b"));
}

/// "dropping counts the offending byte and a CR just before it", wherever that CR stood.
#[test]
fn dropping_counts_the_offending_byte() {
    check("a\r\0\n", &[REFUSED], DROPPING);
    check("a\r\0\n\r\n", &[REFUSED], FIRST);
    check("\0\r", &[REFUSED], DROPPING_AFTER_CR);
    check("\0\r\r\n", &[REFUSED], FIRST);
    check("\0\n\r", &[REFUSED], DROPPING_AFTER_CR);
    check("\0\rx\n", &[REFUSED], DROPPING);
    check(format!("{}\r", x(2_048)), &[REFUSED], DROPPING_AFTER_CR);
    check(format!("{}\n", x(2_048)), &[REFUSED], DROPPING);
    check(format!("{}\r\n", x(2_047)), &[REFUSED], FIRST);
    let in_literal = format!("{}{{1000}}\r\n{}\r", x(1_492), x(547));
    check(&in_literal, &[GoOn], reading(&in_literal));
    check(format!("{in_literal}\nb"), &[GoOn, REFUSED], reading("b"));
    let last_of_literal = format!("{}{{1}}\r\n\r", x(2_042));
    check(format!("{last_of_literal}\nb"), &[GoOn, REFUSED], reading("b"));
    let last_of_header = format!("{}{{1}}\r", x(2_044));
    check(format!("{last_of_header}\nb"), &[REFUSED], reading("b"));
}

/// While bytes are dropped no header is read and nothing is sent or refused; the CR LF that ends it
/// may lie in an announced literal.
#[test]
fn nothing_is_told_while_dropping() {
    check(format!("\0{}\0\0{{3}}\r\nabc", x(5_000)), &[REFUSED], reading("abc"));
    check("\0{3}\r\n{3}\r\n", &[REFUSED, GoOn], reading("{3}\r\n"));
    check("{9}\r\n\0a\r\nb\r\n", &[GoOn, REFUSED, command("b\r\n")], FIRST);
}

/// "The feeder refuses its three causes alone": other odd bytes are for check 3.
#[test]
fn other_odd_bytes_are_handed_over() {
    for whole in [b"\xFF\x80\r\n".as_slice(), b"\r\r\n", b"\n\r\n", b"a\rb\nc\r\n", b"\x01\x7F\r\n"]
    {
        check(whole, &[command(whole)], FIRST);
        assert_eq!(
            answer_reading(0, Table::EMPTY, &[], whole, &mut [0; 99]),
            Err(if whole[0] == 1 { Refusal::Grammar } else { Refusal::LineShape }),
            "{}",
            whole.escape_ascii()
        );
    }
}

/// "From the first state, however the bytes are cut, commands, refusals, continuations and the
/// state at the end are the same": every way of cutting, and a chunk of zero bytes at every cut.
#[test]
fn every_way_of_cutting() {
    for stream in [
        b"a {2}\r\nb\r\r\n".as_slice(),
        b"{0}\r\n{1}\r\nx\r\n",
        b"{1025}\r\nx\r\n",
        b"a\0\r\r\n{1}\r\n\0",
        b"\r\n{}\r\n{3}\r\n",
    ] {
        let whole = fed([stream]);
        for cuts in 0..1u32 << (stream.len() - 1) {
            let is_cut = |at: usize| cuts >> at & 1 == 1;
            let mut chunks: Vec<&[u8]> = Vec::new();
            let mut start = 0;
            for at in (1..stream.len()).filter(|at| is_cut(at - 1)) {
                chunks.extend([&stream[start..at], b""]);
                start = at;
            }
            chunks.push(&stream[start..]);
            assert_eq!(fed(chunks), whole, "{}, {cuts:b}", stream.escape_ascii());
        }
    }
}

/// Of all short streams: what check 3 takes is handed over whole, and in one piece.
#[test]
fn what_check_3_takes_is_handed_over() {
    let mut taken = 0;
    for length in 0..=7 {
        for number in 0..7usize.pow(length) {
            let digits = (0..length).map(|place| number / 7usize.pow(place) % 7);
            let stream: Vec<u8> = digits.map(|digit| b"{01}\r\na"[digit]).collect();
            let (events, end) = fed([stream.as_slice()]);
            if answer_reading(0, Table::EMPTY, &[], &stream, &mut [0; 99])
                == Err(Refusal::LineShape)
            {
                continue;
            }
            taken += 1;
            let (last, before) = events.split_last().expect("an event");
            assert_eq!((last, end), (&command(&stream), FIRST), "{}", stream.escape_ascii());
            assert!(before.iter().all(|event| *event == GoOn), "{}", stream.escape_ascii());
        }
    }
    assert!(taken > 1_000, "{taken}");
}
