//! The line of a joined command, from its parts (document 02, W11).

use second::joined::{options_of, MAX_OPTIONS};
use second::shape::MAX_LINE;
use second::{answer_reading, join, join_packed, Event, Feeder, Table};

use crate::common::FILL;

/// More than any line.
const ROOM: usize = MAX_LINE + 2;

/// A number of options, a reference, patterns, and the line without its CR LF, or the refusal. The tag is `a`.
type Case<'a> = (u8, &'a [u8], &'a [&'a [u8]], Result<&'a [u8], u8>);

fn packed(patterns: &[&[u8]]) -> Vec<u8> {
    let pattern = |pattern: &&[u8]| {
        let length = u8::try_from(pattern.len()).expect("at most 255 bytes");
        [&[length], *pattern].concat()
    };
    patterns.iter().flat_map(pattern).collect()
}

/// What a buffer holds after a call, all of it, or the number.
fn after(length: usize, call: impl FnOnce(&mut [u8]) -> Result<usize, u8>) -> Result<Vec<u8>, u8> {
    let mut out = vec![FILL; length];
    let result = call(&mut out);
    let written = result.unwrap_or(0);
    assert!(out[written..].iter().all(|&byte| byte == FILL), "a byte after the line has changed");
    result.map(|length| out[..length].to_vec())
}

/// From a list, and from patterns one by one, which is the same.
fn joined(
    tag: &[u8],
    options: u8,
    reference: &[u8],
    patterns: &[&[u8]],
    length: usize,
) -> Result<Vec<u8>, u8> {
    let one_by_one = after(length, |out| {
        join(tag, options, reference, patterns, out).map_err(|refusal| refusal.number())
    });
    assert_eq!(of_list(tag, options, reference, &packed(patterns), length), one_by_one);
    one_by_one
}

fn of_list(
    tag: &[u8],
    options: u8,
    reference: &[u8],
    list: &[u8],
    length: usize,
) -> Result<Vec<u8>, u8> {
    after(length, |out| {
        join_packed(tag, options, reference, list, out).map_err(|refusal| refusal.number())
    })
}

fn check(cases: &[Case]) {
    for &(options, reference, patterns, expected) in cases {
        let expected = expected.map(|line| [line, b"\r\n"].concat());
        let given = joined(b"a", options, reference, patterns, ROOM);
        assert_eq!(given, expected, "{options} {reference:?} {patterns:?}");
        let Ok(line) = expected else { continue };
        assert_eq!(joined(b"a", options, reference, patterns, line.len()).as_ref(), Ok(&line));
        assert_eq!(joined(b"a", options, reference, patterns, line.len() - 1), Err(9));
        assert_eq!(joined(b"a", options, reference, patterns, 0), Err(9));
        check_taken(&line);
    }
}

/// A line that was written is answered, and a feeder hands it over whole.
fn check_taken(line: &[u8]) {
    let answered = answer_reading(0, Table::Packed(b""), &[], line, &mut [0; 4_096]);
    assert!(answered.is_ok(), "{answered:?}: {}", line.escape_ascii());
    let events = Feeder::default().feed(line);
    assert_eq!(events.last(), Some(&Event::Command(line.to_vec())), "{}", line.escape_ascii());
}

/// No options, each, some and all of them; RETURN of each kind, of two and of all.
#[test]
fn options() {
    let percent: &[&[u8]] = &[b"%"];
    check(&[
        (0, b"", &[b"%", b"Foo/*"], Ok(br#"a LIST () "" ("%" "Foo/*")"#)),
        (0, b"Foo/", percent, Ok(br#"a LIST () "Foo/" ("%")"#)),
        (1, b"", &[b"%", b"%"], Ok(br#"a LIST (SUBSCRIBED) "" ("%" "%")"#)),
        (2, b"", percent, Ok(br#"a LIST (REMOTE) "" ("%")"#)),
        (3, b"", percent, Ok(br#"a LIST (SUBSCRIBED REMOTE) "" ("%")"#)),
        (5, b"", percent, Ok(br#"a LIST (SUBSCRIBED RECURSIVEMATCH) "" ("%")"#)),
        (8, b"", percent, Ok(br#"a LIST (SPECIAL-USE) "" ("%")"#)),
        (12, b"", percent, Ok(br#"a LIST (RECURSIVEMATCH SPECIAL-USE) "" ("%")"#)),
        (
            15,
            b"",
            percent,
            Ok(br#"a LIST (SUBSCRIBED RECURSIVEMATCH SPECIAL-USE REMOTE) "" ("%")"#),
        ),
        (16, b"", percent, Ok(br#"a LIST () "" ("%") RETURN (SUBSCRIBED)"#)),
        (32, b"", percent, Ok(br#"a LIST () "" ("%") RETURN (CHILDREN)"#)),
        (64, b"", percent, Ok(br#"a LIST () "" ("%") RETURN (SPECIAL-USE)"#)),
        (80, b"", percent, Ok(br#"a LIST () "" ("%") RETURN (SUBSCRIBED SPECIAL-USE)"#)),
        (97, b"", percent, Ok(br#"a LIST (SUBSCRIBED) "" ("%") RETURN (CHILDREN SPECIAL-USE)"#)),
        (
            127,
            b"",
            percent,
            Ok(concat!(
                r#"a LIST (SUBSCRIBED RECURSIVEMATCH SPECIAL-USE REMOTE) "" ("%")"#,
                " RETURN (SUBSCRIBED CHILDREN SPECIAL-USE)"
            )
            .as_bytes()),
        ),
    ]);
}

/// Every number: 6 with another bit than the seven, 7 with RECURSIVEMATCH and no criterion beside it.
#[test]
fn every_number_of_options() {
    for number in 0..=u8::MAX {
        let (selection, _) = options_of(number);
        let expected = match number {
            _ if number > MAX_OPTIONS => Err(6),
            _ if selection.recursive_match && !selection.subscribed && !selection.special_use => {
                Err(7)
            }
            _ => Ok(()),
        };
        let given = joined(b"a", number, b"", &[b"%"], ROOM);
        assert_eq!(given.as_ref().map(drop).map_err(|number| *number), expected, "{number}");
        given.into_iter().for_each(|line| check_taken(&line));
    }
}

/// Quotes and backslashes, and a literal where a byte cannot stand in quotes, at each place.
#[test]
fn strings() {
    check(&[
        (0, b"a\"b", &[b"c\\d"], Ok(br#"a LIST () "a\"b" ("c\\d")"#)),
        (0, b"Caf\xC3\xA9", &[b"%"], Ok(b"a LIST () {5}\r\nCaf\xC3\xA9 (\"%\")")),
        (
            0,
            b"",
            &[b"a\r\nb", b"\xFF", b"%"],
            Ok(b"a LIST () \"\" ({4}\r\na\r\nb {1}\r\n\xFF \"%\")"),
        ),
        (16, b"", &[b"\x80"], Ok(b"a LIST () \"\" ({1}\r\n\x80) RETURN (SUBSCRIBED)")),
        (0, b"\r", &[b"\n"], Ok(b"a LIST () {1}\r\n\r ({1}\r\n\n)")),
        (0, b"\x01\x7F", &[b"\t"], Ok(b"a LIST () \"\x01\x7F\" (\"\t\")")),
        (0, b"\"\x80\\", &[b""], Ok(b"a LIST () {3}\r\n\"\x80\\ (\"\")")),
        (0, b"", &[b"", b"x", b""], Ok(br#"a LIST () "" ("" "x" "")"#)),
        (0, b"{3}", &[b"{1}"], Ok(br#"a LIST () "{3}" ("{1}")"#)),
        (0, b"", &[b") RETURN ("], Ok(br#"a LIST () "" (") RETURN (")"#)),
        (0, b"\0", &[b"%"], Err(3)),
        (0, b"", &[b"%", b"a\0"], Err(3)),
        (0, b"", &[b"%", b"\xFF\0"], Err(3)),
    ]);
}

/// Bytes of one value: in quotes, or as a literal with its length in as few digits as it has.
#[test]
fn every_byte() {
    for byte in 0..=u8::MAX {
        let string = match byte {
            0 => None,
            b'\r' | b'\n' | 0x80.. => Some([b"{1}\r\n".as_slice(), &[byte]].concat()),
            b'"' | b'\\' => Some(vec![b'"', b'\\', byte, b'"']),
            _ => Some(vec![b'"', byte, b'"']),
        };
        let parts = |place: &[u8], others: [&[u8]; 2]| [others[0], place, others[1]].concat();
        for (given, around) in [
            (joined(b"a", 0, &[byte], &[b""], ROOM), [b"a LIST () ".as_slice(), b" (\"\")\r\n"]),
            (joined(b"a", 0, b"", &[&[byte]], ROOM), [b"a LIST () \"\" (", b")\r\n"]),
        ] {
            let expected = string.as_ref().map(|string| parts(string, around)).ok_or(3);
            assert_eq!(given, expected, "{byte}");
        }
        let is_tag = byte.is_ascii_graphic() && !b"(){%*\"\\+".contains(&byte);
        let given = joined(&[byte], 0, b"", &[b"%"], ROOM);
        let expected = [&[byte], b" LIST () \"\" (\"%\")\r\n".as_slice()].concat();
        assert_eq!(given, if is_tag { Ok(expected) } else { Err(4) }, "{byte}");
    }
}

#[test]
fn lengths_of_literals() {
    for length in [1, 9, 10, 99, 100, 999, 1_000, 1_023, 1_024, 1_025] {
        let bytes = vec![0xC3; length];
        let header = format!("{{{length}}}\r\n");
        let line = [b"a LIST () ", header.as_bytes(), &bytes, b" (\"\")\r\n"].concat();
        let need = line.len();
        let expected = if length > 1_024 { Err(3) } else { Ok(line) };
        assert_eq!(joined(b"a", 0, &bytes, &[b""], ROOM), expected, "{length}");
        let alone = join(b"a", 0, b"", &[&bytes], &mut [0; ROOM]).map_err(|given| given.number());
        let expected = match length {
            1_025 => Err(3),
            256.. => Err(8),
            _ => Ok(need),
        };
        assert_eq!(alone, expected, "{length}");
    }
}

/// 2,048 bytes, and one more, by the tag, by the reference and by patterns.
#[test]
fn the_longest_line() {
    let x = |length: usize| vec![b'x'; length];
    assert_eq!(joined(b"a", 0, &x(2_029), &[b""], ROOM).map(|line| line.len()), Ok(2_048));
    assert_eq!(joined(b"a", 0, &x(2_030), &[b""], ROOM), Err(3));
    assert_eq!(joined(&x(2_030), 0, b"", &[b""], ROOM).map(|line| line.len()), Ok(2_048));
    assert_eq!(joined(&x(2_031), 0, b"", &[b""], ROOM), Err(3));
    let all = [x(255).as_slice(); 7].concat();
    let seven: Vec<&[u8]> = all.chunks(255).collect();
    let around = "a LIST () \"\" ()\r\n".len() + 7 * 257 + 6;
    for (last, expected) in [(2_048 - around - 3, Ok(2_048)), (2_048 - around - 2, Err(3))] {
        let (last, mut patterns) = (x(last), seven.clone());
        patterns.push(&last);
        let given = joined(b"a", 0, b"", &patterns, ROOM).map(|line| line.len());
        assert_eq!(given, expected);
    }
}

#[test]
fn patterns_at_their_limits() {
    let numbers: [&[u8]; 9] = [b"1", b"2", b"3", b"4", b"5", b"", b"7", b"8", b""];
    let [a200, a256, b55, b56, b255] =
        [(b'a', 200), (b'a', 256), (b'b', 55), (b'b', 56), (b'b', 255)]
            .map(|(byte, length)| vec![byte; length]);
    let quoted = |reference: &[u8], pattern: &[u8]| {
        [b"a LIST () \"".as_slice(), reference, b"\" (\"", pattern, b"\")"].concat()
    };
    check(&[
        (0, b"", &numbers[..8], Ok(br#"a LIST () "" ("1" "2" "3" "4" "5" "" "7" "8")"#)),
        (0, b"", &numbers, Err(8)),
        (0, &a200, &[&b55], Ok(&quoted(&a200, &b55))),
        (0, &a200, &[&b56], Err(8)),
        (0, b"", &[&b255], Ok(&quoted(b"", &b255))),
        (0, b"/", &[b"%", &b255], Err(8)),
        // An empty pattern has no canonical form.
        (0, &a256, &[b""], Ok(&quoted(&a256, b""))),
        (0, &a256, &[b"", b"x"], Err(8)),
    ]);
    // A pattern that no list holds.
    let refused = join(b"a", 0, b"", &[&a256], &mut [0; ROOM]).map_err(|given| given.number());
    assert_eq!(refused, Err(8));
}

/// 4: no tag, no pattern, and lists that their patterns do not fill.
#[test]
fn no_tag_or_no_pattern() {
    let tags: [&[u8]; 7] = [b"", b"+", b"a+", b"a b", b"a\0", b"\x80", b"a\r\n"];
    for tag in tags {
        assert_eq!(joined(tag, 0, b"", &[b"%"], ROOM), Err(4), "{tag:?}");
    }
    let line = joined(b"a2]", 0, b"Foo/", &[b"%"], ROOM);
    assert_eq!(line.as_deref(), Ok(b"a2] LIST () \"Foo/\" (\"%\")\r\n".as_slice()));
    assert_eq!(joined(b"a", 0, b"", &[], ROOM), Err(4));
    let lists: [&[u8]; 5] = [b"", b"\x01", b"\x01%\x03ab", b"\x01%\xFF", b"\x02%"];
    for list in lists {
        assert_eq!(of_list(b"a", 0, b"", list, ROOM), Err(4), "{list:?}");
    }
}

/// Two faults: 3 before 4, 4 before 6, 6 before 7, 7 before 8, 8 before 9.
#[test]
fn order_of_refusals() {
    let nine: &[&[u8]] = &[b"1", b"2", b"3", b"4", b"5", b"6", b"7", b"8", b"9"];
    for (tag, options, reference, patterns, length, expected) in [
        (b"+", 0, b"\0".as_slice(), &[b"%".as_slice()][..], ROOM, 3),
        (b"a", 0xFF, b"\0", nine, 0, 3),
        (b"+", 0x80, b"", &[b"%"], ROOM, 4),
        (b"a", 0x80, b"", &[], ROOM, 4),
        (b"+", 0x04, b"", nine, 0, 4),
        (b"a", 0x84, b"", &[b"%"], ROOM, 6),
        (b"a", 0x84, b"", nine, 0, 6),
        (b"a", 0x04, b"", nine, ROOM, 7),
        (b"a", 0x06, b"", nine, 0, 7),
        (b"a", 0x00, b"", nine, 0, 8),
        (b"a", 0x00, b"", &[b"%"], 0, 9),
    ] {
        assert_eq!(joined(tag, options, reference, patterns, length), Err(expected));
    }
    // A list that is not filled, and what its last pattern holds, up to the end of the list.
    assert_eq!(of_list(b"a", 0, b"", b"\x04a\0b", ROOM), Err(3));
    assert_eq!(of_list(b"a", 0x84, b"", b"\x04abc", ROOM), Err(4));
}

/// Over 2,048 bytes by options whose number is no set: their lower seven bits are written.
#[test]
fn length_counts_the_words() {
    let line = |options: u8, length: usize| {
        joined(&vec![b'x'; length], options, b"", &[b""], ROOM).map(|line| line.len())
    };
    let words =
        "SUBSCRIBED RECURSIVEMATCH SPECIAL-USE REMOTE RETURN (SUBSCRIBED CHILDREN SPECIAL-USE)";
    let most = 2_030 - words.len();
    assert_eq!(line(0x7F, most), Ok(2_048));
    assert_eq!(line(0x7F, most + 1), Err(3));
    assert_eq!(line(0xFF, most), Err(6));
    assert_eq!(line(0xFF, most + 1), Err(3));
}
