//! The collector's walk as a client of the server, over a socket: what it finds is what the proved walk
//! finds, with as many commands.

use luspemaro::{collect, read_line, Criteria, Reader, Records};
use serve::Rooms;

use crate::common::{file, large_session, session_file, table_of, Client, Server};

const REMOTE: u8 = 1;
const SPECIAL_USE: u8 = 2;
const WITHOUT_SUBSCRIBED: u8 = 4;
const LAWFUL: [u8; 6] = [0, 1, 2, 3, 6, 7];

const ATTRIBUTE_REMOTE: u16 = 0x0010;
const ATTRIBUTE_SUBSCRIBED: u16 = 0x0020;
const ATTRIBUTE_USES: u16 = 0x3F80;

/// Names, each with a length byte, and the number of commands.
#[derive(Debug, Default, PartialEq, Eq)]
struct Walked {
    commands: usize,
    found: Vec<u8>,
    pending: Vec<u8>,
}

fn push(names: &mut Vec<u8>, name: &[u8]) {
    names.push(name.len() as u8);
    names.extend_from_slice(name);
}

fn command(option: u8, reference: &[u8]) -> Vec<u8> {
    let words = [
        (option & WITHOUT_SUBSCRIBED == 0).then_some("SUBSCRIBED"),
        Some("RECURSIVEMATCH"),
        (option & SPECIAL_USE != 0).then_some("SPECIAL-USE"),
        (option & REMOTE != 0).then_some("REMOTE"),
    ];
    let words: Vec<&str> = words.into_iter().flatten().collect();
    let mut command = format!("w LIST ({}) ", words.join(" ")).into_bytes();
    formats::quoted::push_quoted(&mut command, reference);
    command.extend_from_slice(b" \"%\"\r\n");
    command
}

fn is_find(option: u8, attributes: u16) -> bool {
    (attributes & ATTRIBUTE_SUBSCRIBED != 0 || option & WITHOUT_SUBSCRIBED != 0)
        && (attributes & ATTRIBUTE_REMOTE == 0 || option & REMOTE != 0)
        && (attributes & ATTRIBUTE_USES != 0 || option & SPECIAL_USE == 0)
}

/// The walk over the wire.
fn walk(client: &mut Client, option: u8) -> Walked {
    let mut walked = Walked::default();
    let mut reference = Vec::new();
    let mut asked = 0;
    loop {
        let lines = client.command(&command(option, &reference));
        walked.commands += 1;
        let (last, lines) = lines.split_last().expect("a line");
        assert_eq!(last, b"w OK done\r\n");
        for line in lines {
            let line = read_line(line).expect("a LIST line");
            if is_find(option, line.attributes) {
                push(&mut walked.found, line.name());
            }
            if line.childinfo != Criteria::NONE {
                push(&mut walked.pending, line.name());
            }
        }
        let Some((&length, rest)) = walked.pending[asked..].split_first() else {
            return walked;
        };
        reference = [&rest[..usize::from(length)], b"/"].concat();
        asked += 1 + usize::from(length);
    }
}

/// The proved walk.
fn proved(reader: Reader, table: Records, option: u8) -> Walked {
    let (mut scratch, mut found, mut pending) =
        (vec![0; 147_456], vec![0; 33_280], vec![0; 491_520]);
    let walked = collect(reader, table, option, &mut scratch, &mut found, &mut pending);
    let walked = walked.expect("a walk");
    found.truncate(walked.found);
    let mut end = 0;
    while pending[end] != 0 {
        end += 1 + usize::from(pending[end]);
    }
    pending.truncate(end);
    Walked { commands: walked.commands, found, pending }
}

#[test]
fn walks_over_a_socket() {
    for path in [session_file(), file("large.session", large_session())] {
        let table = table_of(&path, Rooms::WIDE);
        let mut finds = 0;
        for number in [0, 1, 3] {
            let server = Server::start(&path, &["--reader", &number.to_string()]);
            let mut client = server.connect();
            let reader = Reader::new(number).expect("a reader");
            for option in LAWFUL {
                let expected = proved(reader, table.records(), option);
                assert_eq!(walk(&mut client, option), expected, "reader {number}, option {option}");
                finds += expected.found.len();
            }
        }
        assert!(finds > 0);
    }
}
