//! Streams of any bytes: however they are cut, they are answered alike, and as the second program does.

use std::io::{self, Read};

use second::{answer, Event, Feeder, Refusal, Store};
use serve::{converse, Account, Keeping, Rooms};

use crate::common::{client, no_wait, session_file, table_of, text};

/// Bytes that are read a few at a time.
struct Cut<'b> {
    bytes: &'b [u8],
    most: usize,
}

impl Read for Cut<'_> {
    fn read(&mut self, out: &mut [u8]) -> io::Result<usize> {
        let most = self.most.min(out.len());
        self.bytes.read(&mut out[..most])
    }
}

/// Pseudo-random numbers.
pub struct Numbers(pub u64);

impl Numbers {
    pub fn below(&mut self, end: usize) -> usize {
        self.0 ^= self.0 << 13;
        self.0 ^= self.0 >> 7;
        self.0 ^= self.0 << 17;
        (self.0 % end as u64) as usize
    }
}

const PIECES: [&[u8]; 24] = [
    b"a LIST \"\" *\r\n",
    b"b1 LSUB \"\" %\r\n",
    b"c LIST (SUBSCRIBED RECURSIVEMATCH) \"\" %\r\n",
    b"d SUBSCRIBE Foo/x\r\n",
    b"e UNSUBSCRIBE Foo/x\r\n",
    b"f SUBSCRIBE INBOX/",
    b"g NAMESPACE\r\n",
    b"h LIST {1}\r\nC ",
    b"{3}\r\nFoo",
    b"{2000}\r\n",
    b"{0}\r\n",
    b"\r\n",
    b"\r",
    b"\n",
    b"\0",
    b" ",
    b"\"",
    b"\\",
    b"(",
    b"}",
    b"\xFF\x80",
    b"SELECT",
    b"a",
    b"* ",
];

/// Bytes of which many are parts of commands.
pub fn random_stream(seed: u64, length: usize) -> Vec<u8> {
    let mut numbers = Numbers(seed);
    let mut stream = Vec::new();
    while stream.len() < length {
        match numbers.below(4) {
            0 => stream.push(numbers.below(256) as u8),
            _ => stream.extend_from_slice(PIECES[numbers.below(PIECES.len())]),
        }
    }
    stream
}

pub fn answered(stream: &[u8], most: usize) -> Vec<u8> {
    let account = Account::new(table_of(&session_file(), Rooms::PROGRAM), Keeping::default());
    let mut output = Vec::new();
    let mut input = Cut { bytes: stream, most };
    converse(&account, &client(), &mut input, &mut output, no_wait).expect("no error");
    output
}

#[test]
fn however_it_is_cut() {
    for seed in 1..40 {
        let stream = random_stream(seed, 3_000);
        let whole = answered(&stream, usize::MAX);
        for most in [1, 2, 7, 100] {
            assert_eq!(text(&answered(&stream, most)), text(&whole), "seed {seed}, {most}");
        }
    }
}

/// The second program's feeder and server, with the program's rooms.
#[test]
fn as_the_second_program() {
    let table = table_of(&session_file(), Rooms::PROGRAM);
    let packed = table.packed();
    let mut seen = [0; 17];
    for seed in 100..200 {
        let stream = random_stream(seed, 2_000);
        let told = answered(&stream, usize::MAX);
        let mut rest = &told[told.iter().position(|&byte| byte == b'\n').expect("a line") + 1..];
        let rows = second::packed::split_rows(&packed).0;
        let mut store = Store::of_rows(&rows);
        for event in Feeder::default().feed(&stream) {
            let (expected, number) = match event {
                Event::GoOn => (b"+ go\r\n".to_vec(), 0),
                Event::Refused(refusal) => (Vec::new(), refusal.number()),
                Event::Command(line) => command(&mut store, &line),
            };
            if number == 0 {
                rest = rest.strip_prefix(&expected[..]).expect("the same answer");
                continue;
            }
            seen[usize::from(number)] += 1;
            let end = rest.iter().position(|&byte| byte == b'\n').expect("a line") + 1;
            let line = text(&rest[..end]);
            let is_other_word = number == 5 && line.contains(" NO [CANNOT] ");
            assert!(is_other_word || line.contains(&format!(" [refusal {number}] ")), "{line}");
            rest = &rest[end..];
        }
        // The last bytes may be a line that ended in LF alone.
        let is_told = rest.is_empty()
            || stream.ends_with(b"\n") && rest.starts_with(b"* BAD a line ended in LF");
        assert!(is_told, "{}", text(rest));
    }
    // The stream reaches 3, 4, 5 and 14.
    assert!([3, 4, 5, 14].iter().all(|&number| seen[number] > 0), "{seen:?}");
}

const NAMESPACES: &[u8] = b"\0\0/\x02\x09#sha\"red//";

/// An answer, or the number of a refusal.
fn command(store: &mut Store, line: &[u8]) -> (Vec<u8>, u8) {
    let mut out = vec![0; Rooms::PROGRAM.answer];
    let answered: Result<_, Refusal> =
        store.lend(|lent| answer(0, lent, NAMESPACES, line, &mut out));
    match answered {
        Ok(answered) => (out[..answered.length].to_vec(), 0),
        Err(refusal) => (Vec::new(), refusal.number()),
    }
}
