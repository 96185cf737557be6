//! Set-ups, exchanges and walks as data, and the checks of them.

use second::namespaces::Entry;
use second::rows::{Flags, Row};
use second::{
    answer, answer_reading, check_table, collect, frames, Reader, Readers, Record, Refusal, Store,
    Summary, Table,
};

/// What a lent buffer holds before a call.
pub const FILL: u8 = 0xA5;
/// The set of all readers.
pub const ALL: u8 = 0xFF;
/// What the numbers of spare records hold, which nothing looks at.
pub const SPARE_SUMMARY: Summary = Summary {
    subscribed_local: 0xFFFF,
    subscribed_remote: 1,
    existing_local: 2,
    existing_remote: 3,
};

/// Rows, each as a name and its flags in words or in four digits. All readers see a row, or those whose
/// digits stand after `to:` as a last word.
pub type Rows<'a> = [(&'a str, &'a str)];
/// Namespace entries, each as class, prefix and delimiter.
pub type Entries<'a> = [(u8, &'a str, Option<u8>)];
/// A command without its CR LF, and the lines of its answer without theirs, or the refusal.
pub type Exchange<'a> = (&'a str, Result<&'a [&'a str], u8>);

/// The names that a walk leaves in found and in pending, and the number of commands sent.
pub type Walked<'a> = (usize, &'a [&'a str], &'a [&'a str]);

/// Numbers that differ, the same in each run.
pub struct Numbers(pub u64);

impl Numbers {
    pub fn below(&mut self, bound: usize) -> usize {
        self.0 = self.0.wrapping_mul(6_364_136_223_846_793_005).wrapping_add(1);
        (self.0 >> 33) as usize % bound
    }
}

/// The bytes of a table.
pub fn table_of(rows: &Rows) -> Vec<u8> {
    let row = |&(name, words): &(&str, &str)| {
        let (words, readers) = split_readers(words);
        Row { flags: flags_of(words), readers, name: name.as_bytes() }
            .to_bytes()
            .expect("a name of at most 255 bytes")
    };
    rows.iter().flat_map(row).collect()
}

/// A table in three forms that mean the same rows.
pub struct Forms {
    packed: Vec<u8>,
    /// The records of the packed table, over its bytes.
    in_place: Store,
    /// Records over an area where the names lie in the other order, and one that is spare.
    turned: Store,
}

/// What lies before each name of the turned form.
const UNUSED: &[u8] = b"%\0";

impl Forms {
    pub fn of(rows: &Rows) -> Forms {
        let packed = table_of(rows);
        let in_place = Store::of_packed(&packed).expect("a table of at most 32,768 bytes");
        let (mut turned, mut area) = (in_place.records.clone(), Vec::new());
        for (record, (name, _)) in turned.iter_mut().zip(rows).rev() {
            area.extend_from_slice(UNUSED);
            record.start = u16::try_from(area.len()).expect("a small area");
            area.extend_from_slice(name.as_bytes());
        }
        turned.push(Record { flags: 0xFFFF, start: 0, len: 0xFF, readers: ALL });
        let mut turned = Store::counted(turned, in_place.count, area);
        turned.summary[in_place.count] = SPARE_SUMMARY;
        Forms { packed, in_place, turned }
    }

    /// The forms of records, to be lent to be changed.
    pub fn stores(&self) -> [Store; 2] {
        [self.in_place.clone(), self.turned.clone()]
    }

    pub fn tables(&self) -> [Table<'_>; 3] {
        let [in_place, turned] =
            [&self.in_place, &self.turned].map(|store| Table::Records(store.as_records()));
        [Table::Packed(&self.packed), in_place, turned]
    }
}

/// Whether the rows pass check 1, in every form.
pub fn rows_pass(rows: &Rows) -> bool {
    let [packed, in_place, turned] = Forms::of(rows).tables().map(check_table);
    assert_eq!([in_place, turned], [packed; 2], "{rows:?}");
    packed
}

/// Checks a dialogue as the RFCs print it: commands behind `C:`, the lines of their answers
/// behind `S:`.
pub fn check_dialogue(rows: &Rows, dialogue: &str) {
    check_dialogue_with(rows, &[], dialogue);
}

/// The same with a namespace list.
pub fn check_dialogue_with(rows: &Rows, entries: &Entries, dialogue: &str) {
    let lines: Vec<&str> =
        dialogue.lines().map(str::trim).filter(|line| !line.is_empty()).collect();
    let is_either = |line: &&str| line.starts_with("C: ") || line.starts_with("S: ");
    assert!(!lines.is_empty() && lines.iter().all(is_either), "not a dialogue");
    for exchange in lines.chunk_by(|_, line| line.starts_with("S: ")) {
        let text: Vec<&str> = exchange.iter().map(|line| &line[3..]).collect();
        check_with(rows, entries, &[(text[0], Ok(&text[1..]))]);
    }
}

/// Runs each command of reader 0, no edit, over every form of the same table, and checks its answer, the
/// bytes behind it, and on refusal every byte of the buffer. Records stay as they are.
pub fn check(rows: &Rows, exchanges: &[Exchange]) {
    check_from(0, rows, &[], exchanges);
}

/// The same with a namespace list.
pub fn check_with(rows: &Rows, entries: &Entries, exchanges: &[Exchange]) {
    check_from(0, rows, entries, exchanges);
}

/// The same of any reader.
pub fn check_from(reader: u8, rows: &Rows, entries: &Entries, exchanges: &[Exchange]) {
    let namespaces: Vec<u8> = entries.iter().flat_map(entry_bytes).collect();
    let forms = Forms::of(rows);
    for table in forms.tables() {
        check_answers(exchanges, |line, out| answer_reading(reader, table, &namespaces, line, out));
    }
    for mut store in forms.stores() {
        let before = store.clone();
        check_answers(exchanges, |line, out| {
            let answered = store.lend(|lent| answer(reader, lent, &namespaces, line, out))?;
            assert!(!answered.is_edit && !answered.changed);
            Ok(answered.length)
        });
        assert_eq!(store, before);
    }
}

/// "9: the whole answer, tagged line included; equal length fits." Runs a command over every form of a
/// table, in buffers of every length up to one more than that of its answer, given by its lines.
pub fn check_rooms(rows: &Rows, command: &str, lines: &[&str]) {
    let expected: String = lines.iter().map(|line| format!("{line}\r\n")).collect();
    let line = format!("{command}\r\n");
    for room in 0..=expected.len() + 1 {
        let (result, written) = if room < expected.len() {
            (Err(Refusal::AnswerRoom), "")
        } else {
            (Ok(expected.len()), expected.as_str())
        };
        for table in Forms::of(rows).tables() {
            let mut out = vec![FILL; room];
            let given = answer_reading(0, table, &[], line.as_bytes(), &mut out);
            assert_eq!(given, result, "{command}");
            let (text, behind) = out.split_at(written.len());
            assert_eq!(text, written.as_bytes(), "{command}");
            assert!(behind.iter().all(|&byte| byte == FILL), "{command}: bytes behind changed");
        }
    }
}

fn check_answers(
    exchanges: &[Exchange],
    mut answer: impl FnMut(&[u8], &mut [u8]) -> Result<usize, Refusal>,
) {
    for (command, expected) in exchanges {
        let line = format!("{command}\r\n");
        let mut out = vec![FILL; frames::ANSWER_ROOM];
        let result = answer(line.as_bytes(), &mut out).map_err(Refusal::number);
        let (text, behind) = out.split_at(result.unwrap_or(0));
        let text = str::from_utf8(text).expect("an answer of ASCII");
        let lines: Vec<&str> = text.split_terminator("\r\n").collect();
        assert_eq!(result.map(|_| lines.as_slice()), *expected, "{command}");
        assert!(result.is_err() || text.ends_with("\r\n"), "{command}: no CR LF at the end");
        assert!(behind.iter().all(|&byte| byte == FILL), "{command}: bytes behind changed");
    }
}

/// Runs a walk of reader 0 over every form of a table in buffers of these lengths, and checks every byte
/// of the three.
pub fn check_walk(rows: &Rows, option: u8, rooms: [usize; 3], expected: Result<Walked, u8>) {
    check_walk_from(0, rows, option, rooms, expected);
}

/// The same of any reader.
pub fn check_walk_from(
    reader: u8,
    rows: &Rows,
    option: u8,
    rooms: [usize; 3],
    expected: Result<Walked, u8>,
) {
    for table in Forms::of(rows).tables() {
        let [mut scratch, mut found, mut pending] = rooms.map(|room| vec![FILL; room]);
        let result = collect(reader, table, option, &mut scratch, &mut found, &mut pending);
        check_walked(result, [scratch, found, pending], expected);
    }
}

fn check_walked(
    result: Result<(usize, usize), Refusal>,
    [scratch, found, pending]: [Vec<u8>; 3],
    expected: Result<Walked, u8>,
) {
    let (found_names, pending_names) = match expected {
        Ok((_, found, pending)) => (names_bytes(found), names_bytes(pending)),
        Err(_) => (vec![], vec![]),
    };
    assert_eq!(
        result.map_err(Refusal::number),
        expected.map(|(count, ..)| (count, found_names.len()))
    );
    assert!(scratch.iter().all(|&byte| byte == 0));
    for (buffer, names) in [(found, found_names), (pending, pending_names)] {
        assert_eq!(buffer[..names.len()], names);
        assert!(buffer[names.len()..].iter().all(|&byte| byte == 0));
    }
}

/// The words of flags, and the readers whose digits stand after them, or all.
fn split_readers(words: &str) -> (&str, Readers) {
    let Some((words, digits)) = words.split_once(" to:") else {
        return (words, Readers::ALL);
    };
    let mut readers = Readers::NONE;
    for digit in digits.bytes() {
        readers.add(Reader::checked(digit - b'0').expect("a digit of a reader"));
    }
    (words, readers)
}

/// The words for flags, in the order of their bits.
const FLAG_WORDS: [(&str, Flags); 14] = [
    ("exists", Flags::EXISTS),
    ("subscribed", Flags::SUBSCRIBED),
    ("remote", Flags::REMOTE),
    ("noselect", Flags::NO_SELECT),
    ("noinferiors", Flags::NO_INFERIORS),
    ("marked", Flags::MARKED),
    ("unmarked", Flags::UNMARKED),
    ("all", Flags::ALL),
    ("archive", Flags::ARCHIVE),
    ("drafts", Flags::DRAFTS),
    ("flagged", Flags::FLAGGED),
    ("junk", Flags::JUNK),
    ("sent", Flags::SENT),
    ("trash", Flags::TRASH),
];

/// Flags from their words, or from four digits.
fn flags_of(words: &str) -> Flags {
    let mut flags = Flags::IMPLIED;
    for word in words.split(' ') {
        let named = FLAG_WORDS.iter().find(|(name, _)| *name == word).map(|(_, flag)| *flag);
        let number = || Flags::from_bits(u16::from_str_radix(word, 16).expect("four digits"));
        flags.add(named.unwrap_or_else(number));
    }
    flags
}

fn names_bytes(names: &[&str]) -> Vec<u8> {
    let name = |name: &&str| [&[name.len() as u8], name.as_bytes()].concat();
    names.iter().flat_map(name).collect()
}

fn entry_bytes(&(class, prefix, delimiter): &(u8, &str, Option<u8>)) -> Vec<u8> {
    let entry = Entry { class, prefix: prefix.as_bytes(), delimiter };
    entry.to_bytes().expect("a prefix of at most 255 bytes")
}
