//! An account: the table, its review file, its record and its log. Commands of all connections have one order,
//! which is the record's and the log's, and each is answered over the table that the edits before it left.
//!
//! A command that reads is answered over a copy of the table, beside others, and has its place in the order when it
//! is written. If a row was changed meanwhile, its answer may be an old one, so it is answered again.

use std::fmt;
use std::io;
use std::sync::{Mutex, MutexGuard};

use luspemaro::{Answered, Refusal};

use crate::decided::{Client, Decided};
use crate::keeping::Keeping;
use crate::log::Peer;
use crate::rooms::Rooms;
use crate::table::Table;
use crate::turns::Turns;
use crate::words::{is_about_line, is_edit, own_answer};

/// What is served.
pub struct Account {
    /// Locked for a short while, and while an edit is decided and written.
    state: Mutex<State>,
    /// An edit has a turn alone. A reading that edits have overtaken too often shares one, so that none overtakes it.
    turns: Turns,
    rooms: Rooms,
}

struct State {
    /// Where an edit is decided.
    table: Table,
    /// The same between two edits. It is what the table was before an edit that cannot be written.
    copy: Table,
    /// The number of edits that have changed a row.
    edits: u64,
    /// Copies of the table as it is that no reading has.
    spare: Vec<Lent>,
    keeping: Keeping,
    /// All is written, and nothing is decided any more.
    has_ended: bool,
}

/// A copy of the table over which a reading is answered.
struct Lent {
    table: Table,
    /// The number of edits that it has.
    edits: u64,
}

/// How often a reading is answered beside edits before they wait for it.
const FREE_TRIES: usize = 3;
/// The most copies of the table that are kept for later readings.
const MOST_SPARE: usize = 8;

const FAILED: &str = "the server has failed before, so nothing is decided any more";
const ENDED: &str = "the server ends, so the command is not answered";

impl Account {
    /// An account without edits or commands so far.
    pub fn new(table: Table, keeping: Keeping) -> Account {
        let (copy, rooms) = (table.clone(), table.rooms());
        let state = State { table, copy, edits: 0, spare: Vec::new(), keeping, has_ended: false };
        Account { state: Mutex::new(state), turns: Turns::default(), rooms }
    }

    /// Memory for the longest answer.
    pub fn answer_memory(&self) -> Vec<u8> {
        vec![0; self.rooms.answer]
    }

    /// Decides one command, and writes it where it has to be.
    pub fn decide(&self, client: &Client, line: &[u8], out: &mut [u8]) -> Decided {
        let decided =
            if is_edit(line) { self.edit(client, line, out) } else { self.read(client, line, out) };
        decided.unwrap_or_else(Decided::NotKept)
    }

    /// Decides an edit: on the table, then it is written, and only then is it kept; one that cannot be written is
    /// undone. Nothing is copied for one that changes no row. An error says why nothing is decided.
    fn edit(&self, client: &Client, line: &[u8], out: &mut [u8]) -> Result<Decided, &'static str> {
        let _turn = self.turns.alone();
        Ok(self.open()?.edit(client, line, out))
    }

    /// Decides a command that changes no row.
    fn read(&self, client: &Client, line: &[u8], out: &mut [u8]) -> Result<Decided, &'static str> {
        for _ in 0..FREE_TRIES {
            if let Some(decided) = self.try_read(client, line, out)? {
                return Ok(decided);
            }
        }
        let turn = self.turns.shared();
        let decided = self.try_read(client, line, out)?;
        drop(turn);
        // What still is not decided changes a row, so it is an edit, whatever its word.
        decided.map_or_else(|| self.edit(client, line, out), Ok)
    }

    /// Answers a command over a copy of the table, and writes it. None if a row was changed meanwhile, or if the
    /// command itself changes one: then nothing was done.
    fn try_read(
        &self,
        client: &Client,
        line: &[u8],
        out: &mut [u8],
    ) -> Result<Option<Decided>, &'static str> {
        let mut lent = self.open()?.lend();
        let answered = lent.table.answer(client.reader, line, out);
        if is_of_edit(answered) {
            return Ok(None);
        }
        Ok(self.open()?.end_reading(lent, client, line, answered, out))
    }

    /// Adds a line to the log, if there is one, of what is no command that was decided.
    pub fn note(&self, peer: Option<&Peer>, what: fmt::Arguments) -> io::Result<()> {
        let mut state = self.lock().map_err(io::Error::other)?;
        state.keeping.note(peer, None, what)
    }

    /// Returns when all that was written is on the disk. Nothing is decided after it.
    pub fn end(&self) -> io::Result<()> {
        let mut state = self.lock().map_err(io::Error::other)?;
        state.has_ended = true;
        state.keeping.note(None, None, format_args!("the server ends"))?;
        state.keeping.sync()
    }

    /// The table as it is.
    pub fn table(&self) -> Option<Table> {
        self.lock().ok().map(|state| state.table.clone())
    }

    /// The state while commands are decided, or why none is any more.
    fn open(&self) -> Result<MutexGuard<'_, State>, &'static str> {
        let state = self.lock()?;
        if state.has_ended {
            return Err(ENDED);
        }
        Ok(state)
    }

    /// An error after a thread has failed while it had the lock.
    fn lock(&self) -> Result<MutexGuard<'_, State>, &'static str> {
        self.state.lock().map_err(|_| FAILED)
    }
}

/// Whether the answer is one after which the memory of a table may be another.
fn is_of_edit(answered: Result<Answered, Refusal>) -> bool {
    match answered {
        Ok(Answered { changed, .. }) => changed,
        Err(refusal) => refusal == Refusal::NoRoom,
    }
}

impl State {
    fn edit(&mut self, client: &Client, line: &[u8], out: &mut [u8]) -> Decided {
        let answered = self.table.answer(client.reader, line, out);
        let decided = self.keep(client, line, answered, out);
        self.settle(answered, !matches!(decided, Decided::NotKept(_)));
        decided
    }

    /// A copy of the table as it is.
    fn lend(&mut self) -> Lent {
        let new = || Lent { table: self.table.clone(), edits: self.edits };
        self.spare.pop().unwrap_or_else(new)
    }

    /// Takes back a copy that a command left as it was, and writes the command, if the answer is that of the table as it
    /// is. None if a row was changed meanwhile.
    fn end_reading(
        &mut self,
        lent: Lent,
        client: &Client,
        line: &[u8],
        answered: Result<Answered, Refusal>,
        out: &[u8],
    ) -> Option<Decided> {
        if lent.edits == self.edits {
            self.spare.push(lent);
            self.spare.truncate(MOST_SPARE);
        } else if !answered.is_err_and(is_about_line) {
            return None;
        }
        Some(self.keep(client, line, answered, out))
    }

    /// Writes a command with what the library gives, at the front of `out`. Returns what the client is answered.
    fn keep(
        &mut self,
        client: &Client,
        line: &[u8],
        answered: Result<Answered, Refusal>,
        out: &[u8],
    ) -> Decided {
        let decided = match answered {
            Ok(Answered { length, .. }) => Decided::Answered(length),
            Err(Refusal::Word) => own_answer(line, client.accepts_login)
                .map_or(Decided::Refused(Refusal::Word), Decided::Own),
            Err(refusal) => Decided::Refused(refusal),
        };
        let answer = answered.map(|given| &out[..given.length]);
        let changed = answered.is_ok_and(|given| given.changed);
        self.keeping.keep(client, line, answer, decided, changed)
    }

    /// Makes table and copy the same again after an edit: one that is written is made in the copy too, and one
    /// that is not is undone. For what is refused with 15, names may have been moved together.
    fn settle(&mut self, answered: Result<Answered, Refusal>, is_written: bool) {
        match answered {
            Ok(Answered { changed: true, .. }) if is_written => {
                self.copy.clone_from(&self.table);
                self.edits += 1;
                self.spare.clear();
            }
            _ if is_of_edit(answered) => self.table.clone_from(&self.copy),
            _ => {}
        }
    }
}

/// As the log says it.
#[cfg(test)]
mod tests {
    use std::thread;

    use luspemaro::Reader;

    use crate::account::*;
    use crate::frame_file::tests::{Fails, Fake};
    use crate::frame_file::FrameFile;
    use crate::frame_log::FrameLog;
    use crate::keeping::{NOT_LOGGED, NOT_RECORDED, NOT_REVIEWED};
    use crate::log::Log;
    use crate::review::Review;

    const SUBSCRIBE: &[u8] = b"a SUBSCRIBE Foo\r\n";
    const LSUB: &[u8] = b"b LSUB \"\" *\r\n";

    struct Kept {
        account: Account,
        review: Fake,
        record: Fake,
        log: Fake,
    }

    fn kept() -> Kept {
        let table = Table::new(b"\0\x01\xFF\x03Foo", b"", Rooms::PROGRAM).expect("a table");
        let (review, record, log) = (Fake::default(), Fake::default(), Fake::default());
        let keeping = Keeping {
            review: Some(Review::of_file(FrameFile::new(review.clone(), 0))),
            record: Some(FrameLog::of_file(FrameFile::new(record.clone(), 0))),
            log: Some(Log::of_file(FrameFile::new(log.clone(), 0))),
        };
        Kept { account: Account::new(table, keeping), review, record, log }
    }

    fn client() -> Client {
        let peer = Peer { connection: 1, address: "tunnel".to_string() };
        Client { peer, reader: Reader::EDITOR, accepts_login: false, idle: None }
    }

    fn decide(account: &Account, line: &[u8]) -> Result<String, Decided> {
        let mut out = account.answer_memory();
        match account.decide(&client(), line, &mut out) {
            Decided::Answered(length) => Ok(String::from_utf8_lossy(&out[..length]).into_owned()),
            other => Err(other),
        }
    }

    /// The lines of a log, each from the number of the frame on.
    fn told(log: &Fake) -> Vec<String> {
        let rest = |line: &str| line.splitn(4, ' ').nth(3).unwrap_or_default().to_string();
        log.text().lines().map(rest).collect()
    }

    #[test]
    fn an_edit_that_cannot_be_reviewed_is_not_made() {
        for fails in
            [Fails { add: true, ..Fails::default() }, Fails { sync: true, ..Fails::default() }]
        {
            let Kept { account, review, record, log } = kept();
            let before = account.table();
            review.fail(fails);
            assert_eq!(decide(&account, SUBSCRIBE), Err(Decided::NotKept(NOT_REVIEWED)));
            assert_eq!(
                (account.table(), review.text(), record.text()),
                (before, String::new(), String::new())
            );
            assert_eq!(told(&log), [format!("- SUBSCRIBE server NO: {NOT_REVIEWED}")]);
            // What is no edit is answered.
            assert_eq!(decide(&account, LSUB).as_deref(), Ok("b OK done\r\n"));
            // A full disk may have room again; one that failed to sync is not trusted.
            review.fail(Fails::default());
            assert_eq!(decide(&account, SUBSCRIBE).is_ok(), fails.add);
        }
    }

    /// The table, and its copy.
    fn both(account: &Account) -> [Table; 2] {
        let state = account.state.lock().expect("a lock");
        [state.table.clone(), state.copy.clone()]
    }

    /// A copy that is another table stays so through commands that change no row.
    #[test]
    fn a_command_that_changes_no_row_copies_nothing() {
        let Kept { account, .. } = kept();
        let other = Table::new(b"\0\x02\xFF\x05Other", b"", Rooms::PROGRAM).expect("a table");
        let [table, _] = both(&account);
        account.state.lock().expect("a lock").copy = other.clone();
        let all = "* LIST () \"/\" \"Foo\"\r\na OK done\r\n";
        for (line, expected) in [
            ("a LIST \"\" *\r\n", Ok(all)),
            ("a LSUB \"\" *\r\n", Ok("a OK done\r\n")),
            ("a NAMESPACE\r\n", Ok("* NAMESPACE NIL NIL NIL\r\na OK done\r\n")),
            ("a UNSUBSCRIBE Foo\r\n", Ok("a OK done\r\n")),
            ("a SUBSCRIBE \"*\"\r\n", Err(())),
            ("a NOOP\r\n", Err(())),
        ] {
            let given = decide(&account, line.as_bytes());
            assert_eq!(given.as_deref().map_err(drop), expected, "{line}");
            assert_eq!(both(&account), [table.clone(), other.clone()], "{line}");
        }
        assert!(decide(&account, SUBSCRIBE).is_ok());
        let [table, copy] = both(&account);
        assert_eq!(table, copy);
    }

    /// What was answered over the table before an edit has no place after it, unless it is about the line alone.
    #[test]
    fn an_answer_that_an_edit_overtook_is_not_written() {
        let Kept { account, record, .. } = kept();
        let mut out = account.answer_memory();
        for (turn, (line, is_written)) in
            [(LSUB, false), (b"c NOOP\r\n", true), (b"c LIST (\r\n", true)].into_iter().enumerate()
        {
            let mut lent = account.open().expect("a state").lend();
            let answered = lent.table.answer(Reader::EDITOR, line, &mut out);
            let edit = format!("a SUBSCRIBE n{turn}\r\n");
            assert!(decide(&account, edit.as_bytes()).is_ok());
            let before = record.text().lines().count();
            let mut state = account.open().expect("a state");
            let decided = state.end_reading(lent, &client(), line, answered, &out);
            assert_eq!(decided.is_some(), is_written);
            assert_eq!(record.text().lines().count() - before, 2 * usize::from(is_written));
            assert!(state.spare.is_empty());
        }
    }

    /// Beside an edit that waits for its turn, everything else is decided.
    #[test]
    fn nobody_waits_for_an_edit_that_waits() {
        let Kept { account, .. } = kept();
        let turn = account.turns.shared();
        thread::scope(|scope| {
            let edit = scope.spawn(|| decide(&account, SUBSCRIBE));
            while !account.turns.has_waiting() {
                thread::yield_now();
            }
            assert_eq!(decide(&account, LSUB).as_deref(), Ok("b OK done\r\n"));
            assert!(matches!(decide(&account, b"c NOOP\r\n"), Err(Decided::Own(_))));
            account.note(None, format_args!("a line")).expect("a log");
            drop(turn);
            assert!(edit.join().expect("an edit").is_ok());
        });
        assert!(decide(&account, LSUB).is_ok_and(|answer| answer.contains("Foo")));
    }

    /// Only what changed a row is written to the review file, by what the library says of it.
    #[test]
    fn an_edit_that_changes_no_row_is_not_written() {
        let Kept { account, review, record, .. } = kept();
        let mut lines = 0;
        for (line, changed) in [
            ("a UNSUBSCRIBE Foo\r\n", false),
            ("a UNSUBSCRIBE nothing\r\n", false),
            ("a SUBSCRIBE Foo\r\n", true),
            ("a SUBSCRIBE Foo\r\n", false),
            ("a sUbScRiBe {3}\r\nNew\r\n", true),
            ("a LIST \"\" SUBSCRIBE\r\n", false),
            ("a UNSUBSCRIBE New\r\n", true),
        ] {
            // An edit that changes nothing needs no disk.
            review.fail(Fails { add: !changed, sync: !changed, ..Fails::default() });
            assert!(decide(&account, line.as_bytes()).is_ok(), "{line}");
            lines += usize::from(changed);
            assert_eq!(review.text().lines().count(), lines, "{line}");
        }
        assert_eq!(record.text().lines().count(), 2 * 7);
    }

    /// A table of which names have to be moved together before a name of 200 bytes finds room: two holes of 100
    /// bytes, and fewer than 200 free bytes at the end.
    fn with_holes() -> Table {
        let name = |row: usize| format!("{row:03}{}", "n".repeat(97));
        let row = |at: usize| [b"\0\x02\xFF\x64", name(at).as_bytes()].concat();
        let rows: Vec<u8> = (0..300).flat_map(row).collect();
        let mut table = Table::new(&rows, b"", Rooms::WIDE).expect("a table");
        let mut edit = |word: &str, name: &str| {
            let line = format!("a {word} {name}\r\n");
            let answered = table.answer(Reader::EDITOR, line.as_bytes(), &mut [0; 20]);
            assert!(answered.is_ok_and(|given| given.changed), "{name}");
        };
        (0..13).for_each(|at| edit("SUBSCRIBE", &format!("{at:02}{}", "e".repeat(198))));
        [10, 20].iter().for_each(|&at| edit("UNSUBSCRIBE", &name(at)));
        table
    }

    /// What was moved and inserted for an edit that cannot be written, or that is refused even so, is put back, to the
    /// last byte.
    #[test]
    fn names_that_were_moved_are_put_back() {
        let review = Fake::default();
        let file = FrameFile::new(review.clone(), 0);
        let keeping = Keeping { review: Some(Review::of_file(file)), ..Keeping::default() };
        let account = Account::new(with_holes(), keeping);
        let line = |byte: &str| format!("a SUBSCRIBE {}\r\n", byte.repeat(200)).into_bytes();
        let before = account.table();
        review.fail(Fails { add: true, ..Fails::default() });
        assert_eq!(decide(&account, &line("z")), Err(Decided::NotKept(NOT_REVIEWED)));
        assert_eq!(account.table(), before);
        review.fail(Fails::default());
        assert!(decide(&account, &line("z")).is_ok());
        let before = account.table();
        assert_eq!(decide(&account, &line("y")), Err(Decided::Refused(Refusal::NoRoom)));
        assert_eq!((account.table(), review.text().lines().count()), (before, 1));
        let [table, copy] = both(&account);
        assert_eq!(table, copy);
    }

    #[test]
    fn what_cannot_be_recorded_is_not_answered() {
        let Kept { account, review, record, log } = kept();
        let before = account.table();
        record.fail(Fails { add: true, ..Fails::default() });
        for line in [SUBSCRIBE, LSUB] {
            assert_eq!(decide(&account, line), Err(Decided::NotKept(NOT_RECORDED)));
        }
        assert_eq!(
            (account.table(), review.text(), record.text()),
            (before, String::new(), String::new())
        );
        record.fail(Fails::default());
        assert_eq!(decide(&account, SUBSCRIBE).as_deref(), Ok("a OK done\r\n"));
        assert_eq!(review.text().lines().count(), 1);
        assert_eq!(record.text().lines().count(), 2);
        let not = |word: &str| format!("- {word} server NO: {NOT_RECORDED}");
        let answered = "1 SUBSCRIBE answered 11 bytes".to_string();
        assert_eq!(told(&log), [not("SUBSCRIBE"), not("LSUB"), answered]);
    }

    #[test]
    fn what_cannot_be_logged_is_not_answered() {
        let Kept { account, review, record, log } = kept();
        let before = account.table();
        log.fail(Fails { add: true, ..Fails::default() });
        for line in [SUBSCRIBE, LSUB] {
            assert_eq!(decide(&account, line), Err(Decided::NotKept(NOT_LOGGED)));
        }
        assert_eq!(
            (account.table(), review.text(), record.text(), log.text()),
            (before, String::new(), String::new(), String::new())
        );
        log.fail(Fails::default());
        assert!(decide(&account, SUBSCRIBE).is_ok() && decide(&account, LSUB).is_ok());
        assert!(decide(&account, b"c NOOP\r\n").is_err());
        let lines = [
            "1 SUBSCRIBE answered 11 bytes",
            "3 LSUB answered 32 bytes",
            "5 NOOP refused 5, server OK",
        ];
        assert_eq!(told(&log), lines);
        // The number of each is that of its frame in the record.
        let frames = record.text();
        assert!([0, 2, 4]
            .iter()
            .all(|&at| frames.lines().nth(at).is_some_and(|f| f.starts_with("43"))));
    }

    /// After the end nothing is decided, and what cannot be synced is an error.
    #[test]
    fn the_end() {
        let Kept { account, log, .. } = kept();
        assert!(decide(&account, SUBSCRIBE).is_ok());
        account.end().expect("all is on the disk");
        assert_eq!(decide(&account, SUBSCRIBE), Err(Decided::NotKept(ENDED)));
        assert_eq!(told(&log).len(), 2);
        for fails_record in [true, false] {
            let Kept { account, record, log, .. } = kept();
            let failing = if fails_record { record } else { log };
            failing.fail(Fails { sync: true, ..Fails::default() });
            assert!(account.end().is_err());
        }
    }
}
