//! Sessions for W5 (document 02): subscribed names by LSUB, levels above them, and what is off its
//! grammar.

use formats::frames::SentFrame;
use formats::rows::Flags;
use second::command::MAX_CANONICAL;

use crate::commands::{damaged, pattern, push_in_some_case, tag_and_space};
use crate::random::Random;
use crate::sending::Sending;
use crate::strings::{header_of, push_string};
use crate::tables::{good_table, names_of, NewRow};

/// Patterns that match wherever they stand, INBOX in any case of letters among them.
const PATTERNS: [&[u8]; 16] = [
    b"%", b"%", b"*", b"", b"%%", b"*%", b"%*", b"%/%", b"*/%", b"in%", b"inbox", b"iNbOx%",
    b"INBOX/%", b"inbox/%", b"inbox*", b"Foo%",
];
/// What is put behind a pattern; most of them make it end in "%".
const ENDS: [&[u8]; 10] = [b"%", b"%", b"/%", b"/%", b"%%", b"*%", b"", b"*", b"/*", b"%*"];
/// Commands off the grammar of LSUB, or with another word, where some of LIST are lawful.
const OFF_GRAMMAR: [&str; 26] = [
    "a LSUB",
    "a LSUB ",
    "a LSUB \"\"",
    "a LSUB \"\" ",
    "a LSUB  \"\" %",
    "a LSUB \"\"  %",
    "a LSUB \"\" % ",
    "a LSUB \"\"%",
    "a LSUB(\"\" %",
    "a LSUB] \"\" %",
    "a LSUB () \"\" %",
    "a LSUB (SUBSCRIBED) \"\" %",
    "a LSUB (FOO (x)) \"\" %",
    "a LSUB \"\" (%)",
    "a LSUB \"\" ()",
    "a LSUB \"\" (% *)",
    "a LSUB \"\" % *",
    "a LSUB \"\" % RETURN ()",
    "a LSUB \"\" % RETURN (CHILDREN)",
    "a LSUB % %",
    "a LSUB \"\" \"%",
    "a LSUB \"\" \"\\%\"",
    "a LSUB \"\" %{1}\r\n%",
    "a LSUBS \"\" %",
    "a LSU \"\" %",
    "a LSUB+ \"\" %",
];

/// Lawful commands over a table, some that are damaged or off the grammar, and the longest patterns.
pub fn subscribed_names(random: &mut Random) -> Vec<SentFrame> {
    let count = random.within(0..=30);
    let rows = subscriptions(random, count);
    let names = names_of(&rows);
    let mut sending = Sending::over(random, &rows);
    sending.commands(30, |random| {
        let line = lsub_command(random, &names);
        if random.percent(20) {
            damaged(random, line)
        } else {
            line
        }
    });
    for _ in 0..6 {
        let text = sending.random.pick(&OFF_GRAMMAR);
        sending.command_text(text);
    }
    longest_patterns(&mut sending);
    sending.frames
}

/// An LSUB on the grammar, with its CR LF; its pattern is made from the names.
pub fn lsub_command(random: &mut Random, names: &[Vec<u8>]) -> Vec<u8> {
    let mut line = tag_and_space(random);
    push_in_some_case(&mut line, random, b"LSUB");
    line.push(b' ');
    let mut canonical = if random.percent(30) {
        random.pick(&PATTERNS).to_vec()
    } else {
        [pattern(random, names).as_slice(), random.pick(&ENDS)].concat()
    };
    canonical.truncate(MAX_CANONICAL);
    let at = match random.below(10) {
        0..5 => 0,
        5 => canonical.len(),
        _ => random.below(canonical.len() + 1),
    };
    let (reference, behind) = canonical.split_at(at);
    push_string(&mut line, random, reference, b"");
    line.push(b' ');
    push_string(&mut line, random, behind, b"%*");
    line.extend_from_slice(b"\r\n");
    line
}

/// A table that passes, of which most or few of the existing rows are subscribed.
pub fn subscriptions(random: &mut Random, count: usize) -> Vec<NewRow> {
    let mut rows = good_table(random, count);
    let dropped = *random.pick(&[&0, &50, &90]);
    for row in rows.iter_mut().filter(|row| row.flags.has(Flags::EXISTS)) {
        if random.percent(dropped) {
            row.flags.remove(Flags::SUBSCRIBED);
        }
    }
    rows
}

/// Canonical patterns of 255 bytes and of one more, reference and pattern in any shares; and an empty
/// pattern behind such a reference.
fn longest_patterns(sending: &mut Sending) {
    for length in [MAX_CANONICAL, MAX_CANONICAL + 1] {
        let at = sending.random.below(length);
        let (reference, behind) = ("%".repeat(at), "%".repeat(length - at));
        sending.command_text(&format!("a LSUB \"{reference}\" {behind}"));
        let (one, other) = (header_of(at, 0), header_of(length - at, 0));
        sending.command_text(&format!("a LSUB {one}{reference} {other}{behind}"));
        sending.command_text(&format!("a LSUB \"{reference}{behind}\" \"\""));
    }
}
