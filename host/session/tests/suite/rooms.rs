//! Buffers that are too small: what was too long, and what can be done.

use formats::sizes::{ROOM_ANSWER, ROOM_FOUND, ROOM_PENDING, ROOM_SCRATCH};
use session::Form;

use crate::common::printed;

/// So many rows, each below a name of the top level that has no row.
pub fn wide_account(count: usize) -> String {
    (0..count).map(|at| format!("mailbox \"Client {at:03}/Mail\" exists subscribed\n")).collect()
}

const REMEDY_OF_WALKS: &str = "what can be done: walk large in place of walk, which goes through \
                               luspemaro_collect of the library with larger buffers\n";

#[test]
fn numbers_are_the_headers() {
    let header = include_str!("../../../../include/luspemaro.h");
    let defined = |name: &str| {
        let mut lines = header.lines().map(str::split_whitespace);
        let mut line = lines.find(|line| line.clone().nth(1) == Some(name)).expect(name);
        line.nth(2).and_then(|number| number.parse().ok()).unwrap_or_else(|| panic!("{name}"))
    };
    let rooms = [ROOM_ANSWER, ROOM_SCRATCH, ROOM_FOUND, ROOM_PENDING];
    for (room, name) in rooms.into_iter().zip(["ANSWER", "SCRATCH", "FOUND", "PENDING"]) {
        assert_eq!(room, defined(&format!("LUSPEMARO_ROOM_{name}")), "{name}");
    }
}

/// An account of 240 names at its top level.
#[test]
fn a_walk_whose_answer_is_too_long() {
    let text = printed(wide_account(240) + "walk\n", Form::Text);
    let line = "* LIST (\\NonExistent) \"/\" \"Client 000\" (\"CHILDINFO\" (\"SUBSCRIBED\"))\r\n";
    let length = 240 * line.len() + "w OK done\r\n".len();
    let explained = format!(
        "Refused    9: answer longer than its buffer\n\
         Explained  the answer to w LIST (SUBSCRIBED RECURSIVEMATCH) \"\" \"%\" has {length} bytes, \
         and the buffer of the program 16384; {REMEDY_OF_WALKS}"
    );
    assert!(text.contains(&explained), "{text}");
    let text = printed(wide_account(230) + "walk\n", Form::Text);
    assert!(text.contains("Answer     231 commands sent, 230 mailboxes found\n"), "{text}");
}

/// The answer that is too long need not be the first one.
#[test]
fn a_walk_whose_later_answer_is_too_long() {
    let rows = wide_account(230).replace("\"Client", "\"All of our clients/Client");
    let text = printed(rows + "walk\n", Form::Text);
    let command =
        "the answer to w LIST (SUBSCRIBED RECURSIVEMATCH) \"All of our clients/\" \"%\" has ";
    assert!(text.contains(command), "{text}");
}

#[test]
fn walks_that_find_or_keep_too_much() {
    let long = |levels: &str| -> String {
        let name = |at: usize| format!("{at:03}-{}", "n".repeat(60));
        let row = |at| format!("mailbox {}{levels} exists subscribed\n", name(at));
        (0..130).map(row).collect()
    };
    let text = printed(long("") + "walk\n", Form::Text);
    let found = 130 * (1 + 64);
    let explained = format!(
        "Refused    10: find does not fit\nExplained  the names to be found, each with a length \
         byte, have {found} bytes, and the buffer of the program 8192; {REMEDY_OF_WALKS}"
    );
    assert!(text.contains(&explained), "{text}");

    let deep: String = (0..70)
        .map(|at| format!("mailbox {at:02}{} exists subscribed\n", "/n".repeat(15)))
        .collect();
    let text = printed(deep + "walk\n", Form::Text);
    let pending: usize = 70 * (0..15).map(|level| 1 + 2 + 2 * level).sum::<usize>();
    let explained =
        format!("the names to ask below, each with a length byte, have {pending} bytes");
    assert!(text.contains("Refused    11: ") && text.contains(&explained), "{text}");
}

#[test]
fn a_command_whose_answer_is_too_long() {
    let text = printed(wide_account(400) + "command a LIST \"\" *\n", Form::Text);
    let length = 400 * "* LIST () \"/\" \"Client 000/Mail\"\r\n".len() + "a OK done\r\n".len();
    assert!(length < 16_384 && text.contains("Answer     * LIST"), "{text}");
    let text = printed(wide_account(400) + "command a LIST \"\" (* %)\n", Form::Text);
    let levels = 400 * "* LIST (\\NonExistent \\HasChildren) \"/\" \"Client 000\"\r\n".len();
    let explained = format!(
        "Explained  the answer has {} bytes, and the buffer of the program \
                             16384; what can be done: ask for fewer names at a time, by a longer \
                             reference or level by level with %; or lend luspemaro_answer of the \
                             library a larger buffer, as ./serve does\n",
        length + levels
    );
    assert!(text.contains(&explained), "{text}");
}

/// After edits the length is that of the table as they left it.
#[test]
fn after_edits() {
    let rows = wide_account(230);
    let edits: String = (230..240).map(|at| format!("subscribe \"Client {at}/Mail\"\n")).collect();
    let text = printed(rows + &edits + "walk\n", Form::Text);
    assert!(text.contains("\"\" \"%\" has 16571 bytes, and"), "{text}");
}
