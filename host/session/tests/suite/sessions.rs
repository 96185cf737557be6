//! The bundled sessions, and the one of the README.

use std::collections::BTreeSet;

use session::Form;

use crate::common::{printed, run_on, summary, whole_text};

const CUSTOMERS: &str = include_str!("../../../sessions/customers.session");
const REFUSALS: &str = include_str!("../../../sessions/refusals.session");
const LITERALS: &str = include_str!("../../../sessions/literals.session");
const LSUB: &str = include_str!("../../../sessions/lsub.session");
const SPECIAL_FOLDERS: &str = include_str!("../../../sessions/special-folders.session");
const REVIEW: &str = include_str!("../../../sessions/review.session");
const READERS: &str = include_str!("../../../sessions/readers.session");
const README: &str = include_str!("../../../../README.md");

#[test]
fn the_night_of_customers_abc() {
    let text = printed(CUSTOMERS, Form::Text);
    let parts = [
        concat!("Command    a2 LIST (SUBSCRIBED) \"\" \"%\"\n", "Answer     a2 OK done\n"),
        concat!(
            "Command    w LIST (SUBSCRIBED RECURSIVEMATCH) \"\" \"%\"\n",
            "Answer     * LIST (\\NonExistent) \"/\" \"Customers\" (\"CHILDINFO\" (\"SUBSCRIBED\"))\n",
            "           w OK done\n",
        ),
        concat!(
            "Command    w LIST (SUBSCRIBED RECURSIVEMATCH) \"Customers/\" \"%\"\n",
            "Answer     * LIST (\\Subscribed) \"/\" \"Customers/ABC\"\n",
            "           w OK done\n",
        ),
        concat!(
            "Walk       option byte 0\n",
            "Answer     2 commands sent, 1 mailbox found\n",
            "           Customers/ABC\n",
        ),
    ];
    check_parts(&text, &parts);
}

/// Checks that the parts stand in a text in this order, the last of them at its end.
fn check_parts(text: &str, parts: &[&str]) {
    let mut rest = text;
    for part in parts {
        let at = rest.find(part).unwrap_or_else(|| panic!("{part} is not next in\n{text}"));
        rest = &rest[at + part.len()..];
    }
    assert_eq!(rest, "");
}

/// Literals are shown as they are written, and every byte of them is seen.
#[test]
fn commands_with_literals() {
    let text = printed(LITERALS, Form::Text);
    for part in [
        concat!(
            "Command    a LIST \"\" {8}\n",
            "           + Meeting*\n",
            "Answer     * LIST () \"/\" \"Meeting (old) {3}\"\n",
            "           * LIST () \"/\" \"Meeting/\\\"Minutes\\\"\"\n",
            "           a OK done\n",
        ),
        concat!(
            "Command    b LIST \"\" {17}\n",
            "           + Meeting (old) {3}\n",
            "Answer     * LIST () \"/\" \"Meeting (old) {3}\"\n",
        ),
        concat!(
            "           + M ({3}\n",
            "           + oo% \"eeting/*\") RETURN (CHILDREN)\n",
            "Answer     * LIST (\\HasNoChildren) \"/\" \"Meeting/\\\"Minutes\\\"\"\n",
            "           * LIST (\\HasNoChildren) \"/\" \"Moo\"\n",
        ),
        "           + \nAnswer     * LIST (\\Noselect) \"/\" \"\"\n",
    ] {
        assert!(text.contains(part), "{part} is not in\n{text}");
    }
    let refused = |line: &&str| line.starts_with("Refused");
    let refused: Vec<&str> = text.lines().filter(refused).map(|line| &line[11..12]).collect();
    assert_eq!(refused, ["6", "4", "5", "4", "3", "3"]);
}

/// Bytes of commands that are no text, and headers without a literal.
#[test]
fn odd_commands() {
    assert_eq!(
        printed("command \"\" {4}\n+ \u{e9}\n+  x\nframe 43007B317D0D0A\n", Form::Text),
        concat!(
            "Command    \"\" {4}\n",
            "           + \\xC3\\xA9\n",
            "           +  x\n",
            "Refused    4: tag, or the rest after a known word, off the grammar\n",
            "Explained  byte 1 of the command, '\"': a tag is atom bytes and \"]\", no \"+\"\n",
            "           (explained by the second program, not proved)\n",
            "\n",
            "Command    {1}\n",
            "Refused    3: line shape\n",
            "Explained  the end of the command, after 5 bytes: a literal has all the bytes that it ",
            "announces, and CR LF comes after it\n",
            "           (explained by the second program, not proved)\n",
        )
    );
}

/// W3: what the walk for special uses finds with SUBSCRIBED and without, and what is refused.
#[test]
fn the_special_folders() {
    let text = printed(SPECIAL_FOLDERS, Form::Text);
    let parts = [
        concat!(
            "Answer     * LIST (\\Archive) \"/\" \"Archive\"\n",
            "           * LIST () \"/\" \"INBOX\" (\"CHILDINFO\" (\"SPECIAL-USE\"))\n",
            "           * LIST (\\NonExistent) \"/\" \"Offices\" (\"CHILDINFO\" (\"SPECIAL-USE\"))\n",
            "           a1 OK done\n",
        ),
        "Answer     * LIST () \"/\" \"INBOX\" (\"CHILDINFO\" (\"SUBSCRIBED\" \"SPECIAL-USE\"))\n",
        concat!(
            "Walk       option byte 2: special-use\n",
            "Answer     2 commands sent, 1 mailbox found\n",
            "           INBOX/Sent\n",
        ),
        concat!(
            "Walk       option byte 6: special-use without-subscribed\n",
            "Answer     4 commands sent, 3 mailboxes found\n",
            "           Archive\n",
            "           INBOX/Sent\n",
            "           Offices/Berlin/Trash\n",
        ),
        concat!(
            "Walk       option byte 7: remote special-use without-subscribed\n",
            "Answer     5 commands sent, 4 mailboxes found\n",
        ),
        "Refused    7: RECURSIVEMATCH without SUBSCRIBED or SPECIAL-USE (as expected)\n",
        concat!(
            "Walk       option byte 5: remote without-subscribed\n",
            "Refused    6: unknown option, one with a value, or an unlawful option byte (as expected)\n",
            "Explained  an option byte is 0 to 7, and 4 stands beside 2\n",
            "           (explained by the second program, not proved)\n",
        ),
    ];
    check_parts(&text, &parts);
}

/// W5: the levels that a retired mail program opens, and LIST beside them.
#[test]
fn a_retired_mail_program() {
    let text = printed(LSUB, Form::Text);
    let parts = [
        concat!(
            "Command    a1 LSUB \"\" \"%\"\n",
            "Answer     * LSUB (\\Noselect) \"/\" \"Archive\"\n",
            "           * LSUB () \"/\" \"INBOX\"\n",
            "           * LSUB (\\Noselect) \"/\" \"Projects\"\n",
            "           * LSUB () \"/\" \"Teams\"\n",
            "           a1 OK done\n",
        ),
        concat!(
            "Answer     * LSUB (\\Noselect) \"/\" \"Projects/Harbour\"\n",
            "           * LSUB () \"/\" \"Projects/Old\"\n",
            "           a2 OK done\n",
        ),
        concat!(
            "Answer     * LSUB () \"/\" \"Projects/Harbour/Plans\"\n",
            "           a3 OK done\n",
        ),
        concat!(
            "Answer     * LSUB () \"/\" \"Archive/2024\"\n",
            "           * LSUB () \"/\" \"INBOX\"\n",
            "           * LSUB () \"/\" \"Projects/Harbour/Plans\"\n",
            "           * LSUB () \"/\" \"Projects/Old\"\n",
            "           * LSUB () \"/\" \"Teams\"\n",
            "           a4 OK done\n",
        ),
        concat!(
            "           * LIST (\\Subscribed \\NonExistent) \"/\" \"Projects/Old\"\n",
            "           * LIST (\\Remote \\Subscribed) \"/\" \"Teams\"\n",
            "           b1 OK done\n",
        ),
        "Answer     * LIST () \"/\" \"Archive\" (\"CHILDINFO\" (\"SUBSCRIBED\"))\n",
        concat!("Command    a6 LSUB \"Projects/\" \"\"\n", "Answer     a6 OK done\n"),
        concat!(
            "Refused    4: tag, or the rest after a known word, off the grammar (as expected)\n",
            "Explained  byte 9 of the command, '(': a quoted string, a literal or an atom is expected\n",
            "           (explained by the second program, not proved)\n",
        ),
    ];
    check_parts(&text, &parts);
}

/// W6: what is subscribed and unsubscribed, what is refused, and the walks before and after.
#[test]
fn a_review() {
    let text = printed(REVIEW, Form::Text);
    let unproved = "           (explained by the second program, not proved)\n";
    let effect = |text: &str| format!("Effect     {text}\n{unproved}");
    let added = "is subscribed now; there is no such mailbox, so a row was added for it";
    let parts = [
        concat!(
            "Walk       option byte 0\n",
            "Answer     2 commands sent, 2 mailboxes found\n",
            "           Newsletters\n",
            "           Customers/ABC\n",
        )
        .to_string(),
        "Command    s SUBSCRIBE \"Customers/DEF\"\nAnswer     s OK done\n".to_string(),
        effect("Customers/DEF is subscribed now"),
        "Command    s SUBSCRIBE \"inbox/Contracts\"\nAnswer     s OK done\n".to_string(),
        effect("INBOX/Contracts is subscribed now"),
        effect(&format!("Customers/XYZ {added}")),
        "Command    u UNSUBSCRIBE \"Newsletters\"\nAnswer     u OK done\n".to_string(),
        effect("Newsletters is not subscribed any more"),
        effect("none: Customers/DEF was subscribed already"),
        effect("none: INBOX was not subscribed"),
        effect("none: \"Customers/no such name\" was not subscribed"),
        "Command    a1 SUBSCRIBE \"Customers/Old\"\nAnswer     a1 OK done\n".to_string(),
        effect(&format!("Customers/Old {added}")),
        effect("Customers/Old is not subscribed any more; its row, of no mailbox, is gone"),
        concat!(
            "Refused    14: unlawful name, or below a row with no inferiors (as expected)\n",
            "Explained  byte 13 of the command, '\"': no name lies below a row with no inferiors ",
            "(beside 'Letters')\n",
        )
        .to_string(),
        "Explained  byte 13 of the command, '\"': no level of a name is empty\n".to_string(),
        concat!(
            "Mailbox    Zebra                        exists\n",
            "Refused    13: bad frame (as expected)\n",
            "Explained  no row is added after the first SUBSCRIBE or UNSUBSCRIBE that was OK\n",
        )
        .to_string(),
        concat!(
            "Answer     * LSUB () \"/\" \"Customers/ABC\"\n",
            "           * LSUB () \"/\" \"Customers/DEF\"\n",
            "           * LSUB () \"/\" \"Customers/XYZ\"\n",
            "           * LSUB () \"/\" \"INBOX/Contracts\"\n",
            "           b1 OK done\n",
        )
        .to_string(),
        concat!(
            "           * LIST () \"/\" \"INBOX\"\n",
            "           * LIST (\\Subscribed) \"/\" \"INBOX/Contracts\"\n",
            "           * LIST (\\NoInferiors) \"/\" \"Letters\"\n",
            "           * LIST () \"/\" \"Newsletters\"\n",
            "           b2 OK done\n",
        )
        .to_string(),
        concat!(
            "Walk       option byte 0\n",
            "Answer     3 commands sent, 4 mailboxes found\n",
            "           Customers/ABC\n",
            "           Customers/DEF\n",
            "           Customers/XYZ\n",
            "           INBOX/Contracts\n",
        )
        .to_string(),
    ];
    check_parts(&text, &parts.each_ref().map(String::as_str));
}

/// W9: what two readers see of one account, a hidden parent, and what is refused with 16.
#[test]
fn two_readers() {
    let text = printed(READERS, Form::Text);
    let unproved = "           (explained by the second program, not proved)\n";
    let hidden = |rows: &str| {
        let names = "Counsel, Customers, Customers/DEF, Sealed";
        let above = "above what reader 3 sees, so that the name itself may be listed: Customers";
        let first = format!("Hidden     from reader 3, {rows}: {names}\n");
        format!("{first}           of these, {above}\n{unproved}")
    };
    let refused = |sent: &str, why: &str| {
        let refusal = "a reader above 7, or an edit from another reader than 0 (as expected)";
        format!("{sent}\nRefused    16: {refusal}\nExplained  it comes from {why}\n{unproved}")
    };
    let parts = [
        concat!(
            "Mailbox    Customers/ABC                exists subscribed readers 0,3\n",
            "Mailbox    Customers/DEF                exists subscribed readers 0\n",
            "Mailbox    INBOX                        exists subscribed\n",
            "Mailbox    Sealed                       exists subscribed readers none\n",
        )
        .to_string(),
        concat!(
            "Command    a1 LIST \"\" \"%\"\n",
            "Answer     * LIST (\\NoInferiors) \"/\" \"Counsel\"\n",
            "           * LIST (\\Marked) \"/\" \"Customers\"\n",
            "           * LIST () \"/\" \"INBOX\"\n",
            "           a1 OK done\n",
            "Hidden     from reader 0, 1 of 6 rows: Sealed\n",
        )
        .to_string(),
        concat!(
            "Command    b1 LIST \"\" \"%\"\n",
            "From       reader 3\n",
            "Answer     * LIST (\\NonExistent \\HasChildren) \"/\" \"Customers\"\n",
            "           * LIST () \"/\" \"INBOX\"\n",
            "           b1 OK done\n",
        )
        .to_string(),
        hidden("4 of 6 rows"),
        concat!(
            "Answer     * LIST (\\Subscribed \\HasNoChildren) \"/\" \"Customers/ABC\"\n",
            "           * LIST (\\Subscribed \\HasNoChildren) \"/\" \"INBOX\"\n",
            "           b2 OK done\n",
        )
        .to_string(),
        concat!(
            "Answer     * LSUB (\\Noselect) \"/\" \"Customers\"\n",
            "           * LSUB () \"/\" \"INBOX\"\n",
            "           b3 OK done\n",
        )
        .to_string(),
        concat!(
            "Walk       option byte 0\n",
            "From       reader 3\n",
            "Answer     2 commands sent, 2 mailboxes found\n",
            "           INBOX\n",
            "           Customers/ABC\n",
        )
        .to_string(),
        refused(
            "Command    s SUBSCRIBE \"Customers/ABC\"\nFrom       reader 3",
            "reader 3: byte 3 of the command, 'S': edits are allowed to reader 0 only",
        ),
        refused(
            "Command    u UNSUBSCRIBE \"Nothing\"\nFrom       reader 3",
            "reader 3: byte 3 of the command, 'U': edits are allowed to reader 0 only",
        ),
        "Refused    4: tag, or the rest after a known word, off the grammar (as expected)\n"
            .to_string(),
        refused("Command    c1 NAMESPACE\nFrom       reader 8", "reader 8: a reader is 0 to 7"),
        "Effect     Customers/DEF is not subscribed any more; only reader 0 sees its row\n"
            .to_string(),
        "Effect     Sealed is not subscribed any more; no reader sees its row\n".to_string(),
        "Refused    14: unlawful name, or below a row with no inferiors (as expected)\n"
            .to_string(),
        concat!(
            "Answer     2 commands sent, 3 mailboxes found\n",
            "           Archive\n",
            "           INBOX\n",
            "           Customers/ABC\n",
        )
        .to_string(),
        hidden("4 of 7 rows"),
    ];
    check_parts(&text, &parts.each_ref().map(String::as_str));
}

/// The session that the README shows gives the output that it shows.
#[test]
fn the_session_of_the_readme() {
    let (_, from_session) = README.split_once("one item a line:\n").expect("the session");
    let (session, from_output) = from_session.split_once("\nand prints ").expect("the output");
    let (_, from_output) = from_output.split_once(":\n").expect("the output");
    let (output, _) = from_output.split_once("\nEach line that is no item").expect("an end");
    let unindented = |text: &str| text.replace("\n    ", "\n").trim_start().to_string();
    assert_eq!(whole_text(unindented(session), Form::Text), unindented(output));
}

/// The program gives every number but 12, and each stands under the comment that names it.
#[test]
fn every_refusal() {
    let text = printed(REFUSALS, Form::Text);
    let number = |line: &str, before: &str| {
        line.strip_prefix(before).and_then(|rest| rest.split(':').next()?.parse::<u8>().ok())
    };
    let mut announced = 0;
    let mut given = BTreeSet::new();
    for line in text.lines() {
        announced = number(line, "# ").unwrap_or(announced);
        if let Some(refusal) = number(line, "Refused    ") {
            assert_eq!(refusal, announced, "{line}");
            given.insert(refusal);
        }
    }
    assert_eq!(given, (1..=16).filter(|&number| number != 12).collect());
}

/// Each bundled session ends well, and says what it sent and what was refused.
#[test]
fn the_bundled_sessions_end_well() {
    let sessions = [
        (CUSTOMERS, "8 of 8 rows and 0 of 0 entries kept; 4 commands, 1 walk; 0 refused"),
        (LITERALS, "3 of 3 rows and 0 of 0 entries kept; 10 commands, 0 walks; 6 refused, 6 of them as expected"),
        (LSUB, "7 of 7 rows and 0 of 0 entries kept; 10 commands, 0 walks; 2 refused, 2 of them as expected"),
        (SPECIAL_FOLDERS, "6 of 6 rows and 0 of 0 entries kept; 3 commands, 4 walks; 2 refused, 2 of them as expected"),
        (REVIEW, "6 of 7 rows and 0 of 0 entries kept; 13 commands, 2 walks; 3 refused, 3 of them as expected"),
        (READERS, "6 of 6 rows and 0 of 0 entries kept; 13 commands, 3 walks; 7 refused, 7 of them as expected"),
        (REFUSALS, "52 of 53 rows and 4 of 4 entries kept; 54 commands, 5 walks, 7 bad frames; 34 refused, 34 of them as expected"),
    ];
    for (session, expected) in sessions {
        assert_eq!(summary(session), expected);
        let output = run_on(session);
        assert_eq!((output.status.code(), output.stderr.len()), (Some(0), 0), "{expected}");
    }
}
