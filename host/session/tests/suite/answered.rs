//! What came of a session: its summary, its status, what is told, and what items expect.

use session::Form;

use crate::common::{printed, run_on, summary, told};

/// A row of 204 bytes, of which 80 fit, with the line that it expects.
fn rows(count: usize, expected: &str) -> String {
    let row = |number| format!("mailbox {number:03}{} exists\n", "n".repeat(197));
    (0..count).map(row).collect::<String>() + expected
}

/// A table that lost rows does not look well.
#[test]
fn rows_without_room() {
    let source = rows(82, "") + "command a LIST \"\" 07%\n";
    let output = run_on(&source);
    assert_eq!(output.status.code(), Some(3));
    let text = String::from_utf8(output.stdout.clone()).expect("text");
    assert!(text.contains("Explained  no room: 16320 of 16384 bytes are taken, and this has 204\n"));
    assert!(text.contains("a OK done\n"));
    let last = "Summary    80 of 82 rows and 0 of 0 entries kept; 1 command, 0 walks; 2 refused";
    assert_eq!(text.lines().last(), Some(last));
    let told = told(&output);
    let lines: Vec<&str> = told.lines().collect();
    assert_eq!(lines.len(), 2, "{told}");
    for (line, number) in lines.iter().zip([81, 82]) {
        let start =
            format!("standard input: line {number}: refused with 1: the table does not pass");
        assert!(line.starts_with(&start), "{line}");
    }
}

#[test]
fn statuses() {
    let sources = [
        ("walk\n", 0),
        ("walk 9\n", 3),
        ("walk 9\nexpect 6\n", 0),
        ("walk 9\nexpect 7\n", 3),
        ("walk\nexpect 6\n", 3),
        ("mailbox a exists\nexpect 1\n", 3),
        ("frame 4D\nexpect 13\n", 3),
        ("frame 4\nexpect 13\n", 0),
        ("mailbox b exists\nfwame\n", 2),
        ("reader 8\nwalk\nexpect 16\n", 0),
        ("reader 3\nsubscribe x\n", 3),
        ("570000\n", 0),
        ("570009\n", 3),
        ("570000\n570000", 3),
    ];
    for (source, status) in sources {
        let output = run_on(source);
        assert_eq!(output.status.code(), Some(status), "{source:?}");
        assert_eq!(output.stderr.is_empty(), status == 0, "{source:?}");
    }
    let full = rows(81, "expect 1\n");
    assert_eq!(run_on(full).status.code(), Some(0));
}

/// Expectations that are met by one item and not by the others.
const EXPECTING: &str = concat!(
    "mailbox a exists\nexpect 1\n",
    "command a NOOP {1}\n+ x\nexpect 5\n",
    "command a NOOP\nexpect 4\n",
    "walk\nexpect 6\n",
    "namespace personal \"\" NIL\nexpect 2\n",
);

/// What is expected and what came stand side by side in the text.
#[test]
fn expectations() {
    assert_eq!(
        printed(EXPECTING, Form::Text),
        concat!(
            "Mailbox    a                            exists\n",
            "Expected   1: the table does not pass, or no room for a row; and it was kept\n",
            "\n",
            "Command    a NOOP {1}\n",
            "           + x\n",
            "Refused    5: other word (as expected)\n",
            "Explained  byte 3 of the command, 'N': the word is LIST, LSUB, NAMESPACE, SUBSCRIBE or UNSUBSCRIBE\n",
            "           (explained by the second program, not proved)\n",
            "\n",
            "Command    a NOOP\n",
            "Refused    5: other word\n",
            "Explained  byte 3 of the command, 'N': the word is LIST, LSUB, NAMESPACE, SUBSCRIBE or UNSUBSCRIBE\n",
            "           (explained by the second program, not proved)\n",
            "Expected   4: tag, or the rest after a known word, off the grammar; and it was refused ",
            "with 5: other word\n",
            "\n",
            "Walk       option byte 0\n",
            "Answer     1 command sent, 0 mailboxes found\n",
            "Expected   6: unknown option, one with a value, or an unlawful option byte; and it was ",
            "answered\n",
            "\n",
            "Namespace  personal \"\" NIL\n",
            "Expected   2: the namespace list does not pass, or no room for an entry; and it was kept\n",
            "\n",
            "Own check  own-check NAMESPACE\n",
            "           (sent by this tool: after the last row or entry the session asks nothing)\n",
            "Answer     * NAMESPACE ((\"\" NIL)) NIL NIL\n",
            "           own-check OK done\n",
        )
    );
}

/// They are counted, and those that are not met are told.
#[test]
fn expectations_that_are_not_met() {
    let counts = concat!(
        "1 of 1 rows and 1 of 1 entries kept; 2 commands, 1 walk; ",
        "2 refused, 1 of them as expected, 3 not refused as expected; own check passed",
    );
    assert_eq!(summary(EXPECTING), counts);
    assert_eq!(
        told(&run_on(EXPECTING)),
        concat!(
            "standard input: line 1: refusal 1 was expected, and it was kept\n",
            "standard input: line 6: refusal 4 was expected, and it was refused with 5: other word; ",
            "byte 3 of the command, 'N': the word is LIST, LSUB, NAMESPACE, SUBSCRIBE or UNSUBSCRIBE (explained by the second ",
            "program, not proved)\n",
            "standard input: line 8: refusal 6 was expected, and it was answered\n",
            "standard input: line 10: refusal 2 was expected, and it was kept\n",
        )
    );
}

/// An expectation stands in the line after its item, and names a refusal of the papers.
#[test]
fn lone_expectations() {
    for source in [
        "expect 1\n",
        "walk\n\nexpect 6\n",
        "walk\n# a\nexpect 6\n",
        "walk\nexpect 6\nexpect 6\n",
        "order as-given\nexpect 6\n",
        "reader 8\nexpect 16\n",
        "walk\nexpect\n",
        "walk\nexpect 0\n",
        "walk\nexpect 17\n",
        "walk\nexpect six\n",
    ] {
        let output = run_on(source);
        assert_eq!(output.status.code(), Some(2), "{source:?}");
        let last = format!("line {}: expect ", source.lines().count());
        assert!(told(&output).contains(&last), "{source:?}: {}", told(&output));
    }
}

/// Of many refusals the first ones are told, and how many more there are.
#[test]
fn many_refusals() {
    let output = run_on("walk 9\n".repeat(105));
    let told = told(&output);
    assert_eq!(told.lines().count(), 101);
    assert!(told.ends_with("standard input: and 5 more\n"), "{told}");
}

/// With frames alone on standard output, the summary goes to standard error.
#[test]
fn the_summary_of_frames() {
    let text = printed("walk\nwalk 9\n", Form::Frames);
    assert_eq!(text, "> 570000\n< 570001\n> 570009\n< 5206\n");
}
