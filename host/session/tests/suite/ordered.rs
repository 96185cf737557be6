//! The order of mailbox lines.

use std::fs;
use std::path::Path;
use std::process::Command;

use session::Form;

use crate::common::{printed, run_on, second, told, SESSION};

/// Lines in any order are sent by the unsigned bytes of the whole name, and that is told.
#[test]
fn any_order() {
    let source = concat!(
        "# All of them.\n",
        "mailbox Foo/Bar exists\n",
        "mailbox \"Foo x\" exists\n",
        "namespace personal \"\" \"/\"\n",
        "# The first.\n",
        "mailbox Foo exists\n",
        "mailbox Foo-x exists\n",
        "walk\n",
    );
    assert_eq!(
        printed(source, Form::Text),
        concat!(
            "# All of them.\n",
            "Order      4 mailbox lines, put in the order of the bytes of their names\n",
            "Mailbox    Foo                          exists\n",
            "Mailbox    \"Foo x\"                      exists\n",
            "Namespace  personal \"\" \"/\"\n",
            "\n",
            "# The first.\n",
            "Mailbox    Foo-x                        exists\n",
            "Mailbox    Foo/Bar                      exists\n",
            "\n",
            "Walk       option byte 0\n",
            "Answer     1 command sent, 0 mailboxes found\n",
            "\n",
            "Own check  own-check NAMESPACE\n",
            "           (sent by this tool: after the last row or entry the session asks nothing)\n",
            "Answer     * NAMESPACE ((\"\" \"/\")) NIL NIL\n",
            "           own-check OK done\n",
        )
    );
    assert_eq!(run_on(source).status.code(), Some(0));
    let names = ["466F6F", "466F6F2078", "466F6F2D78", "466F6F2F426172"];
    let frames = printed(source, Form::Frames);
    let places = names.map(|name| frames.find(&format!("{name}\n")).expect("a frame"));
    assert!(places.is_sorted(), "{frames}");
}

/// With frames alone on standard output, the order is told on standard error.
#[test]
fn told_beside_frames() {
    let path = Path::new(env!("CARGO_TARGET_TMPDIR")).join("ordered.session");
    fs::write(&path, "mailbox b exists\nmailbox a exists\n").expect("a session");
    let mut command = Command::new(SESSION);
    let output = command.arg("--program").arg(second()).arg("--frames").arg(path).output();
    assert_eq!(
        told(&output.expect("a run")),
        concat!(
            "2 mailbox lines, put in the order of the bytes of their names\n",
            "2 of 2 rows and 0 of 0 entries kept; 0 commands, 0 walks; 0 refused; own check passed\n",
        )
    );
}

/// Lines that ascend already are not told of.
#[test]
fn ascending_lines() {
    let text = printed("mailbox INBOX exists\nmailbox a exists\nwalk\n", Form::Text);
    assert!(!text.contains("Order"), "{text}");
}

#[test]
fn as_given() {
    let given = "order as-given\nmailbox b exists\nmailbox a exists\nwalk\nexpect 1\n";
    let text = printed(given, Form::Text);
    let start = concat!(
        "Order      as given\n",
        "Mailbox    b                            exists\n",
        "Mailbox    a                            exists\n",
    );
    assert!(text.starts_with(start), "{text}");
    assert_eq!(run_on(given).status.code(), Some(0));
    // Lines before it are sorted.
    let text = printed("mailbox b exists\nmailbox a exists\norder as-given\nwalk\n", Form::Text);
    assert!(text.starts_with("Order      2 mailbox lines, put in "), "{text}");
}

/// What was sent before a command cannot be sent again, so lines after it are sorted by themselves.
#[test]
fn between_commands() {
    let source = concat!(
        "mailbox b exists\nmailbox a exists\nwalk\n",
        "mailbox d exists\nmailbox c exists\nwalk\n",
        "mailbox a exists\nwalk\nexpect 1\n",
    );
    let text = printed(source, Form::Text);
    assert_eq!(text.matches("Order      2 mailbox lines").count(), 2, "{text}");
    assert_eq!(run_on(source).status.code(), Some(0));
}

/// An expectation goes with its line.
#[test]
fn expectations_go_along() {
    let row = |number| format!("mailbox {number:03}{} exists\n", "n".repeat(197));
    let filling: String = (0..80).map(row).collect();
    let source = format!("mailbox {} exists\nexpect 1\n{filling}", "~".repeat(200));
    assert_eq!(run_on(source).status.code(), Some(0));
}
