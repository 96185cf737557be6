//! Special uses and automatic subscriptions that the call adds.

use formats::rows::Flags;
use import::answer::read_answer;
use import::names::{read_names, EXISTS};
use import::{read_uses, Found, Room, Said, Told};

use crate::calls::{file, run, text};
use crate::common::{came, Came};

fn with_uses(mut found: Vec<Found>, words: &str) -> Came {
    found.extend(read_uses(words.as_bytes()).expect("uses"));
    came(&found, Told::default(), Room::Program)
}

/// Words, in any case of letters, with a backslash or without; names with commas.
#[test]
fn words() {
    let uses = read_uses(b"sent=Sent,\\Drafts=a, b=c,ALL=all=x,subscribed=In,box").expect("uses");
    let expected: [(Flags, &[u8]); 4] = [
        (Flags::SENT, b"Sent"),
        (Flags::DRAFTS, b"a, b=c"),
        (Flags::ALL, b"all=x"),
        (Flags::SUBSCRIBED, b"In,box"),
    ];
    assert_eq!(uses.len(), expected.len());
    for (found, (flag, name)) in uses.iter().zip(expected) {
        assert_eq!((found.said, found.name.as_slice()), (Said::Added(flag), name));
    }
    for wrong in ["", "Sent", "sent", "sent=", "=x", "noselect=x", "exists=x", "x,sent=y", "sent=,"]
    {
        let is_comma = wrong == "sent=,";
        assert_eq!(read_uses(wrong.as_bytes()).is_ok(), is_comma, "{wrong}");
    }
}

/// Uses stand on mailboxes that exist, by the names of the table, whatever the store's delimiter is.
#[test]
fn mailboxes() {
    let names = || read_names(b"INBOX.Sent\nTrash\nOld", b'.', EXISTS);
    let Came { lines, told } =
        with_uses(names(), "sent=inbox/Sent,trash=Trash,junk=Junk,subscribed=Trash,subscribed=New");
    assert_eq!(
        lines,
        [
            "mailbox INBOX/Sent exists sent",
            "mailbox New subscribed",
            "mailbox Old exists",
            "mailbox Trash exists subscribed trash",
        ]
    );
    assert_eq!(
        told.all_left_out(),
        ["--special-use: Junk: there is no such mailbox, so none is junk"]
    );
    let told = with_uses(names(), "junk=50%").told;
    assert!(told.all_left_out()[0].starts_with("--special-use: 50%: name bytes are"));
}

/// A use of a name that is only subscribed, or only a level, has no row.
#[test]
fn names_without_a_mailbox() {
    let answer = b"* LSUB () \"/\" a\r\n* LIST (\\NonExistent) \"/\" b\r\n* LIST () \"/\" b/c\r\n";
    let found = read_answer(answer, &mut Told::default()).expect("an answer");
    let Came { lines, told } = with_uses(found, "sent=a,drafts=b");
    assert_eq!(lines, ["mailbox a subscribed", "mailbox b/c exists"]);
    assert_eq!(
        told.all_left_out(),
        [
            "--special-use: a: there is no such mailbox, so none is sent",
            "--special-use: b: there is no such mailbox, so none is drafts",
        ]
    );
}

/// The session file says what the call added.
#[test]
fn comments() {
    let names = file("uses.names", "Sent\n");
    let words = ["names", &names, "--special-use", "sent=Sent", "--special-use", "trash=Bin"];
    let output = run(&words);
    assert_eq!(output.status.code(), Some(1));
    for line in [
        "# Added by the call: --special-use Sent sent\n",
        "# Added by the call: --special-use Bin trash\n",
        "# Left out: --special-use: Bin: there is no such mailbox, so none is trash\n",
        "\nmailbox Sent exists sent\n",
    ] {
        assert!(text(&output.stdout).contains(line), "{line}: {}", text(&output.stdout));
    }
}
