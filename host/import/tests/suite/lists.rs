//! Lists of doveadm and of Cyrus.

use formats::utf7::{decoded, encoded};
use import::cyrus::read_cyrus;
use import::doveadm::read_doveadm;
use import::names::{EXISTS, SUBSCRIBED};
use import::{Room, Told};

use crate::calls::{file, run, text};
use crate::common::{came, Came};

fn of_doveadm(list: &str, delimiter: u8) -> Came {
    let mut told = Told::default();
    let found = read_doveadm(list.as_bytes(), delimiter, EXISTS, &mut told);
    came(&found, told, Room::Program)
}

fn of_cyrus(list: &str, delimiter: u8) -> Came {
    let mut told = Told::default();
    let found = read_cyrus(list.as_bytes(), delimiter, &mut told);
    came(&found, told, Room::Program)
}

/// Names in UTF-8 as servers name them. What comes out is decoded to what went in.
#[test]
fn modified_utf7() {
    for (name, bytes) in [
        ("Sent", "Sent"),
        ("A&B", "A&-B"),
        ("&", "&-"),
        ("Entwürfe", "Entw&APw-rfe"),
        ("台北", "&U,BTFw-"),
        ("~peter/mail/台北/日本語", "~peter/mail/&U,BTFw-/&ZeVnLIqe-"),
        ("x😀y", "x&2D3eAA-y"),
        ("ü&ü", "&APw-&-&APw-"),
        ("a\tb", "a&AAk-b"),
    ] {
        assert_eq!(encoded(name), bytes.as_bytes(), "{name}");
        let says = decoded(bytes.as_bytes());
        assert_eq!(says.as_deref().unwrap_or(bytes), name);
    }
    for code in (1..0xD800).step_by(7).chain((0xE000..0x11_0000).step_by(101)) {
        let name: String = char::from_u32(code).into_iter().chain(['x', '&']).collect();
        let bytes = encoded(&name);
        let says = decoded(&bytes).unwrap_or_else(|| String::from_utf8_lossy(&bytes).into_owned());
        assert_eq!(says, name);
    }
}

#[test]
fn doveadm() {
    let Came { lines, told } = of_doveadm("INBOX\nEntwürfe\nSales.A & B\n", b'.');
    assert_eq!(
        lines,
        [
            "# Entw&APw-rfe = \"Entwürfe\"",
            "mailbox Entw&APw-rfe exists",
            "mailbox INBOX exists",
            "# \"Sales/A &- B\" = \"Sales/A & B\"",
            "mailbox \"Sales/A &- B\" exists",
        ]
    );
    assert!(told.is_all_taken(), "{:?}", told.all_left_out());
    assert!(told.all_notes().is_empty());

    let told = of_doveadm("INBOX\na.b\n", b'/').told;
    assert!(told.all_notes()[0].starts_with("the list: no name holds \"/\""));

    // The head of a table, and a list that was made with -7.
    let Came { lines, told } = of_doveadm("mailbox\nmailbox\nEntw&APw-rfe\n", b'/');
    assert_eq!(lines.last().map(String::as_str), Some("mailbox mailbox exists"));
    assert_eq!(told.all_left_out().len(), 1);
    assert!(told.all_left_out()[0].starts_with("line 1: mailbox: it may be the head"));
    assert!(told.all_notes()[0].starts_with("line 3: Entw&APw-rfe: like modified UTF-7"));
    assert!(read_doveadm(b"a\xFFb", b'/', SUBSCRIBED, &mut Told::default())[0].name == b"a\xFFb");
}

/// `ctl_mboxlist -d`, of old servers and of newer ones.
#[test]
fn ctl_mboxlist() {
    let list = "user.jane\t0 default jane\tlrswipkxtecda\t\nuser.jane.Sent\tdefault jane\tlrswipcda\t\n\
                user.jane.Far\t1 other!default jane\tlrs\t\nuser.jane.Gone\t16 default jane\tlrs\t\n\
                user.jane.Odd\td default jane\tlrs\t\nuser.j^doe\t0 default \n\
                {\"user.jane.New\":{}}\n\nuser.none\t\n";
    let Came { lines, told } = of_cyrus(list, b'.');
    assert_eq!(
        lines,
        [
            "mailbox user/j^doe exists",
            "mailbox user/jane exists",
            "mailbox user/jane/Far exists remote",
            "mailbox user/jane/Sent exists",
        ]
    );
    assert_eq!(
        told.all_left_out(),
        [
            "line 4: user.jane.Gone: type 16 is no mailbox here or elsewhere",
            "line 5: user.jane.Odd: type d is no mailbox here or elsewhere",
            "line 7: neither of the two forms, not read: {\"user.jane.New\":{}}",
            "line 9: neither of the two forms, not read: user.none\\x09",
        ]
    );
    assert!(told.all_notes()[0].starts_with("line 6: user.j^doe: where the server has"));
}

/// cyradm, in columns.
#[test]
fn cyradm() {
    let list =
        "localhost> lm\nuser.jane (\\HasChildren)          user.jane.My mail (\\HasNoChildren)  \n\
                user.jane.Up (\\Noselect \\HasChildren)  user.jane.Up.x ()\nuser.jane.Odd\n";
    let Came { lines, told } = of_cyrus(list, b'.');
    assert_eq!(
        lines,
        [
            "mailbox user/jane exists",
            "mailbox \"user/jane/My mail\" exists",
            "mailbox user/jane/Up exists noselect",
            "mailbox user/jane/Up/x exists",
        ]
    );
    assert_eq!(told.all_left_out(), ["line 4: neither of the two forms, not read: user.jane.Odd"]);
    assert_eq!(told.all_notes(), ["line 1: what was asked, not read"]);
    let Came { lines, .. } = of_cyrus("user/jane/x.y (\\HasNoChildren)\n", b'/');
    assert_eq!(lines, ["mailbox user/jane/x.y exists"]);
}

/// The calls, with a second file of the subscribed names.
#[test]
fn calls() {
    let names = file("doveadm.list", "Entwürfe\nx.y\n");
    let subscribed = file("doveadm.subscribed", "Entwürfe\n");
    let words = ["doveadm", &names, "--subscribed", &subscribed, "--delimiter", "."];
    let output = run(&words);
    assert_eq!(output.status.code(), Some(0), "{}", text(&output.stderr));
    let rows = "\nmailbox Entw&APw-rfe exists subscribed\nmailbox x/y exists\n";
    assert!(text(&output.stdout).ends_with(rows), "{}", text(&output.stdout));

    let dump = file("cyrus.dump", "user.a\t0 default a\tlrs\t\nuser.a.b\t0 default a\tlrs\t\n");
    let output = run(&["cyrus", &dump]);
    assert_eq!(output.status.code(), Some(0), "{}", text(&output.stderr));
    let rows = "\nmailbox user/a exists\nmailbox user/a/b exists\n";
    assert!(text(&output.stdout).ends_with(rows), "{}", text(&output.stdout));
}
