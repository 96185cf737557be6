//! Session files: what they say, what is wrong with them, and what is printed of them.

use std::fs;
use std::path::Path;

use formats::error::SessionError;
use formats::item::{Content, Item, Sent};
use formats::session::Session;
use formats::sha256::sum_of_bytes;
use formats::source::Source;
use session::Form;

use crate::common::{check, printed, run_on, told};

/// The bad lines of a source, by number and message.
fn bad_lines(source: impl AsRef<[u8]>) -> Vec<(u64, String)> {
    match check(source) {
        Err(SessionError::Lines { bad, .. }) => {
            bad.into_iter().map(|line| (line.number, line.message)).collect()
        }
        _ => Vec::new(),
    }
}

/// Items, each with its frame.
const ITEMS: [(&str, &str); 47] = [
    ("mailbox Foo exists", "4D0001FF03466F6F"),
    ("mailbox \"a \\\"b\" subscribed", "4D0002FF0461202262"),
    ("mailbox x 00ff", "4D00FFFF0178"),
    ("mailbox\tx\texists\tmarked", "4D0021FF0178"),
    ("mailbox \"a\tb\"\t exists", "4D0001FF03610962"),
    ("namespace\tpersonal\t\"\"\tNIL", "4E000000"),
    ("command\ta\tb", "43006109620D0A"),
    ("walk\tremote\tspecial-use", "570003"),
    ("mailbox x exists 8000 trash", "4DC001FF0178"),
    ("mailbox \"\" 0000", "4D0000FF00"),
    ("namespace personal \"\" \"/\"", "4E00002F"),
    ("namespace other-users \"~\" \"\\\"\"", "4E01017E22"),
    ("namespace shared \"#\" NIL", "4E02012300"),
    ("command a NAMESPACE", "430061204E414D4553504143450D0A"),
    ("command", "43000D0A"),
    ("command  x ", "43002078200D0A"),
    ("command {2}\n+ ab c", "43007B327D0D0A616220630D0A"),
    ("command x\r\n  +  y \r\n+\r\n+ z", "4300780D0A2079200D0A0D0A7A0D0A"),
    ("command {1}\n+ +", "43007B317D0D0A2B0D0A"),
    ("command\n+ x\n+", "43000D0A780D0A0D0A"),
    ("subscribe Foo", "430073205355425343524942452022466F6F220D0A"),
    ("subscribe \t Foo \t", "430073205355425343524942452022466F6F220D0A"),
    ("subscribe \"a \\\"b\"", "43007320535542534352494245202261205C2262220D0A"),
    ("unsubscribe \"\"", "43007520554E5355425343524942452022220D0A"),
    ("unsubscribe a\\", "43007520554E5355425343524942452022615C5C220D0A"),
    ("subscribe \u{e9}", "43007320535542534352494245207B327D0D0AC3A90D0A"),
    ("walk", "570000"),
    ("walk remote", "570001"),
    ("walk special-use remote", "570003"),
    ("walk special-use without-subscribed", "570006"),
    ("walk without-subscribed", "570004"),
    ("walk 6 remote", "570007"),
    ("walk 255", "5700FF"),
    ("mailbox x exists readers 0,3", "4D0001090178"),
    ("mailbox x exists readers 7,0,7", "4D0001810178"),
    ("mailbox x\texists  readers\tnone ", "4D0001000178"),
    ("mailbox x 0003 readers all", "4D0003FF0178"),
    ("mailbox readers exists readers 1", "4D0001020772656164657273"),
    ("reader 3\ncommand a", "4303610D0A"),
    ("reader 3\n# x\n\nwalk 6", "570306"),
    ("reader 255\nreader 7\nsubscribe x", "43077320535542534352494245202278220D0A"),
    ("reader\t 8 \nunsubscribe x", "43087520554E535542534352494245202278220D0A"),
    ("reader 3\nmailbox x exists", "4D0001FF0178"),
    ("reader 3\nframe 570000", "570000"),
    ("frame 57fF", "57fF"),
    ("frame", ""),
    ("frame 4G 0", "4G 0"),
];

#[test]
fn items_and_their_frames() {
    for (line, frame) in ITEMS {
        let session = check(format!("# a comment\n\n  {line}\r\n")).expect("a session");
        let items: Result<Vec<Item>, _> = session.items().expect("items").collect();
        let contents: Vec<Content> =
            items.expect("items").into_iter().map(|item| item.content).collect();
        let [Content::Comment(comment), .., Content::Sent(sent)] = &contents[..] else {
            panic!("{line}: not a comment and one frame");
        };
        let Sent { frame: sent, expected, .. } = sent;
        assert_eq!((comment.as_str(), sent.is_cut), ("# a comment", false), "{line}");
        assert_eq!((sent.text.as_slice(), *expected), (frame.as_bytes(), None), "{line}");
    }
}

/// Lines, each with the start of what is wrong with it.
const NO_ITEMS: [(&str, &str); 43] = [
    ("mailbix Foo exists", "unknown item \"mailbix\"; known are mailbox, namespace, reader, "),
    ("Mailbox Foo exists", "unknown item \"Mailbox\""),
    ("mailbox\u{a0}Foo exists", "unknown item \"mailbox\\xC2\\xA0Foo\""),
    ("57FF", "unknown item \"57FF\""),
    ("\0\x01\x7F", "unknown item \"\\x00\\x01\\x7F\""),
    ("mailbox", "a mailbox has a name and flags"),
    ("mailbox Foo", "the mailbox has no flags"),
    ("mailbox Foo exist", "unknown flag \"exist\"; known are exists, subscribed, remote, "),
    ("mailbox Foo Bar exists", "unknown flag \"Bar\""),
    ("mailbox Foo 001", "unknown flag \"001\""),
    ("mailbox Foo readers 0", "the mailbox has no flags"),
    ("mailbox Foo exists readers", "after readers stands one word"),
    ("mailbox Foo exists readers 8", "after readers stands one word"),
    ("mailbox Foo exists readers 0, 3", "after readers stands one word"),
    ("mailbox Foo exists readers 03", "after readers stands one word"),
    ("mailbox Foo exists readers +3", "after readers stands one word"),
    ("mailbox Foo exists readers 0,,3", "after readers stands one word"),
    ("mailbox Foo exists readers 0 subscribed", "after readers stands one word"),
    ("mailbox Foo exists reader 0", "unknown flag \"reader\""),
    ("reader", "reader takes a number, 0 to 7"),
    ("reader 256", "reader takes a number, 0 to 7"),
    ("reader -1", "reader takes a number, 0 to 7"),
    ("reader 0 1", "reader takes a number, 0 to 7"),
    ("mailbox \"Foo exists", "a quoted string"),
    ("mailbox \"F\\oo\" exists", "a quoted string"),
    ("namespace", "a namespace has"),
    ("namespace public \"\" \"/\"", "unknown class of namespaces \"public\"; known are pers"),
    ("namespace shared \"\"", "a namespace has"),
    ("namespace shared \"\" \"//\"", "a delimiter is one byte"),
    ("namespace shared \"\" \"/\" x", "a delimiter is one byte"),
    ("subscribe", "one name is subscribed or unsubscribed"),
    ("unsubscribe \t", "one name is subscribed or unsubscribed"),
    ("subscribe Foo Bar", "one name is subscribed or unsubscribed"),
    ("unsubscribe \"Foo\"Bar", "one name is subscribed or unsubscribed"),
    ("subscribe \"Foo", "a quoted string"),
    ("Subscribe Foo", "unknown item \"Subscribe\""),
    ("walk local", "unknown option of a walk \"local\"; known are remote, special-use, without-"),
    ("walk subscribed", "unknown option of a walk \"subscribed\""),
    ("walk 256", "unknown option of a walk \"256\""),
    ("+ x", "+ goes on with a command, which stands in the line before"),
    ("+x", "unknown item \"+x\""),
    ("order by-name", "the one order is as-given"),
    ("order", "the one order is as-given"),
];

#[test]
fn lines_that_are_no_items() {
    let long_name = format!("mailbox {} exists", "n".repeat(256));
    let long_line = format!("command {}", "c".repeat(16_384));
    let long_command = format!("command a{}", "\n+ ccccccc".repeat(2_000));
    let long: [(&str, &str); 3] = [
        (&long_name, "a name has at most 255 bytes"),
        (&long_line, "over 16384 bytes"),
        (&long_command, "over 16384 bytes"),
    ];
    for (line, expected) in NO_ITEMS.into_iter().chain(long) {
        for line_end in ["\n", "\r\n"] {
            let source = ["walk", line, "walk home", ""].join(line_end);
            let bad = bad_lines(&source);
            let numbers: Vec<u64> = bad.iter().map(|(number, _)| *number).collect();
            assert_eq!(numbers, [2, source.lines().count() as u64], "{line}");
            assert!(bad[0].1.starts_with(expected), "{line}: {}", bad[0].1);
        }
    }
}

/// Every bad line is told, but not what belongs to one of them.
#[test]
fn every_bad_line_is_told() {
    let source = "walk home\nwalk\ncomand a LIST \"\" {3}\n+ abc\nexpect 4\nmailbox x\nexpect 1\n";
    let numbers: Vec<u64> = bad_lines(source).iter().map(|(number, _)| *number).collect();
    assert_eq!(numbers, [1, 3, 6]);
    let output = run_on(source);
    assert_eq!((output.status.code(), output.stdout.len()), (Some(2), 0));
    let lines: Vec<String> = told(&output).lines().map(|line| line[..24].to_string()).collect();
    assert_eq!(lines, [1, 3, 6].map(|line| format!("standard input: line {line}: ")));
    let output = run_on("x\n".repeat(1_010));
    let told = told(&output);
    assert_eq!(told.lines().count(), 1_001);
    assert!(told.ends_with("standard input: and 10 more\n"), "{told}");
}

/// What a bad line expects is not wrong by itself, unless it is no refusal. Nor is a second expectation
/// the bad line's.
#[test]
fn expectations_of_bad_lines() {
    let sources: [(&str, &[u64]); 6] = [
        ("walk home\nexpect 99\nwalk\n", &[1, 2]),
        ("walk home\nexpect 6\n", &[1]),
        ("comand a {1}\n+ x\nexpect nine\nwalk home\n", &[1, 3, 4]),
        ("mailbox x\nexpect 0\nexpect 1\n", &[1, 2, 3]),
        ("walk home\nexpect 6\nexpect 6\n", &[1, 3]),
        ("walk home\nexpect 6\n+ x\n", &[1, 3]),
    ];
    for (source, expected) in sources {
        let bad = bad_lines(source);
        let numbers: Vec<u64> = bad.iter().map(|(number, _)| *number).collect();
        assert_eq!(numbers, expected, "{source}");
    }
    let told = told(&run_on("walk home\nexpect 99\n"));
    let second = "standard input: line 2: expect takes the number of a refusal, 1 to 16\n";
    assert!(told.ends_with(second), "{told}");
}

/// A session is read once: what becomes of its file afterwards changes nothing.
#[test]
fn files_are_read_once() {
    let path = Path::new(env!("CARGO_TARGET_TMPDIR")).join("read-once.session");
    let text = "mailbox a exists\nwalk\n";
    fs::write(&path, text).expect("a session");
    let source = Source::of_path(&path).expect("a source");
    fs::write(&path, "walk 9\n").expect("another session");
    let session = Session::check(source).expect("a session");
    assert_eq!((session.length, session.sum()), (2, sum_of_bytes(text.as_bytes())));
    fs::remove_file(&path).expect("a file that goes");
    let lines: Vec<u64> =
        session.items().expect("items").map(|item| item.expect("an item").line).collect();
    assert_eq!(lines, [1, 2]);
}

/// Of a line that is no text at all the message shows a start.
#[test]
fn messages_are_short() {
    let Err(error) = check(format!("\0{}", "x".repeat(100_000))) else {
        panic!("no bad line");
    };
    assert!(error.to_string().starts_with("line 1: unknown item \"\\x00xxx"), "{error}");
    assert!(error.to_string().len() < 220, "{error}");
}

/// What an editor leaves in a session file: CR LF, a byte order mark, no last line end.
#[test]
fn files_from_other_editors() {
    let plain = printed("walk\n# a\nwalk 1\n", Form::Text);
    for source in
        ["walk\r\n# a\r\nwalk 1\r\n", "\u{FEFF}walk\n# a\nwalk 1", "\r\nwalk\n# a\nwalk 1"]
    {
        assert_eq!(printed(source, Form::Text), plain, "{source:?}");
    }
}

#[test]
fn files_of_frames() {
    assert_eq!(
        printed("570000\n4G\n\n570001", Form::Frames),
        "> 570000\n< 570001\n> 4G\n< 520D\n> \n< 520D\n> 570001\n< 520D\n"
    );
    assert_eq!(printed("\n570000\n", Form::Frames), "> \n< 520D\n> 570000\n< 570001\n");
    assert_eq!(
        printed("570000\n", Form::Text),
        concat!("Walk       option byte 0\n", "Answer     1 command sent, 0 mailboxes found\n")
    );
}

/// The first line tells a file of frames, damaged or not; such lines are sent as they stand.
#[test]
fn damaged_files_of_frames() {
    let files = [
        ("570000\r\n570000\n", "> 570000\\x0D\n< 520D\n> 570000\n< 570001\n"),
        ("5700 00\nwalk\n", "> 5700 00\n< 520D\n> walk\n< 520D\n"),
        ("4G\n\0\n", "> 4G\n< 520D\n> \\x00\n< 520D\n"),
        ("ab\n", "> ab\n< 520D\n"),
        ("4", "> 4\n< 520D\n"),
        ("\n\n570000", "> \n< 520D\n> \n< 520D\n> 570000\n< 520D\n"),
    ];
    for (source, expected) in files {
        assert_eq!(printed(source, Form::Frames), expected, "{source:?}");
    }
    for (digits, start) in [(4_102, "Command"), (4_103, "Frame  "), (4_104, "Frame  ")] {
        let text = printed(format!("4300{}\n", "6".repeat(digits - 4)), Form::Text);
        assert!(text.starts_with(start), "{digits}: {text}");
    }
}

/// Of a frame that is too long its start is shown; it is sent whole, and what follows is answered.
#[test]
fn overlong_frames() {
    let digits = "0".repeat(1_000_000);
    let shown = format!("{}… (1000000 characters)", "0".repeat(60));
    let refused = |rule| {
        let unproved = "(explained by the second program, not proved)";
        format!("Refused    13: bad frame\nExplained  {rule}\n           {unproved}\n")
    };
    let (long, cut) = ("a frame has at most 4,102 digits", "the last frame ends with LF too");
    let walk = "Walk       option byte 0\nAnswer     1 command sent, 0 mailboxes found\n";
    assert_eq!(
        printed(format!("{digits}\n570000\n"), Form::Text),
        format!("Frame      {shown}\n{}\n{walk}", refused(long))
    );
    assert_eq!(
        printed(&digits, Form::Text),
        format!("Frame      {shown} (without LF)\n{}", refused(cut))
    );
    assert_eq!(printed(&digits, Form::Frames), format!("> {shown}\n< 520D\n"));
}

#[test]
fn nothing_to_run() {
    for source in ["", "\r\n", "# a comment\n"] {
        let output = run_on(source);
        assert!(output.status.success(), "{source:?}");
        assert_eq!(told(&output), "standard input: no items, so there is nothing to run\n");
        let text = String::from_utf8(output.stdout).expect("text");
        assert!(text.starts_with(source.trim_start()), "{source:?}: {text}");
        assert!(text.ends_with("; 0 commands, 0 walks; 0 refused\n"), "{source:?}: {text}");
    }
}

/// A file of frames whose lines end in CR LF is told as such, and run as it stands.
#[test]
fn frames_with_cr() {
    let output = run_on("570000\r\n570001\r\n");
    assert_eq!(output.status.code(), Some(3));
    let told = told(&output);
    let cause = "standard input: the lines of this file of frames end in CR LF; ";
    assert!(told.starts_with(cause) && told.lines().count() == 3, "{told}");
    assert!(run_on("570000\n570001\n").stderr.is_empty());
    assert!(run_on("walk\r\nwalk\r\n").stderr.is_empty());
}

#[test]
fn both_forms() {
    let source =
        "# A row.\nmailbox a subscribed\nnamespace shared \"\" NIL\ncommand a LIST \"\" *\nwalk\n";
    assert_eq!(
        printed(source, Form::Text),
        concat!(
            "# A row.\n",
            "Mailbox    a                            subscribed\n",
            "Namespace  shared \"\" NIL\n",
            "\n",
            "Command    a LIST \"\" *\n",
            "Answer     a OK done\n",
            "\n",
            "Walk       option byte 0\n",
            "Answer     1 command sent, 1 mailbox found\n",
            "           a\n",
        )
    );
    assert_eq!(
        printed(source, Form::Frames),
        concat!(
            "> 4D0002FF0161\n",
            "> 4E020000\n",
            "> 430061204C495354202222202A0D0A\n",
            "< 4161204F4B20646F6E650D0A\n",
            "> 570000\n",
            "< 5700010161\n",
        )
    );
}

/// Only the line before may be gone on with: no comment, no empty line, no other item.
#[test]
fn lines_that_go_on_with_nothing() {
    for (source, number) in [
        ("+ x\n", 1),
        ("command a\n\n+ x\n", 3),
        ("command a\n# b\n+ x\n", 3),
        ("command a\n+ b\nwalk\n+ x\n", 4),
        ("frame 43\n+ x\n", 2),
        ("command a {1}\n+ b\n\nwalk home\n", 4),
    ] {
        let numbers: Vec<u64> = bad_lines(source).iter().map(|(number, _)| *number).collect();
        assert_eq!(numbers, [number], "{source}");
    }
}
