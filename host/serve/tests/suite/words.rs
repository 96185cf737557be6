//! What a client is answered, in process.

use serve::{converse, Account, Ending, Keeping, Rooms, CAPABILITIES};

use crate::common::{client, no_wait, session_file, table_of, text};

const HINT: &str =
    "* BAD a line ended in LF without CR; a command ends in CR LF, so it is not read yet\r\n";

/// The lines after the greeting, and how it ended.
fn answered(input: &[u8]) -> (String, Ending) {
    let account = Account::new(table_of(&session_file(), Rooms::WIDE), Keeping::default());
    let mut output = Vec::new();
    let ending = converse(&account, &client(), &mut &input[..], &mut output, no_wait);
    let text = text(&output);
    (text.split_once("\r\n").expect("a greeting").1.to_string(), ending.expect("no error"))
}

/// Who ends with a line that ended in LF alone is told so, once; in a literal LF is a byte like any other.
#[test]
fn a_line_that_ends_in_lf_alone() {
    let cases: [(&[u8], &str); 9] = [
        (b"a NOOP\n", HINT),
        (b"a NOOP\r\nb NOOP\nc NOOP\n", &format!("a OK done\r\n{HINT}")),
        (b"a NOOP\r\n", "a OK done\r\n"),
        (b"a NOOP", ""),
        (b"a NOOP\nb NOOP", ""),
        (b"a LIST \"\" {2}\r\nx\n", "+ go\r\n"),
        (b"a LIST \"\" {3}\r\nx\n", "+ go\r\n"),
        (b"a LIST \"\" {1}\r\nx\n", &format!("+ go\r\n{HINT}")),
        (b"", ""),
    ];
    for (input, expected) in cases {
        let told = answered(input);
        assert_eq!(told, (expected.to_string(), Ending::Closed), "{:?}", text(input));
    }
}

/// A return option that the library does not know is its refusal, LIST-STATUS (RFC 5819) among them.
#[test]
fn return_options_that_are_not_known() {
    for options in ["STATUS (MESSAGES UNSEEN)", "MYRIGHTS", "METADATA", "CHILDREN COLOUR"] {
        let command = format!("a LIST \"\" * RETURN ({options})\r\n");
        let told = answered(command.as_bytes()).0;
        assert!(told.starts_with("a BAD [refusal 6] ") && told.lines().count() == 1, "{told}");
    }
    assert!(!CAPABILITIES.contains("LIST-STATUS"));
}

#[test]
fn own_words_and_the_librarys() {
    let input = b"a CAPABILITY\r\nb NOOP\r\nc NAMESPACE\r\nd LIST \"\" \"\"\r\ne ID NIL\r\nf LOGOUT\r\ng NOOP\r\n";
    let expected = format!(
        "* CAPABILITY {CAPABILITIES}\r\na OK done\r\nb OK done\r\n\
         * NAMESPACE ((\"\" \"/\")) NIL ((\"#sha\\\"red/\" \"/\"))\r\nc OK done\r\n\
         * LIST (\\Noselect) \"/\" \"\"\r\nd OK done\r\n\
         * ID (\"name\" \"Luspemaro\" \"version\" \"0.1.0\")\r\ne OK done\r\n\
         * BYE Luspemaro\r\nf OK done\r\n"
    );
    assert_eq!(answered(input), (expected, Ending::LoggedOut));
}

/// Each command, and how the last line of its answer begins.
#[test]
fn refusals() {
    let long = format!("a LIST \"\" {}\r\n", "x".repeat(2_040));
    let patterns = format!("a LIST \"\" ({})\r\n", ["x"; 9].join(" "));
    let name = format!("a SUBSCRIBE {}\r\n", "x".repeat(201));
    let cases: [(&str, &str); 22] = [
        (&long, "a BAD [refusal 3] "),
        ("a LIST \"\" {1025}\r\n", "a BAD [refusal 3] "),
        ("a\0b\r\n", "* BAD [refusal 3] "),
        ("a b\0\r\n", "a BAD [refusal 3] "),
        ("a LIST \"\" \x07\r\n", "a BAD [refusal 4] "),
        ("\r\n", "* BAD [refusal 4] "),
        ("a\r\n", "a BAD [refusal 4] "),
        ("* LIST \"\" *\r\n", "* BAD [refusal 4] "),
        ("a LIST \"\"\r\n", "a BAD [refusal 4] "),
        ("a  LIST \"\" *\r\n", "a BAD [refusal 5] "),
        ("a LIST (COLOUR) \"\" *\r\n", "a BAD [refusal 6] "),
        ("a LIST (RECURSIVEMATCH) \"\" *\r\n", "a BAD [refusal 7] "),
        (&patterns, "a BAD [refusal 8] "),
        ("a SUBSCRIBE \"x*\"\r\n", "a NO [refusal 14] "),
        (&name, "a NO [refusal 14] "),
        ("a SELECT INBOX\r\n", "a NO [CANNOT] no messages are served here"),
        ("a EXAMINE INBOX\r\n", "a NO [CANNOT] no messages are served here"),
        ("a STATUS INBOX (MESSAGES)\r\n", "a NO [CANNOT] no messages are served here"),
        ("a LOGIN \"x\" {1}\r\ny\r\n", "a NO [CANNOT] PREAUTH was the greeting"),
        ("a CREATE x\r\n", "a NO [CANNOT] no messages are served here"),
        ("a LIST \"\" {3+}\r\nabc\r\n", "a BAD [refusal 4] "),
        ("a IDLE\r\n", "a NO [CANNOT] no messages are served here"),
    ];
    for (command, start) in cases {
        let (told, ending) = answered(format!("{command}zz NOOP\r\n").as_bytes());
        assert_eq!(ending, Ending::Closed);
        let told = told.strip_suffix("zz OK done\r\n").expect("the next command is answered");
        let told = told.strip_prefix("+ go\r\n").unwrap_or(told);
        // After {3+}, which is no header, abc is a line of its own.
        let line = told.lines().next().expect("a line");
        assert!(line.starts_with(start), "{command:?}: {told}");
    }
}

/// Room that removal leaves is found: names are moved together.
#[test]
fn subscriptions_fill_the_area() {
    let name = |number: usize, length: usize| format!("{number:03}{}", "x".repeat(length - 3));
    let mut input = Vec::new();
    // 163 names of 200 bytes leave 110 bytes and a few; every second one goes again.
    for number in 0..163 {
        input.extend(format!("s SUBSCRIBE {}\r\n", name(number, 200)).into_bytes());
    }
    for number in (0..163).step_by(2) {
        input.extend(format!("u UNSUBSCRIBE {}\r\n", name(number, 200)).into_bytes());
    }
    for number in 200..300 {
        input.extend(format!("t SUBSCRIBE {}\r\n", name(number, 150)).into_bytes());
    }
    let (told, _) = answered(&input);
    let ok = |tag: &str| told.lines().filter(|line| *line == format!("{tag} OK done")).count();
    assert_eq!((ok("s"), ok("u")), (163, 82), "{told}");
    // Runs of 200 bytes hold one such name each; moved together, 16,400 free bytes hold 100 of them.
    assert_eq!(ok("t"), 100, "{told}");
}
