//! What several places say of one name, and the limits of a table.

use import::answer::read_answer;
use import::names::{read_names, EXISTS};
use import::{Found, Room, Told};

use crate::common::{came, Came};

fn of_names(names: &[String], room: Room) -> Came {
    came(&read_names(names.join("\n").as_bytes(), b'/', EXISTS), Told::default(), room)
}

/// 512 rows are taken, and each one more is told by its name.
#[test]
fn rows() {
    let names: Vec<String> = (0..514).map(|number| format!("{number:03}")).collect();
    for (count, left_out) in [(511, 0), (512, 0), (513, 1), (514, 2)] {
        let Came { lines, told } = of_names(&names[..count], Room::Program);
        assert_eq!((lines.len(), told.all_left_out().len()), (count - left_out, left_out));
    }
    let told = of_names(&names, Room::Program).told;
    assert_eq!(told.all_left_out()[1], "line 514: 513: a table has at most 512 rows");
}

/// Rows of 204 bytes: 80 have room in the program, and 160 in a table. A short name after them is left
/// out too, so that what is taken is the start of the whole.
#[test]
fn room() {
    let mut names: Vec<String> =
        (0..161).map(|number| format!("{number:03}{}", "n".repeat(197))).collect();
    names.push("z".to_string());
    for (room, kept) in [(Room::Program, 80), (Room::Library, 160)] {
        let Came { lines, told } = of_names(&names, room);
        assert_eq!((lines.len(), told.all_left_out().len()), (kept, names.len() - kept));
        let last = told.all_left_out().last().expect("one");
        assert!(last.starts_with("line 162: z: "), "{last}");
    }
}

/// The longest name, the deepest one, and one more of each.
#[test]
fn names() {
    for (name, is_taken) in [
        ("x".repeat(200), true),
        ("x".repeat(201), false),
        (["x"; 16].join("/"), true),
        (["x"; 17].join("/"), false),
    ] {
        let Came { lines, told } = of_names(std::slice::from_ref(&name), Room::Program);
        assert_eq!((lines.len() == 1, told.is_all_taken()), (is_taken, is_taken), "{name}");
    }
}

/// At any depth, and whatever the rows below are.
#[test]
fn below_a_row_with_no_inferiors() {
    let answer = b"* LIST (\\NoInferiors) \"/\" a\r\n* LIST () \"/\" a/b/c\r\n* LIST () \"/\" a-b\r\n\
                   * LSUB () \"/\" a/d\r\n* LIST (\\NoInferiors) \"/\" a/e\r\n* LIST () \"/\" a/e/f\r\n";
    let mut told = Told::default();
    let found = read_answer(answer, &mut told).expect("an answer");
    let Came { lines, told } = came(&found, told, Room::Program);
    assert_eq!(lines, ["mailbox a exists noinferiors", "mailbox a-b exists"]);
    let left_out: Vec<String> = ["2: a/b/c", "4: a/d", "5: a/e", "6: a/e/f"]
        .map(|place| format!("line {place}: it lies below a, which has no inferiors"))
        .to_vec();
    assert_eq!(told.all_left_out(), left_out);
}

/// Two mailboxes of a store that would have one name here: the first is kept.
#[test]
fn two_mailboxes_of_one_name() {
    let found = |name: &str, delimiter| Found {
        origin: format!("the one with {}", char::from(delimiter)),
        name: name.as_bytes().to_vec(),
        delimiter: Some(delimiter),
        said: EXISTS,
    };
    let all_found = [found("a.b", b'.'), found("a/b", b'/'), found("a.b", b'.')];
    let Came { lines, told } = came(&all_found, Told::default(), Room::Program);
    assert_eq!(lines, ["mailbox a/b exists"]);
    let reason =
        "it would have the name of another mailbox, of the one with ., which the table keeps";
    assert_eq!(told.all_left_out(), [format!("the one with /: a/b: {reason}")]);
}
