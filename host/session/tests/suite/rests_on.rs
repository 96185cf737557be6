//! What a page rests on: who built the program, whether the second program answers the same, and the
//! verdict that follows.

use std::fs;
use std::path::Path;

use child::testing::script;
use formats::sha256::sum_of_bytes;

use crate::building::Tree;
use crate::common::{second, told};
use crate::page::Element;
use crate::reports::{run, values};

const FOLDER: &str = env!("CARGO_TARGET_TMPDIR");
const SOURCE: &str =
    "mailbox Foo/Bar exists subscribed\nmailbox INBOX exists\ncommand a LIST \"\" *\n";
const PASSED: &str = "All checks passed.";
const NOT_PASSED: &str = "Not everything was checked or agreed.";

fn sum_of_second() -> String {
    sum_of_bytes(&fs::read(second()).expect("a program")).to_string()
}

/// The page of a session, run as `./run` runs the program that the proof built.
fn proved_page(name: &str, source: &str) -> Element {
    let (output, page) = run(name, &second(), source, &["--proved-sum", &sum_of_second()]);
    assert!(matches!(output.status.code(), Some(0 | 3)), "{}", told(&output));
    Element::of_page(&page.expect("a page"))
}

/// The verdict and its reasons.
fn verdict(page: &Element) -> (String, Vec<String>) {
    let reasons = page.with("data-reason");
    (page.with_id("verdict").text(), reasons.iter().map(|(reason, _)| reason.text()).collect())
}

fn class_of_verdict(page: &Element) -> Option<&str> {
    page.with_id("verdict").attribute("class")
}

/// Green needs all of it: take away one, and the page is red and says which.
#[test]
fn a_green_verdict() {
    let page = proved_page("green", SOURCE);
    let (text, reasons) = verdict(&page);
    assert_eq!((text.as_str(), class_of_verdict(&page)), (PASSED, Some("well")), "{reasons:?}");
    assert_eq!(page.with_id("alike").text(), "1 of 1 answers, line by line");
    let bad_table = format!("order as-given\nmailbox b exists\n{SOURCE}expect 1\n");
    let sessions = [
        (bad_table.as_str(), "The table does not pass (refusal 1)."),
        (
            "frame 4E00\ncommand a NAMESPACE\nexpect 2\n",
            "The namespace list does not pass (refusal 2).",
        ),
        ("walk 9\n", "1 item was not answered or refused as the session expects."),
        ("walk\nexpect 6\n", "1 item was not answered or refused as the session expects."),
        ("# nothing\n", "Nothing was sent, so nothing was checked."),
        ("4D0001FF0161\n57", "Nobody asked the program whether the table passes."),
    ];
    for (at, (source, reason)) in sessions.into_iter().enumerate() {
        let page = proved_page(&format!("red-{at}"), source);
        let (text, reasons) = verdict(&page);
        assert_eq!((text.as_str(), class_of_verdict(&page)), (NOT_PASSED, Some("wrong")));
        assert!(reasons.contains(&reason.to_string()), "{source}: {reasons:?}");
    }
}

/// A program that nothing is known of, or another one than the proof built, or one whose file changes
/// while it runs: a red line, and never the word of the proof.
#[test]
fn who_built_the_program() {
    let changes =
        script(FOLDER, "changes-itself", "read x; echo 570001; echo '# more' >>\"$0\"; cat");
    let own_sum = sum_of_bytes(&fs::read(&changes).expect("a program")).to_string();
    let other = "0".repeat(64);
    for (at, (program, options, start)) in [
        (second(), vec![], "It is not known what built the program: it was given by --program"),
        (
            second(),
            vec!["--proved-sum", &other],
            "The program is another one than this repository's",
        ),
        (changes, vec!["--proved-sum", &own_sum], "The file of the program changed while"),
    ]
    .into_iter()
    .enumerate()
    {
        let (_, page) = run(&format!("built-{at}"), &program, "walk\n", &options);
        let page = Element::of_page(&page.expect("a page"));
        let (text, reasons) = verdict(&page);
        assert_eq!(text, NOT_PASSED);
        assert!(reasons.len() == 1 && reasons[0].starts_with(start), "{reasons:?}");
        let line = page.with_id("origin");
        assert_eq!(line.text(), reasons[0]);
        assert!(line.all().iter().any(|part| part.attribute("class") == Some("wrong")));
    }
}

/// `./run` knows what its proof built; of a program of the call it knows nothing.
#[test]
fn what_run_knows() {
    let tree = Tree::new("origin-tree");
    let page = |name: &str, program: &[&str]| {
        let path = tree.root.join(name);
        let path = path.to_str().expect("text");
        let output = tree.call(true, &[&["--report", path], program].concat());
        assert_eq!(output.status.code(), Some(0), "{}", told(&output));
        Element::of_page(&fs::read_to_string(path).expect("a page"))
    };
    let proved = page("proved.html", &[]);
    assert_eq!(verdict(&proved).0, PASSED);
    assert_eq!(proved.with_id("program-sum").text(), sum_of_second());
    assert_eq!(proved.with_id("sources-sum").text().len(), 64);
    let copied = tree.root.join("copied");
    fs::copy(second(), &copied).expect("a program");
    let other = page("other.html", &["--program", copied.to_str().expect("text")]);
    assert_eq!(verdict(&other).0, NOT_PASSED);
    assert_eq!(other.with_id("sources-sum").text(), "not known");
}

/// What a program of these lines leaves out, adds, or puts in another order is shown line by line.
#[test]
fn answers_that_differ() {
    let (foo, inbox) = ("* LIST () \"/\" \"Foo/Bar\"", "* LIST () \"/\" \"INBOX\"");
    let (ok, other) = ("a OK done", "* LIST () \"/\" \"x\"");
    let missing = |line: &str| format!("missing: {line}");
    let added = |line: &str| format!("added: {line}");
    let answers: [(&[&str], Vec<String>, &str); 4] = [
        (&[foo, ok], vec![missing(inbox)], "1 line missing"),
        (&[foo, other, inbox, ok], vec![added(other)], "1 line added"),
        (
            &[other, ok],
            vec![missing(foo), missing(inbox), added(other)],
            "2 lines missing, 1 line added",
        ),
        (&[inbox, foo, ok], vec![], "the lines stand in another order"),
    ];
    for (at, (lines, expected, short)) in answers.into_iter().enumerate() {
        let bytes: String = lines.iter().map(|line| format!("{line}\r\n")).collect();
        let hex: String = bytes.bytes().map(|byte| format!("{byte:02X}")).collect();
        let text = format!("read x; read x; read x; echo 41{hex}; cat");
        let program = script(FOLDER, &format!("differs-{at}"), &text);
        let (output, page) = run(&format!("differs-{at}"), &program, SOURCE, &[]);
        assert_eq!(output.status.code(), Some(3), "{}", told(&output));
        assert!(told(&output).contains(&format!("line 3: the programs differ: {short}\n")));
        let page = Element::of_page(&page.expect("a page"));
        assert_eq!(page.with_id("alike").text(), "0 of 1 answers, line by line");
        assert_eq!(values(&page, "data-differs"), ["3"]);
        let rows = page.with("data-differs");
        assert_eq!(values(rows[0].0, "data-difference"), expected);
        assert_eq!(values(page.with_id("line-3"), "data-difference"), expected);
        let reason = "1 answer is not the second program's, of 1 that were compared.";
        assert!(verdict(&page).1.contains(&reason.to_string()), "{:?}", verdict(&page));
    }
}

/// Walks and refusals are compared too: a find that is left out, a count, a refusal in place of an answer.
#[test]
fn walks_that_differ() {
    let rows = "mailbox a/b exists subscribed\nmailbox c exists subscribed\n";
    for (at, (answer, short, lines)) in [
        ("5700020163", "1 name missing", vec!["missing: a/b"]),
        ("570003016303612F62", "3 commands sent, and 2 by the second program", vec![]),
        ("57000203612F620163", "the names stand in another order", vec![]),
        (
            "520A",
            "it was refused with 10: find does not fit, and by the second program answered",
            vec!["missing: c", "missing: a/b"],
        ),
        (
            "570001",
            "1 command sent, and 2 by the second program; 2 names missing",
            vec!["missing: c", "missing: a/b"],
        ),
    ]
    .into_iter()
    .enumerate()
    {
        let text = format!("read x; read x; read x; echo {answer}; cat");
        let program = script(FOLDER, &format!("walks-{at}"), &text);
        let (output, page) = run(&format!("walks-{at}"), &program, &format!("{rows}walk\n"), &[]);
        assert!(
            told(&output).contains(&format!("the programs differ: {short}\n")),
            "{}",
            told(&output)
        );
        let page = Element::of_page(&page.expect("a page"));
        assert_eq!(values(page.with_id("line-3"), "data-difference"), lines, "{answer}");
    }
}

/// What is summed up, sent and shown are the bytes that were read at first, although the program changes
/// the session's file before it answers.
#[test]
fn a_session_that_changes_meanwhile() {
    let source = "walk\n".repeat(20_000);
    let session = Path::new(FOLDER).join("changes.session");
    let text =
        format!("echo 'walk 9' >'{}'; while read x; do echo 570001; done", session.display());
    let program = script(FOLDER, "changes-the-session", &text);
    let (output, page) = run("changes", &program, &source, &[]);
    assert_eq!(
        output.status.code(),
        Some(0),
        "{}",
        told(&output).lines().last().unwrap_or_default()
    );
    let page = Element::of_page(&page.expect("a page"));
    assert_eq!(page.with_id("session-sum").text(), sum_of_bytes(source.as_bytes()).to_string());
    assert_eq!(page.with_id("alike").text(), "20000 of 20000 answers, line by line");
}
