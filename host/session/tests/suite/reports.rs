//! Reports: every number and every line of a page is read back and compared with what the second
//! program answers to the same frames, and with its tables.

use std::collections::{BTreeMap, BTreeSet};
use std::fs;
use std::path::Path;
use std::process::{Command, Output};

use child::testing::script;
use formats::frames::Frame;
use formats::item::{Content, Sent};
use formats::rows::split_rows;
use formats::session::Session;
use formats::sha256::sum_of_bytes;
use formats::source::Source;
use second::frames::{Answer, Program};

use crate::common::{second, told, SESSION};
use crate::page::Element;

const FOLDER: &str = env!("CARGO_TARGET_TMPDIR");

/// The counts of a page that do not hang on what a session expects.
const COUNTED: [&str; 8] = [
    "rows given",
    "rows kept",
    "entries given",
    "entries kept",
    "commands",
    "walks",
    "bad frames",
    "refused",
];

/// Every bundled session.
fn bundled() -> Vec<(String, String)> {
    let folder = concat!(env!("CARGO_MANIFEST_DIR"), "/../sessions");
    let read = |entry: std::io::Result<fs::DirEntry>| {
        let path = entry.expect("a file").path();
        let name = path.file_stem().and_then(|name| name.to_str()).expect("text").to_string();
        (name, fs::read_to_string(path).expect("a session"))
    };
    fs::read_dir(folder).expect("a folder").map(read).collect()
}

/// Runs a session with a report, and gives what was told and the page, if one was written.
pub fn run(name: &str, program: &Path, source: &str, options: &[&str]) -> (Output, Option<String>) {
    let session = Path::new(FOLDER).join(format!("{name}.session"));
    let page = Path::new(FOLDER).join(format!("{name}.html"));
    fs::write(&session, source).expect("a session");
    let _ = fs::remove_file(&page);
    let mut command = Command::new(SESSION);
    command.arg("--program").arg(program).arg(&session).arg("--report").arg(&page);
    let output = command.args(options).output().expect("a run");
    (output, fs::read_to_string(page).ok())
}

pub fn report(name: &str, source: &str) -> Element {
    let (output, page) = run(name, &second(), source, &["--date", "the 16th"]);
    assert!(matches!(output.status.code(), Some(0 | 3)), "{}", told(&output));
    Element::of_page(&page.expect("a page"))
}

/// What was sent, by its line, and what the second program answers to it.
fn exchanges(source: &str) -> (Program, Vec<(u64, Sent, Option<Answer>)>) {
    let session = Session::check(Source::of_bytes(source.as_bytes())).expect("a session");
    let mut program = Program::default();
    let mut exchanges = Vec::new();
    for item in session.items().expect("items") {
        let item = item.expect("an item");
        if let Content::Sent(sent) = item.content {
            let answer = program.answer(&sent.frame.text);
            exchanges.push((item.line, sent, answer));
        }
    }
    (program, exchanges)
}

pub fn values(element: &Element, name: &str) -> Vec<String> {
    element.with(name).into_iter().map(|(_, value)| value.to_string()).collect()
}

/// The lines of an answer, without their ends. Those of the bundled sessions are text.
fn answer_lines(answer: &[u8]) -> Vec<String> {
    let text = str::from_utf8(answer).expect("text");
    text.split_terminator("\r\n").map(String::from).collect()
}

fn found_names(mut found: &[u8]) -> BTreeSet<String> {
    let mut names = BTreeSet::new();
    while let Some((&length, rest)) = found.split_first() {
        let (name, rest) = rest.split_at(usize::from(length));
        names.insert(String::from_utf8(name.to_vec()).expect("text"));
        found = rest;
    }
    names
}

fn check_exchange(section: &Element, answer: &Answer) {
    match answer {
        Answer::Lines(lines) => {
            assert_eq!(values(section, "data-answer"), answer_lines(lines));
            let listed = lines.split(|&byte| byte == b'\n').filter(|line| line.starts_with(b"* "));
            let why = values(section, "data-why");
            assert_eq!(why.len(), listed.count());
            assert!(!why.contains(&"unexplained".to_string()), "{}", section.text());
        }
        Answer::Walked { count, found } => {
            let names = found_names(found);
            assert_eq!(values(section, "data-commands"), [count.to_string()]);
            assert_eq!(values(section, "data-found"), [names.len().to_string()]);
            let listed: Vec<String> = values(section, "data-found-name");
            assert_eq!(listed.len(), names.len());
            assert_eq!(listed.into_iter().collect::<BTreeSet<_>>(), names);
            assert_eq!(values(section, "data-asked").len(), usize::from(*count));
            let drawn = |tag: &str| section.all().iter().filter(|drawn| drawn.tag == tag).count();
            assert_eq!((drawn("rect"), drawn("circle")), (usize::from(*count), names.len()));
        }
        Answer::Refused(refusal) => {
            assert_eq!(values(section, "data-refused"), [refusal.number().to_string()]);
            assert!(section.text().contains(&format!("Refused with {refusal}")));
        }
    }
}

/// Every exchange, every count, every refusal and every row of the bundled sessions.
#[test]
fn every_number_of_the_bundled_sessions() {
    for (name, source) in bundled() {
        let page = report(&format!("report-{name}"), &source);
        let (program, exchanges) = exchanges(&source);
        let answered: Vec<_> = exchanges
            .iter()
            .filter_map(|(line, _, answer)| Some((line.to_string(), answer.as_ref()?)))
            .collect();
        let sections = page.with("data-kind");
        assert_eq!(sections.len(), answered.len(), "{name}");
        for ((section, _), (line, answer)) in sections.iter().zip(&answered) {
            assert_eq!(section.attribute("data-line"), Some(line.as_str()), "{name}");
            check_exchange(section, answer);
        }
        check_counts(&page, &exchanges);
        let alike = format!("{0} of {0} answers, line by line", answered.len());
        assert_eq!(page.with_id("alike").text(), alike, "{name}");
        assert!(page.with("data-differs").is_empty(), "{name}");
        check_refusals(&page, &answered);
        check_tree(&page, &program);
    }
}

fn check_counts(page: &Element, exchanges: &[(u64, Sent, Option<Answer>)]) {
    let mut expected = BTreeMap::from(COUNTED.map(|what| (what, 0)));
    let mut count = |what| *expected.get_mut(what).expect("a count") += 1;
    for (_, sent, answer) in exchanges {
        match (Frame::decode(&sent.frame.text), answer) {
            (Ok(Frame::Row(_)), None) => {
                ["rows given", "rows kept"].into_iter().for_each(&mut count)
            }
            (Ok(Frame::Row(_)), Some(_)) => count("rows given"),
            (Ok(Frame::Entry(_)), None) => {
                ["entries given", "entries kept"].into_iter().for_each(&mut count);
            }
            (Ok(Frame::Entry(_)), Some(_)) => count("entries given"),
            (Ok(Frame::Command { .. }), _) => count("commands"),
            (Ok(Frame::Walk { .. }), _) => count("walks"),
            (Err(_), _) => count("bad frames"),
        }
        if matches!(answer, Some(Answer::Refused(_))) {
            count("refused");
        }
    }
    let counts = page.with("data-count");
    for (what, number) in expected {
        let cell = counts.iter().find(|(_, found)| *found == what).expect("a count");
        assert_eq!(cell.0.text(), number.to_string(), "{what}");
    }
}

fn check_refusals(page: &Element, answered: &[(String, &Answer)]) {
    let expected: Vec<(String, String)> = answered
        .iter()
        .filter_map(|(line, answer)| match answer {
            Answer::Refused(refusal) => Some((line.clone(), refusal.number().to_string())),
            _ => None,
        })
        .collect();
    let listed: Vec<(String, String)> = page
        .with("data-number")
        .into_iter()
        .map(|(row, number)| {
            (row.attribute("data-line").unwrap_or_default().to_string(), number.to_string())
        })
        .collect();
    assert_eq!(listed, expected);
}

/// Each row that was kept has its line with its flags, and the sum of the packed bytes is named.
fn check_tree(page: &Element, program: &Program) {
    assert_eq!(page.with_id("table-sum").text(), sum_of_bytes(&program.table).to_string());
    let rows = split_rows(&program.table).0;
    let size = format!("{} row", rows.len());
    assert!(page.with_id("table").text().starts_with(&size));
    let tree = page.with("data-name");
    for row in rows {
        let name = str::from_utf8(row.name).expect("text");
        let line = tree.iter().find(|(_, found)| *found == name);
        assert!(line.is_some_and(|(line, _)| line.attribute("class") == Some("row")), "{name}");
    }
}

/// The sums are those of the files, and the date is the one of the call.
#[test]
fn facts() {
    let source = "mailbox a exists\nwalk\n";
    let page = report("report-facts", source);
    assert_eq!(page.with_id("session-sum").text(), sum_of_bytes(source.as_bytes()).to_string());
    let program = fs::read(second()).expect("a program");
    assert_eq!(page.with_id("program-sum").text(), sum_of_bytes(&program).to_string());
    let table = sum_of_bytes(b"\0\x01\xFF\x01a").to_string();
    assert_eq!(page.with_id("table-sum").text(), table);
    assert_eq!(page.with_id("table").text(), "1 row, 5 bytes");
    let tool = fs::read(SESSION).expect("this tool");
    assert_eq!(page.with_id("tool-sum").text(), sum_of_bytes(&tool).to_string());
}

/// A date of the call is marked as given, and the clock's stands beside it. What the call does not say of
/// the case is said to be missing.
#[test]
fn dates_and_fields() {
    let source = "mailbox a exists\nwalk\n";
    let fields = ["--case", "12/2026", "--examiner", "\u{5d0} <b>", "--exhibit", "A\x1B"];
    let (_, page) =
        run("report-fields", &second(), source, &[&["--date", "x"], &fields[..]].concat());
    let page = Element::of_page(&page.expect("a page"));
    let text = |id: &str| page.with_id(id).text();
    let clock = text("clock");
    assert!(clock.starts_with("20") && clock.ends_with(" UTC"), "{clock}");
    assert_eq!(text("date"), "x");
    assert!(page.text().contains("Date as given by the examiner"));
    assert_eq!([text("case"), text("examiner")], ["12/2026", "\u{5d0} <b>"]);
    assert_eq!(text("exhibit"), "A\\x1B");
    let (_, page) = run("report-no-fields", &second(), source, &[]);
    let page = Element::of_page(&page.expect("a page"));
    assert!(page.with("id").iter().all(|(_, id)| *id != "date"));
    for id in ["case", "examiner", "exhibit"] {
        assert_eq!(page.with_id(id).text(), "not given");
    }
}

/// Why each name was listed: one line of each kind.
#[test]
fn reasons() {
    let rows = "mailbox Foo/Bar exists subscribed sent\nmailbox INBOX exists\n";
    let commands: [(&str, &[(&str, &str)]); 8] = [
        ("LIST \"\" *", &[("criteria", "it exists, it is local"), ("criteria", "it exists")]),
        ("LIST \"\" F%", &[("level", "as a level: it does not exist")]),
        ("LIST (SUBSCRIBED) \"\" *", &[("criteria", "it is subscribed")]),
        ("LIST (SPECIAL-USE REMOTE) \"\" *", &[("criteria", "it has a special use (sent)")]),
        (
            "LIST (SUBSCRIBED RECURSIVEMATCH) \"\" %",
            &[("recursivematch", "Foo/Bar below it meets the criteria and matches no pattern")],
        ),
        ("LSUB \"\" %", &[("lsub-noselect", "LSUB \\Noselect: it is not subscribed")]),
        ("LSUB \"\" *", &[("lsub", "LSUB: it is subscribed")]),
        ("LIST \"\" \"\"", &[("root", "the root")]),
    ];
    for (at, (command, expected)) in commands.into_iter().enumerate() {
        let source = format!("{rows}command a {command}\n");
        let page = report(&format!("report-reason-{at}"), &source);
        let given = page.with("data-why");
        assert_eq!(given.len(), expected.len(), "{command}");
        for ((cell, kind), (expected, text)) in given.into_iter().zip(expected) {
            assert_eq!(kind, *expected, "{command}");
            assert!(cell.text().contains(text), "{command}: {}", cell.text());
        }
    }
}

/// A count that does not fit what was found is told.
#[test]
fn counts_that_do_not_fit() {
    let program = script(FOLDER, "counts-nine", "read x; echo 57000903612F62; cat >/dev/null");
    let (_, page) = run("report-nine", &program, "walk\n", &[]);
    let page = Element::of_page(&page.expect("a page"));
    let text = "The count is not one more than the ancestors of what was found.";
    assert!(page.text().contains(text));
}

/// Markup in names, commands, comments, prefixes and dates stays text.
#[test]
fn markup_is_escaped() {
    let hostile = "<script>alert(1)</script>&lt;'x'";
    let source = format!(
        "# {hostile}\nmailbox {hostile}/a exists subscribed\nnamespace personal \"{hostile}\" NIL\n\
         command a LIST \"\" *\ncommand a NAMESPACE\ncommand a {hostile}\nwalk\nframe {hostile}\n"
    );
    let (output, text) = run("report-hostile", &second(), &source, &["--date", hostile]);
    assert_eq!(output.status.code(), Some(3), "{}", told(&output));
    let text = text.expect("a page");
    assert!(!text.contains("<script") && !text.contains("alert(1)<"));
    let page = Element::of_page(&text);
    assert_eq!(page.with_id("date").text(), hostile);
    assert!(page.all().iter().all(|element| element.tag != "script"));
    let names = values(&page, "data-found-name");
    assert_eq!(names, [format!("{hostile}/a")]);
    assert!(values(&page, "data-answer").contains(&format!("* LIST () \"/\" \"{hostile}/a\"")));
}

/// Bytes that are not seen are escaped on a page as in the text.
#[test]
fn bytes_that_are_not_seen() {
    let source = "mailbox \"a\" exists\ncommand a LIST \"\" \"\x1B[31m\u{202E}\"\n";
    let (_, text) = run("report-unseen", &second(), source, &[]);
    let text = text.expect("a page");
    assert!(!text.contains('\x1B') && !text.contains('\u{202E}'));
    assert!(text.contains("\\x1B[31m\\xE2\\x80\\xAE"));
}

/// What edits change stands beside what was given, and both tables have their sums.
#[test]
fn edits() {
    let source =
        "mailbox a exists subscribed\nmailbox b subscribed\nunsubscribe a\nunsubscribe b\n\
                  subscribe c/d\n";
    let page = report("report-edits", source);
    let row = |name: &str| {
        let tree = page.with("data-name");
        let (row, _) = tree.iter().find(|(_, found)| *found == name).expect("a row");
        row.text()
    };
    assert_eq!(row("a"), "aexists subscribedallexists");
    assert_eq!(row("b"), "bsubscribedallits row is gone");
    assert_eq!(row("c/d"), "c/dno rowa new row: subscribed, readers all");
    let given = sum_of_bytes(b"\0\x03\xFF\x01a\0\x02\xFF\x01b").to_string();
    let end = sum_of_bytes(b"\0\x01\xFF\x01a\0\x02\xFF\x03c/d").to_string();
    assert_eq!(page.with_id("table-sum").text(), given);
    assert_eq!(
        (page.with_id("end").text(), page.with_id("end-sum").text()),
        ("2 rows, 12 bytes".into(), end)
    );
}

/// A table that does not pass is shown as it was given.
#[test]
fn a_table_that_does_not_pass() {
    let source = "order as-given\nmailbox b exists\nmailbox a 0000\nwalk\nexpect 1\nframe 4D00\n";
    let page = report("report-no-table", source);
    assert_eq!(values(&page, "data-name"), ["b", "a"]);
    assert!(
        page.text().contains("The table does not pass")
            && page.text().contains("1 bytes are no row")
    );
}

/// Where a program fails, the page says how far the session came.
#[test]
fn a_session_that_stopped() {
    let program = script(FOLDER, "stops", "read x; echo 570001; read x; exit 4");
    let (output, page) = run("report-stopped", &program, "walk\nwalk\nwalk\n", &[]);
    assert_eq!(output.status.code(), Some(1));
    let page = Element::of_page(&page.expect("a page"));
    let reason = page.with("data-reason")[0].0.text();
    assert!(
        reason.starts_with("The session was not run to its end: ") && reason.ends_with("4."),
        "{reason}"
    );
    assert_eq!(values(&page, "data-commands"), ["1"]);
}

/// A long session: the first exchanges are shown, and all are counted.
#[test]
fn long_sessions() {
    let page = report("report-long", &"walk 9\n".repeat(1_203));
    assert_eq!(page.with("data-kind").len(), 1_000);
    assert_eq!(values(&page, "data-more"), ["203"]);
    assert_eq!(page.with("data-number").len(), 1_000);
    let counts = page.with("data-count");
    let refused = counts.iter().find(|(_, what)| *what == "refused").expect("a count");
    assert_eq!(refused.0.text(), "1203");
    assert!(page.text().contains("And 203 refusals more, not listed."));
}

/// A walk of many names is drawn in parts.
#[test]
fn long_walks() {
    let rows: String =
        (0..100).map(|at| format!("mailbox a{}/b{at:03} exists subscribed\n", at % 3)).collect();
    let page = report("report-long-walk", &(rows + "walk\n"));
    let drawn = |tag: &str| page.all().iter().filter(|element| element.tag == tag).count();
    assert_eq!((drawn("svg"), drawn("rect"), drawn("circle")), (3, 4, 100));
}
