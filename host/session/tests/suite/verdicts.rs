//! The forms that are data say what the page says: the verdict with its reasons, the own check, and where
//! the second program answers otherwise. None of them is greener than another.

use std::fs;
use std::path::Path;
use std::process::Command;

use child::testing::script;
use formats::sha256::sum_of_bytes;
use session::Form;

use crate::common::{second, whole_text, SESSION};
use crate::json::Value;
use crate::page::Element;

const FOLDER: &str = env!("CARGO_TARGET_TMPDIR");
const ROWS: &str = "mailbox Foo/Bar exists subscribed\nmailbox INBOX exists\n";

/// What a session comes to in one form, and its page.
fn output_and_page(name: &str, program: &Path, form: &str, source: &str) -> (String, Element) {
    let path = |end: &str| Path::new(FOLDER).join(format!("verdict-{name}.{end}"));
    let (session, page) = (path("session"), path("html"));
    fs::write(&session, source).expect("a session");
    let _ = fs::remove_file(&page);
    let mut command = Command::new(SESSION);
    command.arg("--program").arg(program).arg(form).arg("--report").arg(&page).arg(&session);
    let sum = sum_of_bytes(&fs::read(second()).expect("a program")).to_string();
    let output = command.args(["--proved-sum", &sum]).output().expect("a run");
    let page = Element::of_page(&fs::read_to_string(page).expect("a page"));
    (String::from_utf8(output.stdout).expect("text"), page)
}

/// Whether the verdict is green, and its reasons.
type Verdict = (bool, Vec<String>);

fn of_page(page: &Element) -> Verdict {
    let reasons = page.with("data-reason").iter().map(|(reason, _)| reason.text()).collect();
    (page.with_id("verdict").attribute("class") == Some("well"), reasons)
}

fn of_json(text: &str) -> Verdict {
    let verdict = &Value::of(text)["verdict"];
    let reasons = verdict["reasons"].list().iter().map(|reason| reason.text().to_string());
    (verdict["all_checks_passed"] == Value::Bool(true), reasons.collect())
}

fn of_csv(text: &str) -> Verdict {
    let records = text.lines().filter_map(|line| line.strip_prefix(",verdict,,"));
    let mut is_green = false;
    let mut reasons = Vec::new();
    for record in records {
        let (part, text) = record.split_once(",,,,,").expect("a record");
        match part {
            "reason" => reasons.push(text.trim_matches('"').to_string()),
            part => is_green = part == "passed",
        }
    }
    (is_green, reasons)
}

#[test]
fn the_same_in_every_form() {
    let loses = script(FOLDER, "verdict-loses", "read x; read x; read x; echo 41; cat");
    let asked = format!("{ROWS}command a LIST \"\" *\n");
    let bad = "order as-given\nmailbox b exists\nmailbox a exists\n";
    let cases = [
        ("green", second(), asked.as_str(), true),
        ("own", second(), ROWS, true),
        ("bad", second(), bad, false),
        ("refused", second(), "walk 9\n", false),
        ("empty", second(), "# nothing\n", false),
        ("loses", loses, &asked, false),
    ];
    for (name, program, source, is_green) in cases {
        let (json, page) = output_and_page(name, &program, "--json", source);
        let (csv, _) = output_and_page(name, &program, "--csv", source);
        let expected = of_page(&page);
        assert_eq!(expected.0, is_green, "{name}: {expected:?}");
        assert!(!expected.1.is_empty(), "{name}");
        assert_eq!(of_json(&json), expected, "{name}");
        assert_eq!(of_csv(&csv), expected, "{name}: {csv}");
    }
}

/// Of a program of which nothing is known nothing is green.
#[test]
fn a_program_that_is_not_known() {
    let (is_green, reasons) = of_json(&whole_text("walk\n", Form::Json));
    assert!(!is_green && reasons[0].starts_with("It is not known what built the program"));
    let document = Value::of(&whole_text("walk\n", Form::Json));
    assert_eq!(document["program"]["built_by_proof"], Value::Bool(false));
    assert_eq!(document["program"]["sha256"].text().len(), 64);
}

#[test]
fn the_own_check() {
    let bad = "order as-given\nmailbox b exists\nmailbox a exists\n";
    let document = Value::of(&whole_text(bad, Form::Json));
    assert_eq!(document["own_check"].number(), 1);
    let own = document["items"].list().last().expect("an item");
    assert_eq!(own["item"].text(), "own command of this tool");
    assert_eq!((&own["line"], own["reply"]["refused"].number()), (&Value::Null, 1));
    assert_eq!(document["troubles"]["texts"].list().len(), 1);
    let csv = whole_text(bad, Form::Csv);
    assert!(csv.contains("\n,own command of this tool,0,refused,1,"), "{csv}");
    assert!(csv.contains("\n,trouble,,text,,,,,"), "{csv}");
    let document = Value::of(&whole_text(ROWS, Form::Json));
    assert_eq!(document["own_check"].text(), "passed");
    let document = Value::of(&whole_text("walk\n", Form::Json));
    assert_eq!(document["own_check"], Value::Null);
}

#[test]
fn differences() {
    let answer = "a OK done\r\n".bytes().map(|byte| format!("{byte:02X}")).collect::<String>();
    let text = format!("read x; read x; read x; echo 41{answer}; cat");
    let program = script(FOLDER, "verdict-differs", &text);
    let source = format!("{ROWS}command a LIST \"\" *\n");
    let (json, _) = output_and_page("differs", &program, "--json", &source);
    let document = Value::of(&json);
    let item = document["items"].list().last().expect("an item");
    assert_eq!(item["differs"]["short"].text(), "2 lines missing");
    let lines: Vec<&str> = item["differs"]["lines"].list().iter().map(Value::text).collect();
    let foo = "missing: * LIST () \"/\" \"Foo/Bar\"";
    assert_eq!(lines, [foo, "missing: * LIST () \"/\" \"INBOX\""]);
    assert_eq!(document["items"].list()[0]["differs"], Value::Null);
    let (csv, _) = output_and_page("differs", &program, "--csv", &source);
    assert_eq!(csv.matches("\n3,command,0,differs,").count(), 3, "{csv}");
}
