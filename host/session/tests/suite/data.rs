//! `--json` and `--csv`: every row, line, find and refusal, and every byte of them.

use std::fs::File;
use std::path::Path;
use std::process::{Command, Stdio};

use child::testing::script;
use formats::frames::{ANSWER, REFUSAL, WALK};
use formats::hex::bytes_of_hex;
use formats::json::Json;
use session::Form;

use crate::common::{second, told, whole_text, SESSION};
use crate::json::Value;

const SESSION_TEXT: &str = concat!(
    "# Names that are not plain.\n",
    "mailbox Entw&APw-rfe exists subscribed readers 0,3\n",
    "mailbox Customers/ABC exists subscribed\n",
    "namespace shared \"#mh/\" NIL\n",
    "command a LIST (SUBSCRIBED RECURSIVEMATCH) \"\" \"%\"\n",
    "command b LSUB \"\" \"%\"\n",
    "walk\n",
    "reader 3\n",
    "command \u{e9} \\ \"\n",
    "expect 3\n",
    "walk 9\n",
    "reader 0\n",
    "unsubscribe Customers/ABC\n",
    "frame 4Dzz\n",
    "expect 13\n",
);

fn json(source: &str) -> Value {
    Value::of(&whole_text(source, Form::Json))
}

/// The items of one kind.
fn items<'v>(document: &'v Value, kind: &str) -> Vec<&'v Value> {
    document["items"].list().iter().filter(|item| item["item"].text() == kind).collect()
}

fn texts(value: &Value) -> Vec<&str> {
    value.list().iter().map(Value::text).collect()
}

#[test]
fn a_session_as_json() {
    let document = json(SESSION_TEXT);
    assert_eq!(document["format"].text(), "luspemaro session 1");
    assert_eq!(items(&document, "comment")[0]["text"].text(), "# Names that are not plain.");
    assert_eq!(items(&document, "order").len(), 1);

    let rows = items(&document, "mailbox");
    assert_eq!((rows.len(), rows[1]["line"].number()), (2, 2));
    assert_eq!(rows[1]["reply"], Value::Null);
    let row = &rows[1]["rows"].list()[0];
    assert_eq!((row["name"].text(), row["says"].text()), ("Entw&APw-rfe", "Entw\u{fc}rfe"));
    assert_eq!(
        (texts(&row["flags"]), row["flag_bits"].number()),
        (vec!["exists", "subscribed"], 3)
    );
    let readers: Vec<u64> = row["readers"].list().iter().map(Value::number).collect();
    assert_eq!(readers, [0, 3]);

    let entry = &items(&document, "namespace")[0]["entries"].list()[0];
    assert_eq!((entry["class"].text(), entry["prefix"].text()), ("shared", "#mh/"));
    assert_eq!(entry["delimiter"], Value::Null);

    let commands = items(&document, "command");
    let lines = commands[0]["reply"]["lines"].list();
    assert_eq!(lines.len(), 3);
    assert_eq!((lines[0]["name"].text(), lines[0]["word"].text()), ("Customers", "LIST"));
    assert_eq!(texts(&lines[0]["attributes"]), ["\\NonExistent"]);
    assert_eq!(texts(&lines[0]["childinfo"]), ["SUBSCRIBED"]);
    assert_eq!(lines[2], Value::of("{\"text\": \"a OK done\\u000D\\u000A\"}"));
    let line = &commands[1]["reply"]["lines"].list()[0];
    assert_eq!((line["word"].text(), texts(&line["attributes"])), ("LSUB", vec!["\\Noselect"]));
}

#[test]
fn walks_refusals_and_the_end_as_json() {
    let document = json(SESSION_TEXT);
    let walks = items(&document, "walk");
    assert_eq!(walks[0]["by"].text(), "the program of frames");
    assert_eq!(walks[0]["reply"]["commands"].number(), 2);
    let found = walks[0]["reply"]["found"].list();
    let found: Vec<&str> = found.iter().map(|name| name["name"].text()).collect();
    assert_eq!(found, ["Entw&APw-rfe", "Customers/ABC"]);

    let refused = walks[1];
    assert_eq!((refused["reader"].number(), refused["option"].number()), (3, 9));
    assert_eq!(refused["reply"]["refused"].number(), 6);
    assert_eq!(refused["as_expected"], Value::Bool(false));
    let said = &refused["second_program"];
    assert_eq!(said["explained"].text(), "an option byte is 0 to 7, and 4 stands beside 2");
    assert_eq!(said["standing"].text(), "explained by the second program, not proved");

    let bad = items(&document, "bad frame")[0];
    assert_eq!((bad["frame"].text(), bad["expected"].number()), ("4Dzz", 13));
    assert_eq!(bad["as_expected"], Value::Bool(true));

    let subscribed = |table: &Value| {
        let rows = table["rows"].list().to_vec();
        rows.iter().map(|row| (row["name"].text().to_string(), row["flag_bits"].number())).collect()
    };
    let given: Vec<(String, u64)> = subscribed(&document["table"]);
    assert_eq!(given, [("Customers/ABC".to_string(), 3), ("Entw&APw-rfe".to_string(), 3)]);
    let after: Vec<(String, u64)> = subscribed(&document["table_after_edits"]);
    assert_eq!(after[0], ("Customers/ABC".to_string(), 1));
    assert_eq!(document["counts"]["walks"].number(), 2);
    assert_eq!(document["verdict"]["all_checks_passed"], Value::Bool(false));
    assert_eq!(document["stopped"], Value::Null);
}

/// Bytes that are no text, and those that are not seen, come back.
#[test]
fn bytes_survive() {
    let document = json(SESSION_TEXT);
    let command = items(&document, "command")[2];
    assert_eq!(command["command"].bytes(), b"\xC3\xA9 \\ \"\r\n");
    let all: Vec<u8> = (0..=255).collect();
    let written = Json::bytes(&all).to_string();
    assert!(written.is_ascii() && !written.bytes().any(|byte| byte.is_ascii_control()));
    assert_eq!(Value::of(&written).bytes(), all);
    let text = "\u{202e}\u{1f4e7} \u{fc}\n";
    assert_eq!(Value::of(&Json::text(text).to_string()).text(), text);

    // A row that does not pass, with every byte in its name but those of the hexadecimal frame itself.
    let name: String = (0..=255).rev().skip(56).map(|byte| format!("{byte:02X}")).collect();
    let document = json(&format!("frame 4D0001FFC8{name}\nframe 4D00\n"));
    let row = &document["table"]["rows"].list()[0];
    let expected: Vec<u8> = (0..200).rev().collect();
    assert_eq!(row["name"].bytes(), expected);
    assert_eq!(document["table"]["rest"].bytes(), [0]);
    assert_eq!(document["table"]["passes_by_second_program"], Value::Bool(false));
}

#[test]
fn a_session_as_csv() {
    let text = whole_text(SESSION_TEXT, Form::Csv);
    assert!(text.is_ascii());
    let expected = [
        "line,item,reader,part,number,name,flags,readers,text",
        ",comment,,text,,,,,# Names that are not plain.",
        "3,mailbox,,row,,Customers/ABC,exists subscribed,all,",
        "2,mailbox,,row,,Entw&APw-rfe,exists subscribed,\"0,3\",",
        "4,namespace,,entry,,#mh/,shared,,NIL",
        "5,command,0,sent,,,,,\"a LIST (SUBSCRIBED RECURSIVEMATCH) \"\"\"\" \"\"%\"\"\\x0D\\x0A\"",
        "5,command,0,line,,Customers,\\\\NonExistent,,\"* LIST (\\\\NonExistent) \"\"/\"\" \"\"Customers\"\" (\"\"CHILDINFO\"\" (\"\"SUBSCRIBED\"\"))\\x0D\\x0A\"",
        "7,walk,0,commands,2,,,,",
        "7,walk,0,found,,Entw&APw-rfe,,,",
        "7,walk,0,found,,Customers/ABC,,,",
        "9,command,3,sent,,,,,\"\\xC3\\xA9 \\\\ \"\"\\x0D\\x0A\"",
        "9,command,3,refused,3,,,,line shape",
        "9,command,3,expected,3,,,,as expected",
        "11,walk,3,explained,,,,,\"an option byte is 0 to 7, and 4 stands beside 2 (explained by the second program, not proved)\"",
        ",table,,row,,Customers/ABC,exists subscribed,all,",
        ",table after edits,,row,,Customers/ABC,exists,all,",
        ",summary,,count,2,,,,walks",
    ];
    let mut lines = text.lines();
    for line in expected {
        assert!(lines.any(|one| one == line), "{line} is not next in\n{text}");
    }
}

/// A spreadsheet takes no name for a formula.
#[test]
fn names_that_look_like_formulas() {
    let text =
        whole_text("mailbox =1+1 exists\nmailbox -a exists\nmailbox a=-@ exists\n", Form::Csv);
    for name in ["\\x3D1+1", "\\x2Da", "a=-@"] {
        assert!(text.contains(&format!(",row,,{name},")), "{name} is not in\n{text}");
    }
}

/// A session without items is a document too, and so is one that stopped.
#[test]
fn short_documents() {
    let document = json("");
    assert_eq!((document["items"].list().len(), &document["stopped"]), (0, &Value::Null));
    let program =
        script(env!("CARGO_TARGET_TMPDIR"), "json-stops", "read x; echo 570001; read x; exit 1");
    let path = Path::new(env!("CARGO_TARGET_TMPDIR")).join("json-stops.session");
    std::fs::write(&path, "walk\nwalk\n").expect("a session");
    let mut command = Command::new(SESSION);
    command.arg("--program").arg(program).arg(path).arg("--json");
    let output = command.output().expect("a run");
    assert_eq!(output.status.code(), Some(1));
    let document = Value::of(&String::from_utf8(output.stdout).expect("text"));
    assert_eq!(document["stopped"].text(), "exit status: 1");
    assert_eq!(document["items"].list().len(), 1);
    assert_eq!(document["verdict"]["all_checks_passed"], Value::Bool(false));
    let reasons = texts(&document["verdict"]["reasons"]);
    assert!(reasons.contains(&"The session was not run to its end: exit status: 1."));
}

#[test]
fn output_that_fails() {
    for form in ["--json", "--csv"] {
        let full = File::create("/dev/full").expect("a full device");
        let mut command = Command::new(SESSION);
        command.arg("--program").arg(second()).arg(form).stdin(Stdio::null()).stdout(full);
        let output = command.stderr(Stdio::piped()).output().expect("a run");
        assert_eq!(output.status.code(), Some(1), "{form}");
        assert!(told(&output).contains("cannot write the output: No space left"), "{form}");
    }
}

/// What an item of a document was answered, as the program answers: the bytes of a frame.
fn answer_bytes(reply: &Value) -> Vec<u8> {
    let Value::Object(members) = reply else {
        panic!("no reply: {reply:?}");
    };
    if members.contains_key("lines") {
        let lines = reply["lines"].list().iter().flat_map(|line| line["text"].bytes());
        return [ANSWER].into_iter().chain(lines).collect();
    }
    if members.contains_key("refused") {
        return vec![REFUSAL, reply["refused"].number() as u8];
    }
    let count = (reply["commands"].number() as u16).to_be_bytes();
    let names = reply["found"].list().iter().map(|name| name["name"].bytes());
    let names = names.flat_map(|name| [&[name.len() as u8], name.as_slice()].concat());
    [WALK].into_iter().chain(count).chain(names).collect()
}

/// Every answer of the bundled sessions is in the data, whole and in order.
#[test]
fn every_answer_of_the_bundled_sessions() {
    let folder = concat!(env!("CARGO_MANIFEST_DIR"), "/../sessions");
    for entry in std::fs::read_dir(folder).expect("a folder") {
        let path = entry.expect("a file").path();
        let source = std::fs::read_to_string(&path).expect("a session");
        let frames = whole_text(&source, Form::Frames);
        let answers: Vec<Vec<u8>> = frames
            .lines()
            .filter_map(|line| bytes_of_hex(line.strip_prefix("< ")?.as_bytes()))
            .collect();
        let document = json(&source);
        let given: Vec<Vec<u8>> = document["items"]
            .list()
            .iter()
            .filter(|item| !["comment", "order"].contains(&item["item"].text()))
            .filter(|item| item["reply"] != Value::Null)
            .map(|item| answer_bytes(&item["reply"]))
            .collect();
        assert!(!answers.is_empty());
        assert_eq!(given, answers, "{}", path.display());

        let records = whole_text(&source, Form::Csv);
        let count = |part: &str| records.matches(&format!(",{part},")).count();
        let refused = answers.iter().filter(|answer| answer[0] == REFUSAL).count();
        let walked = answers.iter().filter(|answer| answer[0] == WALK).count();
        assert_eq!((count("refused"), count("commands")), (refused, walked), "{}", path.display());
    }
}
