//! `walk large`, with stand-ins for the walker, which is tested with the library in its own crate.

use std::fs;
use std::path::{Path, PathBuf};
use std::process::{Command, Output, Stdio};

use child::testing::script;
use formats::item::{Content, Origin};
use formats::sha256::sum_of_bytes;

use crate::common::{check, second, told, SESSION};
use crate::page::Element;
use crate::rooms::wide_account;

const FOLDER: &str = env!("CARGO_TARGET_TMPDIR");
const BY: &str = "By         the library, with larger buffers, and not the program of frames\n";

/// What a stand-in does, and a session for it.
struct Case {
    folder: PathBuf,
    walker: PathBuf,
}

impl Case {
    /// A walker that keeps its input, notes that it was made ready, and gives an answer.
    fn new(name: &str, answer: &str) -> Case {
        let folder = Path::new(FOLDER).join(format!("large-{name}"));
        if folder.exists() {
            fs::remove_dir_all(&folder).expect("a folder that is gone");
        }
        fs::create_dir_all(&folder).expect("a folder");
        let text = format!(
            "cd {}\nif [ \"$1\" = --build ]; then echo ready >>ready; exit; fi\ncat >input\n{answer}",
            folder.display()
        );
        let walker = script(folder.to_str().expect("text"), "walker", &text);
        Case { folder, walker }
    }

    fn run(&self, session: &str, options: &[&str]) -> Output {
        let path = self.folder.join("session");
        fs::write(&path, session).expect("a session");
        let mut command = Command::new(SESSION);
        command.arg("--program").arg(second()).arg("--walker").arg(&self.walker).args(options);
        command.arg(path).stdin(Stdio::null()).output().expect("a run")
    }

    fn file(&self, name: &str) -> String {
        fs::read_to_string(self.folder.join(name)).unwrap_or_default()
    }
}

fn hex(text: &str) -> String {
    text.bytes().map(|byte| format!("{byte:02X}")).collect()
}

fn text(output: &Output) -> String {
    String::from_utf8(output.stdout.clone()).expect("text")
}

#[test]
fn items() {
    let session = check("walk large\nwalk  large remote 2\nwalk remote\n").expect("a session");
    assert!(session.has_large_walk && session.length == 3);
    let sent = session.items().expect("items").map(|item| match item.expect("an item").content {
        Content::Sent(sent) => (sent.frame.text, sent.origin),
        other => panic!("{other:?}"),
    });
    let walks =
        [("570000", Origin::LargeWalk), ("570003", Origin::LargeWalk), ("570001", Origin::Other)];
    let walks = walks.map(|(text, origin)| (text.as_bytes().to_vec(), origin));
    assert_eq!(sent.collect::<Vec<_>>(), walks);
    check("walk remote large\n").expect_err("large stands first");
}

/// The walker is given the rows, the edits that were accepted and the walk, and the program of frames is
/// sent nothing of it. What it answers is marked as the library's.
#[test]
fn what_the_walker_is_given() {
    let case = Case::new("given", "echo 57000205412F622F63");
    let session = concat!(
        "mailbox B exists\nmailbox A exists\n",
        "subscribe \"a b\"\nsubscribe \"\"\nexpect 14\ncommand a LIST \"\" *\n",
        "reader 3\nwalk large remote\nreader 0\nwalk\n",
    );
    let output = case.run(session, &[]);
    let edit = "430073205355425343524942452022612062220D0A";
    let rows = "4D0001FF01410001FF0142";
    assert_eq!(case.file("input"), format!("{rows}\n{edit}\n570301\n"), "{}", told(&output));
    assert_eq!(case.file("ready"), "ready\n");
    let text = text(&output);
    let walk = format!(
        "Walk large option byte 1: remote\nFrom       reader 3\n{BY}\
         Answer     2 commands sent, 1 mailbox found\n           A/b/c\n"
    );
    assert!(text.contains(&walk), "{text}");
    // The walk after it is the program's.
    let walk = "Walk       option byte 0\nAnswer     1 command sent, 1 mailbox found\n";
    assert!(text.contains(walk) && text.matches(BY).count() == 1, "{text}");
    assert!(text.contains("2 walks, 1 of them large, by the library; 1 refused"), "{text}");
}

/// A row of a frame that is no whole row goes to the walker as it was sent, in frames that are not too
/// long.
#[test]
fn long_tables() {
    let case = Case::new("long", "echo 5201");
    let rows: String =
        (0..99).map(|at| format!("mailbox {at:02}{} 0001\n", "n".repeat(98))).collect();
    let output = case.run(&(rows + "frame 4DFF\nwalk\nexpect 1\nwalk large\nexpect 1\n"), &[]);
    assert_eq!(output.status.code(), Some(0), "{}", told(&output));
    let input = case.file("input");
    let lines: Vec<&str> = input.lines().collect();
    let (walk, rows) = lines.split_last().expect("lines");
    assert_eq!(*walk, "570000");
    assert!(rows.len() > 1 && rows.iter().all(|row| row.starts_with("4D") && row.len() <= 4_102));
    let digits: usize = rows.iter().map(|row| row.len() - 2).sum();
    assert_eq!(digits, 2 * (99 * 104 + 1));
}

#[test]
fn refusals_are_explained() {
    let case = Case::new("refused", "echo 5206");
    let output = case.run("walk large 9\n", &[]);
    assert_eq!(output.status.code(), Some(3));
    assert!(text(&output).contains("Explained  an option byte is 0 to 7"), "{}", text(&output));
    let case = Case::new("short", "echo 5209");
    let output = case.run("walk large\n", &[]);
    let explained = "Explained  the buffers had the sizes of include/luspemaro.h";
    assert!(text(&output).contains(explained), "{}", text(&output));
}

/// Frames that the program was not sent have another mark, and the report says whose walk it is.
#[test]
fn other_forms() {
    let case = Case::new("forms", "echo 570001");
    let page = case.folder.join("page.html");
    let output =
        case.run("walk\nwalk large\n", &["--frames", "--report", page.to_str().expect("text")]);
    let frames = "> 570000\n< 570001\nlibrary> 570000\nlibrary< 570001\n";
    assert_eq!(text(&output), frames, "{}", told(&output));
    let page = case.file("page.html");
    assert!(page.contains("Line 2: walk large"), "{page}");
    assert!(page.contains("It was made by the library, with larger buffers, and not"), "{page}");
}

/// What the library finds is compared with the second program's walk with the same buffers.
#[test]
fn walks_are_compared() {
    let rows = wide_account(240);
    let names: String = (0..240).map(|at| hex(&format!("\x0FClient {at:03}/Mail"))).collect();
    let whole = Case::new("whole", &format!("echo 5700F1{names}"));
    let output = whole.run(&format!("{rows}walk large\n"), &[]);
    assert_eq!(output.status.code(), Some(0), "{}", told(&output));
    // The program itself is asked whether the table passes: the library's word is not its own.
    assert!(text(&output).contains("Own check  own-check NAMESPACE\n"), "{}", text(&output));

    let less = names.replace(&hex("\x0FClient 007/Mail"), "");
    let lossy = Case::new("lossy", &format!("echo 5700F0{less}"));
    let output = lossy.run(&format!("{rows}walk large\n"), &[]);
    assert_eq!(output.status.code(), Some(3));
    let short = "line 241: the programs differ: 240 commands sent, and 241 by the second program; \
                 1 name missing";
    assert!(told(&output).contains(short), "{}", told(&output));
    assert!(text(&output).contains("missing: \"Client 007/Mail\"\n"), "{}", text(&output));
}

/// A green verdict needs a library that the proof built, as the walker says.
#[test]
fn whose_library() {
    let sum = "5".repeat(64);
    let own_sum = sum_of_bytes(&fs::read(second()).expect("a program")).to_string();
    let proved = format!("library proved {sum}");
    let given = format!("library given {sum}");
    for (name, said, is_green, reason) in [
        ("proved", proved.as_str(), true, "Large walks are those of the library that this"),
        ("given", &given, false, "Large walks are those of a library that was given"),
        ("silent", "", false, "It is not known which library made the large walks."),
        ("odd", "proved", false, "It is not known which library made the large walks."),
    ] {
        let case = Case::new(&format!("library-{name}"), "echo 570001");
        let script = fs::read_to_string(&case.walker).expect("a script");
        let says = format!("echo '{said}'; echo ready");
        fs::write(&case.walker, script.replace("echo ready", &says)).expect("a script");
        let page = case.folder.join("page.html");
        let options = ["--proved-sum", &own_sum, "--report", page.to_str().expect("text")];
        let output = case.run("walk large\n", &options);
        assert_eq!(output.status.code(), Some(0), "{}", told(&output));
        let page = Element::of_page(&case.file("page.html"));
        let class = page.with_id("verdict").attribute("class");
        assert_eq!(class, Some(if is_green { "well" } else { "wrong" }), "{name}");
        let reasons = page.with("data-reason");
        assert!(reasons.iter().any(|(one, _)| one.text().starts_with(reason)), "{name}");
        assert!(page.with_id("library").text().starts_with(reason), "{name}");
        let shown = if said.starts_with("library ") { &sum } else { "not known" };
        assert_eq!(page.with_id("library-sum").text(), shown, "{name}");
    }
}

/// A session without such a walk starts no walker; one with it is not run where the walker is not ready.
#[test]
fn walkers_that_fail() {
    let case = Case::new("unused", "echo 570001");
    assert_eq!(case.run("walk\n", &[]).status.code(), Some(0));
    assert_eq!(case.file("ready"), "");

    let case = Case::new("unready", "");
    fs::write(&case.walker, "#!/bin/sh\necho 'not proved' >&2\nexit 1\n").expect("a script");
    let output = case.run("walk\nwalk large\n", &[]);
    assert_eq!((output.status.code(), output.stdout.len()), (Some(1), 0));
    let message = "walker: the walker of walk large is not ready: exit status: 1\n";
    assert!(told(&output).starts_with("not proved\n") && told(&output).ends_with(message));

    for (answer, message) in [
        ("exit 1", "walker: exit status: 1\n"),
        ("true", "walker: no answer to the walk\n"),
        (
            "echo 570001; echo 'edit 1 was accepted' >&2; exit 1",
            "it reports: edit 1 was accepted\n",
        ),
        ("echo 570001; echo 570001", "walker: an answer too many\n"),
        ("echo 41", "what it answers is no answer\n"),
    ] {
        let case = Case::new("failing", answer);
        let output = case.run("walk large\n", &[]);
        assert_eq!(output.status.code(), Some(1), "{answer}");
        assert!(told(&output).ends_with(message), "{answer}: {}", told(&output));
    }
}

#[test]
fn without_a_walker() {
    let path = Path::new(FOLDER).join("no-walker.session");
    fs::write(&path, "walk large\n").expect("a session");
    let mut command = Command::new(SESSION);
    let output = command.arg("--program").arg(second()).arg(path).output().expect("a run");
    assert_eq!((output.status.code(), output.stdout.len()), (Some(2), 0));
    assert_eq!(told(&output), "walk large needs the walker of ./run, and none is given\n");
}
