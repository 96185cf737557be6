//! What the session does not ask is asked at the end: whether the table and the namespace list pass.

use child::testing::script;
use session::Form;

use crate::common::{printed, run_on, run_with, summary, told};
use crate::reports::{report, values};

const OWN: &str = "Own check  own-check NAMESPACE\n";

/// Rows that do not ascend, and no command.
const BAD_TABLE: &str = "order as-given\nmailbox b exists\nmailbox a exists\n";

#[test]
fn a_table_that_nobody_asks_about() {
    let output = run_on(BAD_TABLE);
    assert_eq!(output.status.code(), Some(3));
    let explained = "line 3: 'a': names strictly ascend by bytes (beside line 2: 'b')";
    let refused = "refused with 1: the table does not pass, or no room for a row";
    assert_eq!(
        told(&output),
        format!(
            "standard input: at the end, this tool's own command: {refused}; {explained} \
             (explained by the second program, not proved)\n"
        )
    );
    let text = String::from_utf8(output.stdout).expect("text");
    assert!(text.contains(OWN) && text.contains(explained), "{text}");
    let last = "Summary    2 of 2 rows and 0 of 0 entries kept; 0 commands, 0 walks; 0 refused; \
                own check refused with 1\n";
    assert!(text.ends_with(last), "{text}");
}

/// The status, and whether this tool asks, by what stands after the last row or entry.
#[test]
fn when_it_is_asked() {
    let sessions = [
        ("mailbox a exists\n", 0, true),
        ("mailbox a exists\nwalk\n", 0, false),
        ("mailbox a exists\ncommand x LIST \"\" *\n", 0, false),
        ("mailbox a exists\ncommand x\nexpect 4\n", 0, false),
        ("walk\nmailbox a 0000\n", 3, true),
        ("namespace personal \"\" NIL\nwalk\n", 0, true),
        ("namespace shared \"a\" NIL\nnamespace personal \"\" NIL\nwalk\n", 3, true),
        ("mailbox a 0000\nreader 8\nwalk\nexpect 16\n", 3, true),
        ("mailbox a 0000\nframe 57\nexpect 13\n", 3, true),
        ("mailbox a 0000\nwalk\nexpect 1\n", 0, false),
        ("mailbox a exists\nsubscribe a\nmailbox b exists\nexpect 13\n", 0, true),
        ("# nothing\n", 0, false),
        ("walk\n", 0, false),
        ("4D0000FF0161\n", 3, true),
        ("4D0001FF0161\n", 0, true),
    ];
    for (source, status, asks) in sessions {
        let output = run_on(source);
        assert_eq!(output.status.code(), Some(status), "{source}{}", told(&output));
        let text = String::from_utf8(output.stdout).expect("text");
        assert_eq!(text.contains(OWN), asks, "{source}{text}");
        assert_eq!(summary(source).contains("; own check "), asks, "{source}");
    }
}

/// Among frames it is told apart from those of the session.
#[test]
fn beside_frames() {
    let frames = printed("4D0001FF0161\n", Form::Frames);
    let own = "43006F776E2D636865636B204E414D4553504143450D0A";
    let start = format!("> 4D0001FF0161\nown> {own}\nown< 412A20");
    assert!(frames.starts_with(&start), "{frames}");
}

/// After a last frame without LF nothing can be sent, and that is reported.
#[test]
fn after_a_cut_frame() {
    for (source, judged) in [
        ("4D0000FF0161\n57", "line 1: 'a': a row that does not exist has flags exactly 0002"),
        ("4D0001FF0161\n57", "they pass"),
    ] {
        let output = run_on(source);
        assert_eq!(output.status.code(), Some(3));
        let last = format!("has no LF; by the second program, not proved: {judged}\n");
        assert!(told(&output).ends_with(&last), "{}", told(&output));
    }
}

/// A program that refuses the table is reported, whatever the second program says of it.
#[test]
fn a_program_that_refuses() {
    let program = script(env!("CARGO_TARGET_TMPDIR"), "refuses-all", "read x; read y; echo 5201");
    let output = run_with(&program, "mailbox a exists\n");
    assert_eq!(output.status.code(), Some(3));
    let told = told(&output);
    assert!(told.contains("own command: refused with 1: "), "{told}");
    assert!(told.contains("own command: the programs differ: it was refused with 1"), "{told}");
}

/// On a page it is marked as this tool's own and not counted among the session's commands.
#[test]
fn on_a_page() {
    let page = report("own-check", BAD_TABLE);
    assert_eq!(values(&page, "data-kind"), ["own command of this tool"]);
    let reasons = page.with("data-reason");
    let text: Vec<String> = reasons.iter().map(|(reason, _)| reason.text()).collect();
    assert!(text.contains(&"The table does not pass (refusal 1).".to_string()), "{text:?}");
    let counts = page.with("data-count");
    let count = |what: &str| counts.iter().find(|(_, found)| *found == what).expect(what).0.text();
    assert_eq!([count("commands"), count("own commands of this tool")], ["0", "1"]);
    assert!(page.with_id("line-end").text().contains("sent by this tool"));
}
