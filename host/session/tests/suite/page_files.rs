//! Where the page of a report may be written.

use std::fs::{self, File};
use std::path::{Path, PathBuf};
use std::process::{Command, Output};

use crate::building::Tree;
use crate::common::{second, told, SESSION};

const FOLDER: &str = env!("CARGO_TARGET_TMPDIR");
const READ: &str = "is read or written here, so no report is written there";
const THERE: &str = "is there already; --force writes over it";

fn file(name: &str, text: &str) -> PathBuf {
    let path = Path::new(FOLDER).join(name);
    let _ = fs::remove_file(&path);
    fs::write(&path, text).expect("a file");
    path
}

/// A call of the reader of sessions with a report.
fn call(session: &Path, page: &Path, options: &[&str]) -> Output {
    let mut command = Command::new(SESSION);
    command.arg("--program").arg(second()).arg(session).arg("--report").arg(page);
    command.args(options).output().expect("a run")
}

fn check_not_run(output: &Output, message: &str) {
    assert_eq!((output.status.code(), output.stdout.len()), (Some(2), 0), "{}", told(output));
    assert!(told(output).contains(message), "{}", told(output));
}

/// A page is never written over what is read, by whatever name, also with `--force`.
#[test]
fn never_over_what_is_read() {
    let session = file("page-read.session", "walk\n");
    let linked = Path::new(FOLDER).join("page-linked.html");
    let _ = fs::remove_file(&linked);
    fs::hard_link(&session, &linked).expect("a link");
    let symbolic = Path::new(FOLDER).join("page-symbolic.html");
    let _ = fs::remove_file(&symbolic);
    std::os::unix::fs::symlink(&session, &symbolic).expect("a link");
    for page in [&session, &linked, &symbolic, &second(), &PathBuf::from(SESSION)] {
        let before = fs::read(page).expect("a file");
        check_not_run(&call(&session, page, &["--force"]), READ);
        assert_eq!(call(&session, page, &[]).status.code(), Some(2));
        assert!(fs::read(page).expect("a file") == before, "{}", page.display());
    }
}

/// Neither over the file that standard input or output is.
#[test]
fn never_over_a_stream() {
    let session = file("page-stream.session", "walk\n");
    let mut command = Command::new(SESSION);
    command.arg("--program").arg(second()).arg("--report").arg(&session).arg("--force");
    let output = command.stdin(File::open(&session).expect("a session")).output().expect("a run");
    check_not_run(&output, READ);
    assert_eq!(fs::read(&session).expect("a session"), b"walk\n");
    let printed = file("page-printed.txt", "");
    let mut command = Command::new(SESSION);
    command.arg("--program").arg(second()).arg(&session).arg("--report").arg(&printed);
    let stdout = File::create(&printed).expect("a file");
    let output = command.arg("--force").stdout(stdout).output().expect("a run");
    check_not_run(&output, READ);
}

/// A file that is there is written over with `--force` alone; one that cannot be written is told before
/// the run.
#[test]
fn files_that_are_there() {
    let session = file("page-kept.session", "walk\n");
    let page = file("page-kept.html", &"x".repeat(100_000));
    check_not_run(&call(&session, &page, &[]), THERE);
    assert_eq!(fs::read(&page).expect("a page"), "x".repeat(100_000).as_bytes());
    assert_eq!(call(&session, &page, &["--force"]).status.code(), Some(0));
    let text = fs::read_to_string(&page).expect("a page");
    assert!(text.starts_with("<!DOCTYPE html>") && text.ends_with("</html>\n"));
    let dangling = Path::new(FOLDER).join("page-dangling.html");
    let _ = fs::remove_file(&dangling);
    std::os::unix::fs::symlink("no-such-file", &dangling).expect("a link");
    check_not_run(&call(&session, &dangling, &[]), THERE);
    let nowhere = Path::new("/no-such-folder/x.html");
    check_not_run(
        &call(&session, nowhere, &[]),
        "cannot write /no-such-folder/x.html: No such file",
    );
    for odd in [Path::new(FOLDER), Path::new("/dev/full"), &dangling] {
        check_not_run(&call(&session, odd, &["--force"]), " is no plain file, and --force writes");
    }
}

/// A page takes the place of a file, and is not written into it: under another name that file may be
/// evidence. Nothing else stays beside it.
#[test]
fn pages_that_take_a_place() {
    let folder = Path::new(FOLDER).join("page-place");
    let _ = fs::remove_dir_all(&folder);
    fs::create_dir_all(&folder).expect("a folder");
    let (page, other) = (folder.join("page.html"), folder.join("evidence"));
    fs::write(&other, "evidence").expect("a file");
    fs::hard_link(&other, &page).expect("a link");
    let session = file("page-place.session", "walk\n");
    assert_eq!(call(&session, &page, &["--force"]).status.code(), Some(0));
    assert_eq!(fs::read(&other).expect("a file"), b"evidence");
    assert!(fs::read_to_string(&page).expect("a page").starts_with("<!DOCTYPE html>"));
    assert_eq!(fs::read_dir(&folder).expect("a folder").count(), 2);
}

/// What belongs to a report stands beside `--report`, and once.
#[test]
fn calls_without_a_report() {
    for options in [
        &["--date", "y"][..],
        &["--case", "y"],
        &["--force"],
        &["--report", "x", "--report", "y"],
        &["--report", "x", "--exhibit", "y", "--exhibit", "z"],
    ] {
        let output = Command::new(SESSION).args(["--program", "x"]).args(options).output();
        assert_eq!(output.expect("a run").status.code(), Some(2), "{options:?}");
    }
}

/// `./run` reads files of the repository, and writes no page over them.
#[test]
fn never_over_the_repository() {
    let tree = Tree::new("page-tree");
    assert_eq!(tree.call(true, &[]).status.code(), Some(0));
    for path in [
        "run",
        "crates.txt",
        "crates/alpha/src/lib.rt",
        "host/second/src/lib.rs",
        "host/sessions/customers.session",
        "tools/building.bash",
        "tools/kit",
        "target/bin/luspemaro",
        "target/run/luspemaro.stamp",
        "target/host/release/session",
    ] {
        let page = tree.root.join(path);
        let before = fs::read(&page).expect("a file");
        let page_text = page.to_str().expect("text");
        let output = tree.call(false, &["--report", page_text, "--force"]);
        check_not_run(&output, "' is read here, so no report is written there");
        check_not_run(&tree.call(false, &["--report", page_text]), THERE);
        assert!(fs::read(&page).expect("a file") == before, "{path}");
    }
}
