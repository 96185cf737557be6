//! `./verify` and `./replay` in a tree of its own, with stand-ins for `rt` and `cargo`.

use std::fs;
use std::path::PathBuf;
use std::process::{Command, Output};

use child::testing::{write_program, TemporaryFolder};
use formats::sha256::sum_of_bytes;

use crate::common::*;

const VERIFY: &str = include_str!("../../../../verify");
const SCRIPT: &str = include_str!("../../../../replay");
const BUILDING: &str = include_str!("../../../../tools/building.bash");
const ARCHIVE: &str = include_str!("../../../../tools/archive.bash");
const KIT: &str = include_str!("../../../../tools/kit");

/// What `rt` does: it makes what it is asked for, and says that the crate in whose folder it runs is proved, unless it is told to do
/// something else first.
const RT: &str = r#"#!/bin/sh
crate=${PWD##*/}
case "$1" in
version) echo 'kit 5 of a test' && exit ;;
run) exec >&2; mkdir -p out && echo program >out/luspemaro ;;
lib) mkdir -p out && echo archive >"out/lib$crate.a" ;;
esac
echo 'fn alpha::f: proved'
"#;
const PROVED: &str = "echo 'logic=proved functions=1'\n";

/// A tree with the scripts in it, and beside it the folder of the stand-ins.
struct Tree {
    root: PathBuf,
    stand_ins: PathBuf,
    _folder: TemporaryFolder,
}

impl Tree {
    fn new(name: &str, rt_does: &str) -> Tree {
        let folder = TemporaryFolder::new(name);
        let tree =
            Tree { root: folder.join("tree"), stand_ins: folder.join("bin"), _folder: folder };
        tree.write(
            "crates.txt",
            "# A comment.\nalpha:\nbeta: alpha\nexports_c staticlib: alpha\nluspemaro: alpha io\n",
        );
        for part in ["alpha/src/lib", "beta/src/lib", "exports_c/src/lib", "luspemaro/src/main"] {
            tree.write(&format!("crates/{part}.rt"), "fn f() {}\n");
        }
        for part in ["child", "second", "session", "luspemaro", "serve", "replay"] {
            tree.write(&format!("host/{part}/src/lib.rs"), "");
        }
        tree.write("host/Cargo.toml", "[workspace]\n");
        tree.write("host/Cargo.lock", "version = 4\n");
        tree.write("include/luspemaro.h", "/* */\n");
        tree.write("host/nights/customers.frames", &read(BUNDLED.as_ref()));
        tree.write("tools/building.bash", BUILDING);
        tree.write("tools/archive.bash", ARCHIVE);
        write_program(&tree.root.join("tools/kit"), KIT);
        write_program(&tree.root.join("verify"), VERIFY);
        write_program(&tree.root.join("replay"), SCRIPT);
        fs::create_dir_all(&tree.stand_ins).expect("a folder");
        write_program(&tree.stand_ins.join("rt"), &format!("{RT}{rt_does}\n{PROVED}"));
        let place = tree.root.join("target/host/release");
        let cargo = format!("#!/bin/sh\nmkdir -p {0} && cp {REPLAY} {0}/replay\n", place.display());
        write_program(&tree.stand_ins.join("cargo"), &cargo);
        tree
    }

    fn write(&self, path: &str, text: &str) {
        let path = self.root.join(path);
        fs::create_dir_all(path.parent().expect("a folder")).expect("a folder");
        fs::write(path, text).expect("a file");
    }

    fn call(&self, script: &str, words: &[&str]) -> Output {
        let path = format!("{}:/usr/bin:/bin", self.stand_ins.display());
        let mut command = Command::new(self.root.join(script));
        command
            .current_dir(&self.root)
            .env("PATH", path)
            .env_remove("LUSPEMARO_ARCHIVE_DIR")
            .args(words);
        command.output().expect("a run")
    }

    fn page(&self) -> String {
        read(&self.root.join("verify.html"))
    }
}

#[test]
fn everything_is_verified() {
    let tree = Tree::new("verified", "");
    assert_eq!(tree.call("tools/kit", &["check", "beta"]).status.code(), Some(0));
    let output = tree.call("verify", &[]);
    let (told, page) = (text(&output.stdout), tree.page());
    assert_eq!(output.status.code(), Some(0), "{told}{}", text(&output.stderr));
    assert!(
        told.contains("Crates     4: 2 proved in this run, 2 proved before and unchanged since, 0 not proved\n"),
        "{told}"
    );
    assert!(
        told.contains("Kit        kit 5 of a test\n")
            && told.contains("verified: agree\nVerified: "),
        "{told}"
    );
    let archive = sum_of_bytes(b"archive\n").to_string();
    let program = sum_of_bytes(b"program\n").to_string();
    let tool = session::sum_of_file(REPLAY.as_ref()).expect("a sum").to_string();
    let header = sum_of_bytes(b"/* */\n").to_string();
    // The sum of a crate is that of the list of its files with their sums.
    let lib = sum_of_bytes(b"fn f() {}\n");
    let sources = sum_of_bytes(format!("{lib}  crates/alpha/src/lib.rt\n").as_bytes()).to_string();
    for part in [archive, program, tool, header, sources] {
        assert!(page.contains(&part) && told.contains(&part), "{part}");
    }
    // The page that is there is not written over, and nothing is proved for that.
    let output = tree.call("verify", &[]);
    assert_eq!((output.status.code(), tree.page()), (Some(2), page));
    assert!(text(&output.stderr).contains("is there already"), "{}", text(&output.stderr));
}

/// One crate that is not proved, or of which nothing is said, is enough.
#[test]
fn what_is_not_proved_is_not_verified() {
    let of_beta = "[ $crate != beta ] || ";
    for (name, does, reason) in [
        ("silent", format!("{of_beta}exit 0"), "not proved: beta"),
        ("fails", format!("{of_beta}exit 1"), "tools/kit check ends with status 1"),
        (
            "runs",
            format!("[ $1 != run ] || {{ {PROVED}echo 'rt: running out/luspemaro'; exit 1; }}"),
            "not proved: luspemaro",
        ),
        (
            "changes",
            format!("{of_beta}echo >>src/lib.rt"),
            "files of a crate have changed since it was proved",
        ),
    ] {
        let tree = Tree::new(name, &does);
        let output = tree.call("verify", &[]);
        let told = text(&output.stdout);
        assert_eq!(output.status.code(), Some(4), "{name} {told}{}", text(&output.stderr));
        assert!(told.contains(reason) && told.contains("\nNot verified.\n"), "{name} {told}");
        assert!(!tree.page().contains(">verified: "), "{name}");
    }
    let tree = Tree::new("no-library", "[ $crate != exports_c ] || exit 1");
    let output = tree.call("verify", &[]);
    assert_eq!(output.status.code(), Some(4));
    assert!(text(&output.stderr).contains("so nothing is verified"), "{}", text(&output.stderr));
    assert!(!tree.root.join("verify.html").exists() && output.stdout.is_empty());
}

#[test]
fn nights_of_ones_own() {
    let tree = Tree::new("nights", "");
    let (heading, mut frames) = split_record(&read(BUNDLED.as_ref()));
    tree.write("table.frames", &heading);
    tree.write("night.frames", &(frames.join("\n") + "\n"));
    frames[1] = "5201".to_string();
    tree.write("changed.frames", &(heading + &frames.join("\n") + "\n"));
    let output =
        tree.call("verify", &["--page", "a.html", "--table", "table.frames", "night.frames"]);
    assert_eq!(output.status.code(), Some(0), "{}{}", text(&output.stdout), text(&output.stderr));
    let output = tree
        .call("verify", &["--page", "b.html", "host/nights/customers.frames", "changed.frames"]);
    let told = text(&output.stdout);
    assert_eq!(output.status.code(), Some(1), "{told}");
    assert!(
        told.contains("customers.frames: verified: agree\n")
            && told.contains("changed.frames: not verified: differs 1\n"),
        "{told}"
    );
    for words in [
        &["there-is-none"][..],
        &["--table", "table.frames"],
        &["--what"],
        &["--page"],
        &["--page", "night.frames"],
    ] {
        assert_eq!(tree.call("verify", words).status.code(), Some(2), "{words:?}");
    }
    assert_eq!(tree.call("verify", &["--help"]).status.code(), Some(0));
}

/// `./replay` is the word of the proved library only where that was proved here, whatever the call says.
#[test]
fn who_built_the_library() {
    let tree = Tree::new("replays", "");
    let night = "host/nights/customers.frames";
    let output = tree.call("replay", &["--report", "page.html", night]);
    assert_eq!(output.status.code(), Some(0), "{}", text(&output.stderr));
    let page = read(&tree.root.join("page.html"));
    assert!(
        page.contains("class=\"well\" id=\"verdict\"")
            && page.contains(&sum_of_bytes(b"archive\n").to_string()),
        "{page}"
    );
    let output = tree.call("replay", &["--built-by-proof", night]);
    assert_eq!((output.status.code(), output.stdout.len()), (Some(2), 0));
    for words in
        [&["there-is-none"][..], &["--report", "page.html", night], &["--report"], &["host"]]
    {
        assert_eq!(tree.call("replay", words).status.code(), Some(2), "{words:?}");
    }
    // A file of the repository is no page, with force neither.
    let output = tree.call("replay", &["--report", "crates.txt", "--force", night]);
    assert_eq!(output.status.code(), Some(2), "{}", text(&output.stderr));
    assert!(read(&tree.root.join("crates.txt")).starts_with("# A comment."));
}
