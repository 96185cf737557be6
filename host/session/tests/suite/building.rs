//! `./run` in a tree of its own, with stand-ins for `rt` and `cargo`: what it builds, what it tells
//! meanwhile, and that it writes nothing where all is built.

use std::fs;
use std::os::unix::fs::MetadataExt;
use std::path::{Path, PathBuf};
use std::process::{Command, Output};

use child::testing::{write_program, TemporaryFolder};
use formats::sha256::sum_of_bytes;

use crate::common::{second, told, SESSION};

const RUN: &str = include_str!("../../../../run");

/// What `run` reads, and what it calls.
const BUILDING: &str = include_str!("../../../../tools/building.bash");
const KIT: &str = include_str!("../../../../tools/kit");

/// What `tools/walker` is, and what it reads.
const WALKER: &str = include_str!("../../../../tools/walker");
const ARCHIVE: &str = include_str!("../../../../tools/archive.bash");

/// What `rt` says when it proves a crate: notes, functions, sums, and the line that counts. Of a program that stands on standard error.
const RT_SAYS: &str = r#"
[ "$1" != version ] || { echo 'kit 5 of a test'; exit; }
exec 3>&1
[ "$1" != run ] || exec 3>&2
echo 'proofs/f/Answers.antt:87:7: note: large solution: the implicit argument {ys}' >&3
echo 'fn alpha::f: proved' >&2
echo 'logic /kit/logic: libraries=16 files=1438 sum=064d' >&3
echo 'library alpha: modules loaded=909 checked=0' >&3
echo 'axioms libc: libc::read, libc::write (2 of the 50 declared)' >&3
[ ! -f ../../refused ] || . ../../refused
echo 'logic=proved functions=1 logic-built=trusted' >&3
[ "$1" != run ] || echo 'rt: running out/luspemaro' >&2
"#;

/// A tree with `run` in it, and beside it the folder of the stand-ins.
pub struct Tree {
    pub root: PathBuf,
    stand_ins: PathBuf,
    _folder: TemporaryFolder,
}

impl Tree {
    pub fn new(name: &str) -> Tree {
        let folder = TemporaryFolder::new(name);
        let tree =
            Tree { root: folder.join("tree"), stand_ins: folder.join("bin"), _folder: folder };
        tree.write("crates.txt", "# A comment.\nalpha:\nluspemaro: beta io\nbeta: alpha\nother:\n");
        for part in ["alpha/src/lib.rt", "beta/src/lib.rt", "luspemaro/src/main.rt"] {
            tree.write(&format!("crates/{part}"), "fn f() {}\n");
        }
        tree.write("host/Cargo.toml", "[workspace]\n");
        tree.write("host/Cargo.lock", "version = 4\n");
        for part in ["child", "second", "session"] {
            tree.write(&format!("host/{part}/src/lib.rs"), "");
        }
        tree.write("host/sessions/customers.session", "walk\n");
        tree.write("tools/building.bash", BUILDING);
        tree.program(&tree.root.join("tools/kit"), KIT);
        tree.program(&tree.root.join("run"), RUN);
        let copy = |from: &Path, to: &str| {
            let folder = Path::new(to).parent().expect("a folder").display();
            format!("mkdir -p {folder} && cp {} {to}", from.display())
        };
        let rt = format!("{RT_SAYS}[ $1 != run ] || {{ {}; }}", copy(&second(), "out/luspemaro"));
        tree.program(&tree.stand_ins.join("rt"), &format!("#!/bin/sh\n{rt}\n"));
        let session = tree.root.join("target/host/release/session");
        let cargo = copy(Path::new(SESSION), session.to_str().expect("text"));
        tree.program(&tree.stand_ins.join("cargo"), &format!("#!/bin/sh\n{cargo}\n"));
        tree
    }

    fn write(&self, path: &str, text: &str) {
        let path = self.root.join(path);
        fs::create_dir_all(path.parent().expect("a folder")).expect("a folder");
        fs::write(path, text).expect("a file");
    }

    fn program(&self, path: &Path, text: &str) {
        fs::create_dir_all(path.parent().expect("a folder")).expect("a folder");
        write_program(path, text);
    }

    /// Runs `run` with the stand-ins, or where there is neither `rt` nor `cargo`.
    fn run(&self, has_stand_ins: bool) -> Output {
        self.call(has_stand_ins, &[])
    }

    /// The same with arguments.
    pub fn call(&self, has_stand_ins: bool, arguments: &[&str]) -> Output {
        let tools = "/usr/bin:/bin";
        let path = format!("{}:{tools}", self.stand_ins.display());
        let mut command = Command::new(self.root.join("run"));
        command.env("PATH", if has_stand_ins { &path } else { tools }).args(arguments);
        command.output().expect("a run")
    }

    /// Each file and folder with its size and times, so that any change is seen.
    fn state(&self) -> Vec<(PathBuf, u64, [i64; 4])> {
        let mut state = Vec::new();
        let mut folders = vec![self.root.clone()];
        while let Some(folder) = folders.pop() {
            for entry in fs::read_dir(&folder).expect("a folder") {
                let path = entry.expect("a file").path();
                let data = fs::symlink_metadata(&path).expect("a file");
                let times = [data.mtime(), data.mtime_nsec(), data.ctime(), data.ctime_nsec()];
                if data.is_dir() {
                    folders.push(path.clone());
                }
                state.push((path, data.len(), times));
            }
        }
        state.sort();
        state
    }
}

/// What was told, without the seconds that it took.
fn told_of_none(output: &Output) -> String {
    let mut told = told(output);
    while let Some((before, rest)) = told.split_once(" proved (") {
        let (seconds, after) = rest.split_once(" s)").expect("seconds");
        assert!(seconds.parse::<u32>().is_ok(), "{rest}");
        told = format!("{before} proved{after}");
    }
    told
}

fn check_walk(output: &Output) {
    assert_eq!(output.status.code(), Some(0), "{}", told(output));
    let text = String::from_utf8(output.stdout.clone()).expect("text");
    assert!(text.starts_with("Walk       option byte 0\nAnswer     1 command sent"), "{text}");
}

/// One line for each crate that is proved, the lowest first, without the prover's notes; later for those alone that have changed, and
/// those that stand on them.
#[test]
fn the_first_build() {
    let tree = Tree::new("first");
    let output = tree.run(true);
    check_walk(&output);
    assert_eq!(
        told_of_none(&output),
        concat!(
            "run: building the reader of sessions; the first time this takes some 20 seconds\n",
            "run: proving and building the program; the first time this takes some 5 minutes\n",
            "run: 1 of 3: alpha proved\n",
            "run: 2 of 3: beta proved\n",
            "run: 3 of 3: luspemaro proved\n",
        )
    );
    tree.write("crates/beta/src/lib.rt", "fn g() {}\n");
    let output = tree.run(true);
    check_walk(&output);
    assert!(
        told_of_none(&output).ends_with(concat!(
            "what has changed is proved again\n",
            "run: 2 of 3: beta proved\n",
            "run: 3 of 3: luspemaro proved\n"
        )),
        "{}",
        told(&output)
    );
}

/// Where all is built and nothing has changed, no tool is needed and no file is written.
#[test]
fn a_built_tree_is_not_written_to() {
    let tree = Tree::new("built");
    check_walk(&tree.run(true));
    let before = tree.state();
    let output = tree.run(false);
    check_walk(&output);
    assert_eq!(told(&output), "");
    assert_eq!(tree.state(), before);
}

/// What has changed is built again: a file of the program or of the reader, or a program itself.
#[test]
fn what_has_changed_is_built_again() {
    let changes = [
        ("crates/alpha/src/lib.rt", "'rt' is missing"),
        ("crates/alpha/specs/New.antt", "'rt' is missing"),
        ("crates.txt", "'rt' is missing"),
        ("host/second/src/lib.rs", "'cargo' is missing"),
        ("target/run/luspemaro.stamp", "'rt' is missing"),
    ];
    let tree = Tree::new("changed");
    check_walk(&tree.run(true));
    for (path, message) in changes {
        tree.write(path, "luspemaro:\n");
        let output = tree.run(false);
        assert_eq!((output.status.code(), output.stdout.len()), (Some(1), 0), "{path}");
        assert!(told(&output).starts_with(&format!("run: {message}")), "{path}: {}", told(&output));
        check_walk(&tree.run(true));
        check_walk(&tree.run(false));
    }
    fs::copy("/bin/true", tree.root.join("target/bin/luspemaro")).expect("another program");
    assert_eq!(tree.run(false).status.code(), Some(1));
    check_walk(&tree.run(true));
}

/// What the prover refuses is shown, and nothing is run. A crate is proved only if rt says so and nothing that speaks against it, over files
/// that stay as they are; a program also has to write what its file `stdout` has.
#[test]
fn a_program_that_is_not_proved() {
    let tree = Tree::new("refused");
    let of_beta = "[ \"${PWD##*/}\" != beta ] || ";
    let above = "kit: luspemaro NOT PROVED: beta, below it, is not\nkit: FAILED: beta luspemaro\n";
    let refused_word = "NOT PROVED: the last line of its check has a word that rt ci refuses";
    let changed = "NOT PROVED: files changed while it was proved";
    for (rt, end) in [
        (
            format!("{of_beta}{{ echo 'src/lib.rt:1:1: error: no proof'; exit 1; }}"),
            format!("src/lib.rt:1:1: error: no proof\nkit: beta NOT PROVED\n{above}"),
        ),
        (
            format!("{of_beta}exit 0"),
            format!("kit: beta NOT PROVED: rt does not say that it is\n{above}"),
        ),
        (
            format!("{of_beta}{{ echo 'logic=proved functions=1 hides=1'; exit; }}"),
            format!("kit: beta {refused_word}\n{above}"),
        ),
        (
            format!("{of_beta}echo >>../alpha/src/lib.rt"),
            format!("logic=proved functions=1 logic-built=trusted\nkit: beta {changed}\n{above}"),
        ),
        (
            "[ \"$1\" != run ] || echo more".to_string(),
            "kit: luspemaro proved, and its run FAILED\nkit: FAILED: luspemaro\n".to_string(),
        ),
    ] {
        tree.write("refused", &rt);
        let output = tree.run(true);
        assert_eq!((output.status.code(), output.stdout.len()), (Some(1), 0), "{rt}");
        let told = told(&output);
        let end = format!("{end}run: the program is not proved, so nothing was run\n");
        assert!(told.ends_with(&end), "{rt}: {told}");
        assert!(!tree.root.join("target/bin/luspemaro").exists());
    }
    tree.write("refused", "");
    check_walk(&tree.run(true));
}

/// Output that is full or closed is told, with status 1.
#[test]
fn output_that_fails() {
    let tree = Tree::new("output");
    check_walk(&tree.run(true));
    for (redirection, message) in [
        (">/dev/full", "cannot write the output: No space left"),
        (">&-", "run: standard output is closed\n"),
    ] {
        let call = format!("{} {redirection}", tree.root.join("run").display());
        let output = Command::new("/bin/sh").args(["-c", &call]).output().expect("a run");
        assert_eq!(output.status.code(), Some(1), "{redirection}");
        assert!(told(&output).starts_with(message), "{redirection}: {}", told(&output));
    }
}

/// A session with `walk large` starts `tools/walker`, which builds what it needs; no other session does.
#[test]
fn walk_large() {
    let tree = Tree::new("large");
    let walker = "#!/bin/sh\n[ \"$1\" = --build ] || { cat >/dev/null; echo 570001; }\n";
    tree.program(&tree.root.join("tools/walker"), walker);
    check_walk(&tree.run(true));
    tree.write("host/sessions/customers.session", "walk large\n");
    let output = tree.run(false);
    assert_eq!((output.status.code(), told(&output).as_str()), (Some(0), ""));
    let text = String::from_utf8(output.stdout).expect("text");
    assert!(text.starts_with("Walk large option byte 0\nBy         the library, with"), "{text}");
    tree.program(&tree.root.join("tools/walker"), "#!/bin/sh\necho not proved >&2\nexit 1\n");
    let output = tree.run(false);
    assert_eq!((output.status.code(), output.stdout.len()), (Some(1), 0));
    assert!(told(&output).starts_with("not proved\n"), "{}", told(&output));
    tree.write("host/sessions/customers.session", "walk\n");
    check_walk(&tree.run(false));
}

/// A tree with `tools/walker`, and with stand-ins that make an archive and a walker.
fn walker_tree() -> (Tree, PathBuf) {
    let tree = Tree::new("walker");
    tree.write("tools/archive.bash", ARCHIVE);
    for part in ["luspemaro", "serve", "walker"] {
        tree.write(&format!("host/{part}/src/lib.rs"), "");
    }
    let script = tree.root.join("tools/walker");
    tree.program(&script, WALKER);
    tree.write("crates.txt", "alpha:\nexports_c staticlib: alpha\n");
    tree.write("crates/exports_c/src/lib.rt", "fn f() {}\n");
    let rt = "#!/bin/sh\n[ $1 != version ] || exit 0\nmkdir -p out\necho $1 >out/lib${PWD##*/}.a\n\
              echo logic=proved functions=1\n";
    tree.program(&tree.stand_ins.join("rt"), rt);
    let built = tree.root.join("target/host/release/walker");
    let stub = "printf '#!/bin/sh\\necho walked $*\\n' >";
    let cargo = format!(
        "#!/bin/sh\n[ -f {root}/target/staticlib/libexports.a ] || exit 1\nmkdir -p {root}/target/host/release\n\
         {stub}{built}\nchmod 755 {built}\n",
        root = tree.root.display(),
        built = built.display()
    );
    tree.program(&tree.stand_ins.join("cargo"), &cargo);
    (tree, script)
}

/// `tools/walker` makes the archive and the walker, once, and then runs the walker with its words.
#[test]
fn the_walker_is_built_once() {
    let (tree, script) = walker_tree();
    let run = |path: &str, word: &str| {
        let mut command = Command::new(&script);
        command.arg(word).env("PATH", path).env_remove("LUSPEMARO_ARCHIVE_DIR");
        command.output().expect("a run")
    };
    let path = format!("{}:/usr/bin:/bin", tree.stand_ins.display());
    let output = run(&path, "--build");
    let sum = sum_of_bytes(b"lib\n");
    let ready = |whose: &str| format!("library {whose} {sum}\nwalked --build\n").into_bytes();
    assert_eq!(output.stdout, ready("proved"), "{}", told(&output));
    let archive = fs::read_to_string(tree.root.join("target/staticlib/libexports.a"));
    assert_eq!(archive.expect("an archive"), "lib\n");
    // An archive that is named is taken as it is, and that is what is said of it.
    let mut named = Command::new(&script);
    named.arg("--build").env("PATH", &path);
    let output = named.env("LUSPEMARO_ARCHIVE_DIR", tree.root.join("target/staticlib")).output();
    assert_eq!(output.expect("a run").stdout, ready("given"));
    let before = tree.state();
    let output = run("/usr/bin:/bin", "");
    assert_eq!((output.stdout.as_slice(), told(&output).as_str()), (&b"walked\n"[..], ""));
    assert_eq!(tree.state(), before);
    tree.write("host/walker/src/lib.rs", "changed");
    let output = run("/usr/bin:/bin", "--build");
    assert_eq!(output.status.code(), Some(1));
    assert!(told(&output).starts_with("run: 'cargo' is missing"), "{}", told(&output));
}
