//! For tests: the programs that they run, and files of their own.

use std::env;
use std::fs;
use std::io::Write;
use std::path::{Path, PathBuf};
use std::process::{self, Command, Output, Stdio};
use std::sync::atomic::{AtomicUsize, Ordering};
use std::thread;

/// An example of the package that is tested. The tests stand in `deps`, beside the folder of the
/// examples.
pub fn example(name: &str) -> PathBuf {
    let test = env::current_exe().expect("the path of the test");
    let folder = test.ancestors().nth(2).expect("the folder of the build");
    folder.join("examples").join(name)
}

/// What a program prints for an input, and how it ends. One that ends before it has read all is no failure.
pub fn output_for(mut command: Command, input: &[u8]) -> Output {
    command.stdin(Stdio::piped()).stdout(Stdio::piped()).stderr(Stdio::piped());
    let mut child = command.spawn().expect("a start");
    let mut stdin = child.stdin.take().expect("an input");
    let input = input.to_vec();
    let writer = thread::spawn(move || {
        let _ = stdin.write_all(&input);
    });
    let output = child.wait_with_output().expect("an end");
    writer.join().expect("a writer");
    output
}

/// A new folder among the temporary files, which goes with this value. A tree with crates stands there, since the kit refuses a list of
/// crates, and a source of one, anywhere else in the repository, below `target` too.
pub struct TemporaryFolder(PathBuf);

impl TemporaryFolder {
    pub fn new(name: &str) -> TemporaryFolder {
        let folder = env::temp_dir().join(format!("luspemaro-{}-{name}", process::id()));
        fs::create_dir(&folder).expect("a new folder");
        TemporaryFolder(folder)
    }

    pub fn join(&self, name: &str) -> PathBuf {
        self.0.join(name)
    }
}

impl Drop for TemporaryFolder {
    fn drop(&mut self) {
        let _ = fs::remove_dir_all(&self.0);
    }
}

/// A path in a folder that no other call gives. No file is there.
pub fn new_path(folder: &str, name: &str) -> PathBuf {
    static NUMBER: AtomicUsize = AtomicUsize::new(0);
    let number = NUMBER.fetch_add(1, Ordering::SeqCst);
    let path = Path::new(folder).join(format!("{}-{number}-{name}", process::id()));
    let _ = fs::remove_file(&path);
    path
}

/// A file at such a path.
pub fn new_file(folder: &str, name: &str, text: impl AsRef<[u8]>) -> PathBuf {
    let path = new_path(folder, name);
    fs::write(&path, text).expect("a file");
    path
}

/// Writes a program that is a script of the shell, and gives its path.
pub fn script(folder: &str, name: &str, text: &str) -> PathBuf {
    let path = Path::new(folder).join(name);
    write_program(&path, &format!("#!/bin/sh\n{text}\n"));
    path
}

/// Writes a program that can be run. Another process writes it: a file that this one had open could
/// still be open in a program that another test starts at that moment, and would be busy then.
pub fn write_program(path: &Path, text: &str) {
    let mut command = Command::new("/bin/sh");
    command.args(["-c", "cat >\"$0\" && chmod 755 \"$0\""]).arg(path).stdin(Stdio::piped());
    let mut writer = command.spawn().expect("a start");
    let mut input = writer.stdin.take().expect("an input");
    input.write_all(text.as_bytes()).expect("an open input");
    drop(input);
    assert!(writer.wait().expect("an end").success(), "{}", path.display());
}
