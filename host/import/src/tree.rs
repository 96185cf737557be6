//! A tree of folders, read whole and without following a link, whatever kind of store it is.

use std::ffi::OsStr;
use std::fs::{self, DirEntry, Metadata};
use std::io;
use std::os::unix::ffi::OsStrExt;
use std::os::unix::fs::MetadataExt;
use std::path::{Path, PathBuf};

use formats::sha256::{sum_of_bytes, Sum};
use formats::text::{comment_text, line_text};

/// Names have at most 16 levels, so nothing so deep is a mailbox that a table can have.
const MOST_DEPTH: usize = 128;

/// A folder, and all that is in it and below it, by the bytes of the names.
#[derive(Debug, Default)]
pub struct Folder {
    /// From the root, with "/" between the names; empty for the root.
    pub path: Vec<u8>,
    pub folders: Vec<Folder>,
    pub files: Vec<File>,
    /// What is neither, or cannot be looked at.
    pub odd: Vec<Odd>,
    /// Why not all of it could be read.
    pub error: Option<String>,
}

#[derive(Debug)]
pub struct File {
    pub name: Vec<u8>,
    pub is_empty: bool,
}

/// A link, a device, or a folder that is not gone into.
#[derive(Debug)]
pub struct Odd {
    pub name: Vec<u8>,
    pub reason: String,
    /// Whether it is a folder all the same.
    pub is_folder: bool,
}

impl Folder {
    /// The tree below a folder. Only that the root itself cannot be read is an error.
    ///
    /// Of a folder for messages, by its name, one file is kept: there may be very many.
    pub fn read(root: &Path, messages: &[&str]) -> io::Result<Folder> {
        let above = vec![identity_of(&fs::metadata(root)?)];
        let entries = fs::read_dir(root)?;
        let mut folder = Folder::default();
        folder.add_entries(entries, &mut Descent { above, messages });
        Ok(folder)
    }

    /// Its own name; empty for the root.
    pub fn name(&self) -> &[u8] {
        self.path.rsplit(|&byte| byte == b'/').next().unwrap_or_default()
    }

    /// The folder of this name in it.
    pub fn folder(&self, name: &[u8]) -> Option<&Folder> {
        self.folders.iter().find(|folder| folder.name() == name)
    }

    pub fn file(&self, name: &[u8]) -> Option<&File> {
        self.files.iter().find(|file| file.name == name)
    }

    /// Whether nothing at all is in it.
    pub fn is_empty(&self) -> bool {
        let is_bare = self.folders.is_empty() && self.files.is_empty() && self.odd.is_empty();
        is_bare && self.error.is_none()
    }

    /// Whether this holds of a folder below it.
    pub fn has_below(&self, holds: &impl Fn(&Folder) -> bool) -> bool {
        self.folders.iter().any(|folder| holds(folder) || folder.has_below(holds))
    }

    /// The path of what is in it.
    pub fn path_of(&self, name: &[u8]) -> Vec<u8> {
        if self.path.is_empty() {
            name.to_vec()
        } else {
            [&self.path, b"/".as_slice(), name].concat()
        }
    }

    /// For whoever reads of it.
    pub fn origin(&self) -> String {
        if self.path.is_empty() {
            "the folder itself".to_string()
        } else {
            format!("folder {}", line_text(&self.path))
        }
    }

    /// The sum of `find . -type d -print0 | LC_ALL=C sort -z`.
    pub fn sum_of_folders(&self) -> Sum {
        self.sum(false)
    }

    /// The sum of `find . -print0 | LC_ALL=C sort -z`.
    pub fn sum_of_all(&self) -> Sum {
        self.sum(true)
    }

    fn sum(&self, has_files: bool) -> Sum {
        let mut paths = vec![b".".to_vec()];
        self.add_paths(has_files, &mut paths);
        paths.sort();
        let ended = |path: &Vec<u8>| [path.as_slice(), b"\0"].concat();
        sum_of_bytes(&paths.iter().flat_map(ended).collect::<Vec<u8>>())
    }

    fn add_paths(&self, has_files: bool, paths: &mut Vec<Vec<u8>>) {
        let listed = |path: &[u8]| [b"./".as_slice(), path].concat();
        for folder in &self.folders {
            paths.push(listed(&folder.path));
            folder.add_paths(has_files, paths);
        }
        let files = self.files.iter().map(|file| &file.name).filter(|_| has_files);
        let odd = self.odd.iter().filter(|odd| has_files || odd.is_folder).map(|odd| &odd.name);
        paths.extend(files.chain(odd).map(|name| listed(&self.path_of(name))));
    }

    fn add_entries(&mut self, entries: fs::ReadDir, descent: &mut Descent) {
        for entry in entries {
            match entry {
                Ok(entry) => self.add_entry(&entry, descent),
                Err(error) => self.error = Some(error.to_string()),
            }
        }
        self.folders.sort_by(|one, other| one.path.cmp(&other.path));
        self.files.sort_by(|one, other| one.name.cmp(&other.name));
        self.odd.sort_by(|one, other| one.name.cmp(&other.name));
    }

    fn add_entry(&mut self, entry: &DirEntry, descent: &mut Descent) {
        let name = entry.file_name().as_bytes().to_vec();
        let is_message = entry.file_type().is_ok_and(|kind| kind.is_file())
            && descent.messages.iter().any(|folder| folder.as_bytes() == self.name());
        if is_message && !self.files.is_empty() {
            return;
        }
        // Of a link, not of what it leads to.
        let data = match entry.metadata() {
            Ok(data) => data,
            Err(error) => {
                let reason = format!("cannot be looked at: {error}");
                return self.odd.push(Odd { name, reason, is_folder: false });
            }
        };
        if data.is_file() {
            self.files.push(File { name, is_empty: data.len() == 0 });
        } else if data.is_dir() {
            self.add_folder(name, &entry.path(), identity_of(&data), descent);
        } else {
            let reason = other_reason(&entry.path(), &data);
            self.odd.push(Odd { name, reason, is_folder: false });
        }
    }

    fn add_folder(
        &mut self,
        name: Vec<u8>,
        path: &Path,
        identity: Identity,
        descent: &mut Descent,
    ) {
        let reason = if descent.above.contains(&identity) {
            "a loop: it is a folder in which it lies; not gone into"
        } else if descent.above.len() == MOST_DEPTH {
            "128 folders deep, not gone into"
        } else {
            let mut folder = Folder { path: self.path_of(&name), ..Folder::default() };
            descent.above.push(identity);
            match fs::read_dir(path) {
                Ok(entries) => folder.add_entries(entries, descent),
                Err(error) => folder.error = Some(error.to_string()),
            }
            descent.above.pop();
            return self.folders.push(folder);
        };
        self.odd.push(Odd { name, reason: reason.to_string(), is_folder: true });
    }
}

/// What is known while a tree is read.
struct Descent<'m> {
    /// The folders in which the next one lies.
    above: Vec<Identity>,
    /// The names of folders for messages.
    messages: &'m [&'m str],
}

/// By device and number, whatever the path.
type Identity = (u64, u64);

fn identity_of(data: &Metadata) -> Identity {
    (data.dev(), data.ino())
}

fn other_reason(path: &Path, data: &Metadata) -> String {
    if !data.is_symlink() {
        return "neither a file nor a folder".to_string();
    }
    match fs::read_link(path) {
        Ok(target) => {
            let target = comment_text(target.as_os_str().as_bytes());
            format!("a symbolic link to {target}, not followed")
        }
        Err(error) => format!("a symbolic link that cannot be read: {error}"),
    }
}

/// Where something of a tree lies.
pub fn path_below(root: &Path, path: &[u8]) -> PathBuf {
    root.join(OsStr::from_bytes(path))
}
