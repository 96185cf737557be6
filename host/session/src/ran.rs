//! The programs that a session is run in, and what is known of who built them.

use std::fs::File;
use std::io;
use std::path::{Path, PathBuf};

use formats::sha256::{sum_of, Sum};
use formats::text::path_text;

/// The programs that a session is run in.
#[derive(Clone, Debug)]
pub struct Programs {
    /// The program of frames.
    pub frames: PathBuf,
    /// The sum of the program of frames that this repository's proof built; none where the call does not
    /// say.
    pub proved_sum: Option<String>,
    /// What walks through the library, for `walk large`.
    pub walker: Option<PathBuf>,
    /// What the walker says of its library.
    pub library: Option<Library>,
}

/// A program of frames alone.
impl<P: AsRef<Path> + ?Sized> From<&P> for Programs {
    fn from(frames: &P) -> Programs {
        let frames = frames.as_ref().to_path_buf();
        Programs { frames, proved_sum: None, walker: None, library: None }
    }
}

/// The archive of the library that the walker was built with.
#[derive(Clone, Debug, PartialEq, Eq)]
pub struct Library {
    pub sum: String,
    /// Whether this repository's proof made it.
    pub is_proved: bool,
}

/// What was run.
#[derive(Debug, Default)]
pub struct Ran {
    pub path: String,
    /// None where the file of the program could not be read.
    pub sum: Option<Sum>,
    /// The sum after the run.
    sum_after: Option<Sum>,
    proved_sum: Option<String>,
    pub library: Option<Library>,
}

/// What is known of a program's origin.
#[derive(Clone, Debug, PartialEq, Eq)]
pub enum Built {
    ByProof,
    /// The proof built another one, of this sum.
    NotByProof(String),
    NotKnown,
    Unreadable,
    /// Its file is not what it was before the run.
    Changed,
}

impl Ran {
    /// Before anything is run.
    pub fn before(programs: &Programs) -> Ran {
        Ran {
            path: path_text(&programs.frames),
            sum: sum_of_file(&programs.frames).ok(),
            sum_after: None,
            proved_sum: programs.proved_sum.clone(),
            library: programs.library.clone(),
        }
    }

    /// After the run.
    pub fn look_again(&mut self, program: &Path) {
        self.sum_after = sum_of_file(program).ok();
    }

    pub fn built(&self) -> Built {
        match (self.sum, &self.proved_sum) {
            (None, _) => Built::Unreadable,
            _ if self.sum_after != self.sum => Built::Changed,
            (Some(sum), Some(proved)) if *proved == sum.to_string() => Built::ByProof,
            (_, Some(proved)) => Built::NotByProof(proved.clone()),
            (_, None) => Built::NotKnown,
        }
    }
}

impl Built {
    /// A whole sentence.
    pub fn text(&self) -> String {
        match self {
            Built::ByProof => "The program is the one that this repository's proof built: its \
                               SHA-256 is the one noted then, and the sources have not changed."
                .to_string(),
            Built::NotByProof(proved) => format!(
                "The program is another one than this repository's proof built, whose SHA-256 is \
                 {proved}."
            ),
            Built::NotKnown => "It is not known what built the program: it was given by \
                                --program, so nothing here is the word of the proved program."
                .to_string(),
            Built::Unreadable => "The file of the program cannot be read, so it is not known what \
                                  was run."
                .to_string(),
            Built::Changed => "The file of the program changed while the session ran, so it is \
                               not known what was run."
                .to_string(),
        }
    }
}

/// Whether large walks are known to be those of the proved library, in a whole sentence.
pub fn library_text(library: Option<&Library>) -> String {
    match library {
        Some(Library { is_proved: true, .. }) => {
            "Large walks are those of the library that this repository's proof built, through a \
             walker that is not proved."
        }
        Some(Library { is_proved: false, .. }) => {
            "Large walks are those of a library that was given, and it is not known what built it."
        }
        None => "It is not known which library made the large walks.",
    }
    .to_string()
}

pub fn sum_of_file(path: &Path) -> io::Result<Sum> {
    File::open(path).and_then(sum_of)
}
