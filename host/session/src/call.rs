//! What the program is called with.

use std::env;
use std::ffi::OsString;
use std::path::PathBuf;

use formats::text::{comment_text, path_text};
use session::{Form, Page, PageWords};

const USAGE: &str =
    "usage: session --program PATH [FILE] [--frames | --json | --csv] [--walker PATH] [--report \
                     PAGE [--force] [--date TEXT] [--case TEXT] [--examiner TEXT] [--exhibit \
                     TEXT]] [--proved-sum SUM] [--sources-sum SUM] [--commit TEXT]";

pub struct Call {
    pub program: PathBuf,
    /// What walks through the library, for `walk large`.
    pub walker: Option<PathBuf>,
    pub file: Option<PathBuf>,
    pub form: Form,
    pub page: Option<Page>,
    pub origin: ProgramBuild,
}

/// What `./run` knows of the program.
#[derive(Default)]
pub struct ProgramBuild {
    /// The sum of the program that the proof built.
    pub proved_sum: Option<String>,
    /// The sum of the files that the proof is about.
    pub sources_sum: Option<String>,
    pub commit: Option<String>,
}

/// The call as it comes, each option at most once.
#[derive(Default)]
struct Words {
    program: Option<PathBuf>,
    walker: Option<PathBuf>,
    file: Option<PathBuf>,
    form: Option<Form>,
    page: PageWords,
    origin: ProgramBuild,
}

impl Call {
    /// The call, or how it is used.
    pub fn read() -> Result<Call, &'static str> {
        let mut read = Words::default();
        let mut arguments = env::args_os().skip(1);
        while let Some(argument) = arguments.next() {
            read.take(argument, &mut arguments).ok_or(USAGE)?;
        }
        read.call().ok_or(USAGE)
    }
}

impl Words {
    fn take(
        &mut self,
        argument: OsString,
        rest: &mut impl Iterator<Item = OsString>,
    ) -> Option<()> {
        match argument.to_str() {
            Some("--frames") => set(&mut self.form, Form::Frames)?,
            Some("--json") => set(&mut self.form, Form::Json)?,
            Some("--csv") => set(&mut self.form, Form::Csv)?,
            Some("--force") => self.page.is_forced = true,
            Some("--program") => set(&mut self.program, PathBuf::from(rest.next()?))?,
            Some("--walker") => set(&mut self.walker, PathBuf::from(rest.next()?))?,
            Some("--report") => set(&mut self.page.path, PathBuf::from(rest.next()?))?,
            Some(option) if option.starts_with("--") => {
                let text = comment_text(rest.next()?.as_encoded_bytes());
                set(self.text_option(option)?, text)?;
            }
            _ => set(&mut self.file, PathBuf::from(argument))?,
        }
        Some(())
    }

    /// Where the text of an option goes.
    fn text_option(&mut self, option: &str) -> Option<&mut Option<String>> {
        match option {
            "--proved-sum" => Some(&mut self.origin.proved_sum),
            "--sources-sum" => Some(&mut self.origin.sources_sum),
            "--commit" => Some(&mut self.origin.commit),
            _ => self.page.text_option(option),
        }
    }

    /// What belongs to a report stands beside `--report` alone.
    fn call(self) -> Option<Call> {
        let Words { program, walker, file, form, page, origin } = self;
        if page.are_without_page() {
            return None;
        }
        let form = form.unwrap_or(Form::Text);
        Some(Call { program: program?, walker, file, form, page: page.page(), origin })
    }
}

/// Sets what is not set yet.
fn set<T>(place: &mut Option<T>, value: T) -> Option<()> {
    match place {
        Some(_) => None,
        None => {
            *place = Some(value);
            Some(())
        }
    }
}

/// The programs and the session.
pub fn files_in_use(call: &Call) -> impl Iterator<Item = PathBuf> {
    let named = [Some(call.program.clone()), call.walker.clone(), call.file.clone()];
    named.into_iter().flatten()
}

/// A path, or that the session is on standard input.
pub fn source_name(call: &Call) -> String {
    call.file.as_deref().map_or("standard input".to_string(), path_text)
}
