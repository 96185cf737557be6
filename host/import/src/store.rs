//! Reading a store, whatever its kind.

use std::fs::File;
use std::io::{self, Read};
use std::path::Path;

use formats::sha256::{sum_of_bytes, Sum};
use formats::text::{line_text, path_text};

use crate::answer::read_answer;
use crate::cyrus::read_cyrus;
use crate::doveadm::read_doveadm;
use crate::error::StoreError;
use crate::found::Found;
use crate::kind::{ListForm, Store};
use crate::maildir::{read_maildir, Layout};
use crate::mbox::read_mbox;
use crate::names::{read_names, EXISTS, SUBSCRIBED};
use crate::told::Told;
use crate::write::MadeFrom;

/// A file with more is no list of mailboxes.
const MOST_BYTES: u64 = 64 << 20;
/// How a text file in UTF-16 starts, in which no line can be read.
const UTF_16: [&[u8]; 2] = [b"\xFF\xFE", b"\xFE\xFF"];

const ANSWER_KNOWS: &str = "An answer knows what the server said: attributes, special uses and \
                            subscriptions as far as they were asked for.";
const TREE_KNOWS: &str = "A tree knows mailboxes and subscribed names; special uses and automatic \
                          subscriptions stand in the server's configuration.";
const LIST_KNOWS: &str = "A list knows names; attributes, special uses, and subscriptions that no \
                          second list names are not known.";
const CYRUS_KNOWS: &str =
    "A list of Cyrus knows the names of a server and some attributes; special uses, \
                           and subscriptions that no second list names are not known.";

/// What a store says, and what it is.
pub struct Contents {
    pub all_found: Vec<Found>,
    pub made_from: MadeFrom,
}

pub fn read_store(store: &Store, told: &mut Told) -> Result<Contents, StoreError> {
    match store {
        Store::Maildir { folder, layout } => maildir_contents(folder, *layout, told),
        Store::Mbox(folder) => mbox_contents(folder, told),
        Store::Answer(file) => answer_contents(file, told),
        Store::List { form, file, delimiter, subscribed } => {
            list_contents(*form, file, *delimiter, subscribed.as_deref(), told)
        }
    }
}

fn maildir_contents(
    folder: &Path,
    layout: Option<Layout>,
    told: &mut Told,
) -> Result<Contents, StoreError> {
    let maildir = read_maildir(folder, layout, told)?;
    let kind = match maildir.layout {
        Layout::MaildirPlusPlus => "the Maildir++ tree",
        Layout::Fs => "the Maildir tree (LAYOUT=fs)",
        Layout::Dbox => "the dbox tree",
    };
    let list = "the sorted list of its folders";
    let sums = tree_sums(list, maildir.folders_sum, "subscriptions", maildir.subscriptions_sum);
    Ok(contents(maildir.all_found, kind, folder, sums, TREE_KNOWS))
}

fn mbox_contents(folder: &Path, told: &mut Told) -> Result<Contents, StoreError> {
    let mbox = read_mbox(folder, told)?;
    let list = "the sorted list of its folders and files";
    let sums = tree_sums(list, mbox.names_sum, ".subscriptions", mbox.subscriptions_sum);
    Ok(contents(mbox.all_found, "the mbox tree", folder, sums, TREE_KNOWS))
}

/// The forms of a file that names mailboxes.
#[derive(Clone, Copy, Debug, PartialEq, Eq)]
pub enum TextForm {
    Answer,
    /// With what parts the levels.
    List(ListForm, u8),
}

/// What a file of a form says, by its bytes. The path is for whoever reads of it.
pub fn read_text(
    form: TextForm,
    path: &Path,
    bytes: &[u8],
    told: &mut Told,
) -> Result<Vec<Found>, StoreError> {
    check_text(path, bytes)?;
    match form {
        TextForm::Answer => {
            let reason = "no answer: there is no LIST or LSUB line in it";
            let none = || StoreError::NoStore(path.to_path_buf(), reason);
            read_answer(bytes, told).ok_or_else(none)
        }
        TextForm::List(ListForm::Names, delimiter) => Ok(read_names(bytes, delimiter, EXISTS)),
        TextForm::List(ListForm::Doveadm, delimiter) => {
            Ok(read_doveadm(bytes, delimiter, EXISTS, told))
        }
        TextForm::List(ListForm::Cyrus, delimiter) => Ok(read_cyrus(bytes, delimiter, told)),
    }
}

fn check_text(path: &Path, bytes: &[u8]) -> Result<(), StoreError> {
    if UTF_16.iter().any(|start| bytes.starts_with(start)) {
        let reason = "text in UTF-16, of which no line can be read; UTF-8 can";
        return Err(StoreError::NoStore(path.to_path_buf(), reason));
    }
    Ok(())
}

fn answer_contents(file: &Path, told: &mut Told) -> Result<Contents, StoreError> {
    let bytes = read_bytes(file)?;
    let all_found = read_text(TextForm::Answer, file, &bytes, told)?;
    let sums = vec![("the answer".to_string(), sum_of_bytes(&bytes))];
    Ok(contents(all_found, "the answer", file, sums, ANSWER_KNOWS))
}

fn list_contents(
    form: ListForm,
    file: &Path,
    delimiter: u8,
    subscribed: Option<&Path>,
    told: &mut Told,
) -> Result<Contents, StoreError> {
    let bytes = read_bytes(file)?;
    let mut all_found = read_text(TextForm::List(form, delimiter), file, &bytes, told)?;
    let (kind, knows) = match form {
        ListForm::Names => ("the names", LIST_KNOWS),
        ListForm::Doveadm => ("the list of doveadm", LIST_KNOWS),
        ListForm::Cyrus => ("the list of Cyrus", CYRUS_KNOWS),
    };
    let mut sums = vec![("the list".to_string(), sum_of_bytes(&bytes))];
    let parted = line_text(&[delimiter]);
    if let Some(subscribed) = subscribed {
        let bytes = read_bytes(subscribed)?;
        check_text(subscribed, &bytes)?;
        all_found.extend(match form {
            ListForm::Doveadm => read_doveadm(&bytes, delimiter, SUBSCRIBED, told),
            ListForm::Names | ListForm::Cyrus => read_names(&bytes, delimiter, SUBSCRIBED),
        });
        let of = format!("the subscribed names {}", path_text(subscribed));
        sums.push((of, sum_of_bytes(&bytes)));
    }
    let mut contents = contents(all_found, kind, file, sums, knows);
    contents.made_from.text += &format!(", levels parted by {parted}");
    Ok(contents)
}

fn contents(
    all_found: Vec<Found>,
    kind: &str,
    path: &Path,
    sums: Vec<(String, Sum)>,
    knows: &'static str,
) -> Contents {
    let text = format!("{kind} {}", path_text(path));
    Contents { all_found, made_from: MadeFrom { text, sums, knows, added: Vec::new() } }
}

fn tree_sums(list: &str, sum: Sum, file: &str, file_sum: Option<Sum>) -> Vec<(String, Sum)> {
    let file_sum = file_sum.map(|sum| (format!("its file {file}"), sum));
    [(list.to_string(), sum)].into_iter().chain(file_sum).collect()
}

/// A file whole; of which the name is `-`, standard input.
pub fn read_bytes(path: &Path) -> Result<Vec<u8>, StoreError> {
    let input: Box<dyn Read> = if path.as_os_str() == "-" {
        Box::new(io::stdin().lock())
    } else {
        Box::new(File::open(path).map_err(StoreError::unreadable(path))?)
    };
    let mut bytes = Vec::new();
    input.take(MOST_BYTES + 1).read_to_end(&mut bytes).map_err(StoreError::unreadable(path))?;
    if bytes.len() as u64 > MOST_BYTES {
        let error = io::Error::other("over 64 MB");
        return Err(StoreError::Unreadable(path.to_path_buf(), error));
    }
    Ok(bytes)
}
