//! Lines that were not read and may be an answer after all.
//!
//! A line is one where it holds `LIST (` or `LSUB (`, or `* LIST(` in any case of letters. Three kinds
//! of lines hold that and are none: a command of a client with selection options, the tagged line after a
//! command, and STATUS of a mailbox whose name ends so.

use crate::marks::{is_blank, Marked};

const WORDS: [&[u8]; 2] = [b"LIST", b"LSUB"];
/// What a client may select by (RFC 5258 and RFC 6154). A response has attributes there, with a backslash.
const OPTIONS: [&[u8]; 4] = [b"SUBSCRIBED", b"REMOTE", b"RECURSIVEMATCH", b"SPECIAL-USE"];
const STATES: [&[u8]; 3] = [b"OK", b"NO", b"BAD"];

/// Whether an answer may stand in a line.
pub fn may_be_answer(line: &[u8]) -> bool {
    let is_word = |at: &usize| WORDS.iter().any(|word| starts_with_word(&line[*at..], word));
    let mut places = (0..line.len()).filter(is_word).peekable();
    let is_tagged = places.peek().is_some() && is_tagged(line);
    places.any(|at| is_answer_at(line, at, is_tagged))
}

fn starts_with_word(text: &[u8], word: &[u8]) -> bool {
    text.get(..word.len()).is_some_and(|start| start.eq_ignore_ascii_case(word))
}

/// Of a place where one of the words stands, in a line that is a tagged one or not.
fn is_answer_at(line: &[u8], at: usize, is_tagged: bool) -> bool {
    let (before, from) = line.split_at(at);
    let (word, after) = from.split_at(WORDS[0].len());
    let blanks = after.iter().take_while(|&&byte| is_blank(byte)).count();
    let Some(list) = after[blanks..].strip_prefix(b"(") else {
        return false;
    };
    let is_after_star = words_back(before).next().is_some_and(|word| word.ends_with(b"*"));
    let is_exact = WORDS.contains(&word) && blanks > 0;
    let is_other = || is_tagged || is_command(before, list) || is_status(before);
    is_after_star || is_exact && !is_other()
}

fn words(text: &[u8]) -> impl DoubleEndedIterator<Item = &[u8]> {
    text.split(|&byte| is_blank(byte)).filter(|word| !word.is_empty())
}

/// From the last word to the first.
fn words_back(text: &[u8]) -> impl Iterator<Item = &[u8]> {
    words(text).rev()
}

fn is_tag(word: &[u8]) -> bool {
    word.first().is_some_and(u8::is_ascii_alphanumeric)
}

/// `tag LIST (SUBSCRIBED) ..`, or with no option and an empty reference.
fn is_command(before: &[u8], list: &[u8]) -> bool {
    let is_word = before.last().is_some_and(|&byte| is_blank(byte));
    let has_tag = is_word && words_back(before).next().is_some_and(is_tag);
    let Some(end) = list.iter().position(|&byte| byte == b')').filter(|_| has_tag) else {
        return false;
    };
    let is_option = |word: &[u8]| OPTIONS.iter().any(|option| word.eq_ignore_ascii_case(option));
    let has_options = words(&list[..end]).next().is_some();
    let is_selection = words(&list[..end]).all(is_option);
    is_selection && (has_options || list[end..].starts_with(b") \"\" "))
}

/// `tag OK ..`, where a tag may look like a time stamp.
fn is_tagged(line: &[u8]) -> bool {
    let starts_so = |text: &[u8]| {
        let mut words = words(text);
        words.next().is_some_and(is_tag) && words.next().is_some_and(|word| STATES.contains(&word))
    };
    starts_so(line) || starts_so(&Marked::of(line).text)
}

/// `STATUS name (`, where the name ends in one of the words.
fn is_status(before: &[u8]) -> bool {
    let is_whole = before.last().is_none_or(|&byte| is_blank(byte));
    let verb = words_back(before).nth(usize::from(!is_whole));
    verb.is_some_and(|word| word.eq_ignore_ascii_case(b"STATUS"))
}
