//! The words of a session file for flags, readers, classes of namespaces and options of a walk.

use crate::readers::{Reader, Readers};
use crate::rows::Flags;
use crate::walk_options::{OPTION_REMOTE, OPTION_SPECIAL_USE, OPTION_WITHOUT_SUBSCRIBED};

/// Words, each with the bits that it stands for.
type WordBits = [(&'static str, u16)];

const WALK_WORDS: &WordBits = &[
    ("remote", OPTION_REMOTE as u16),
    ("special-use", OPTION_SPECIAL_USE as u16),
    ("without-subscribed", OPTION_WITHOUT_SUBSCRIBED as u16),
];

/// In the order of their numbers, 0 to 2.
const CLASS_WORDS: [&str; 3] = ["personal", "other-users", "shared"];

/// The word before a set of readers.
pub const READERS: &str = "readers";
const ALL_READERS: &str = "all";
const NO_READERS: &str = "none";

/// The word after `walk` for one with larger buffers.
pub const LARGE: &str = "large";

/// The digits of a flag number, as 0003.
const FLAG_DIGITS: usize = 4;

/// The flags that words or four-digit numbers name together; or the first word that names none.
pub fn flags_of_words<'w>(words: &[&'w str]) -> Result<Flags, &'w str> {
    let mut bits = 0;
    for &word in words {
        bits |= bits_of_word(&flag_bits(), word).or_else(|| flag_number(word)).ok_or(word)?;
    }
    Ok(Flags::from_bits(bits))
}

/// The flags in words, or in four digits where words do not say all of them.
pub fn words_of_flags(flags: Flags) -> String {
    words_of_bits(&flag_bits(), flags.bits()).unwrap_or_else(|| format!("{:04X}", flags.bits()))
}

/// The readers that a word names, as `0,3`, `all` or `none`.
pub fn readers_of_word(word: &str) -> Option<Readers> {
    match word {
        ALL_READERS => return Some(Readers::ALL),
        NO_READERS => return Some(Readers::NONE),
        _ => {}
    }
    let mut readers = Readers::NONE;
    for number in word.split(',') {
        let is_digit = number.len() == 1 && number.as_bytes()[0].is_ascii_digit();
        let number = number.parse().ok().filter(|_| is_digit)?;
        readers.add(Reader::of(number)?);
    }
    Some(readers)
}

/// The word for a set of readers.
pub fn word_of_readers(readers: Readers) -> String {
    match readers {
        Readers::ALL => ALL_READERS.to_string(),
        Readers::NONE => NO_READERS.to_string(),
        _ => {
            let numbers = Reader::all().filter(|&reader| readers.has(reader));
            numbers.map(|reader| reader.number().to_string()).collect::<Vec<_>>().join(",")
        }
    }
}

/// The option byte that words or decimal numbers name together; or the first word that names
/// none.
pub fn walk_option_of_words(words: &str) -> Result<u8, &str> {
    let mut option = 0;
    for word in words.split_whitespace() {
        let named = bits_of_word(WALK_WORDS, word).and_then(|bits| u8::try_from(bits).ok());
        option |= named.or_else(|| word.parse().ok()).ok_or(word)?;
    }
    Ok(option)
}

/// The options of a walk in words, if words say all of them.
pub fn words_of_walk_option(option: u8) -> Option<String> {
    words_of_bits(WALK_WORDS, u16::from(option))
}

pub fn class_of_word(word: &str) -> Option<u8> {
    (0..).zip(CLASS_WORDS).find(|(_, class)| *class == word).map(|(number, _)| number)
}

pub fn word_of_class(class: u8) -> Option<&'static str> {
    CLASS_WORDS.get(usize::from(class)).copied()
}

/// The words for flags, for a message.
pub fn flag_words() -> String {
    format!("{} and four hexadecimal digits", listed(&flag_bits()))
}

/// The words for options of a walk, for a message.
pub fn walk_words() -> String {
    format!("{} and 0 to 255; {LARGE} stands first", listed(WALK_WORDS))
}

/// The words for classes of namespaces, for a message.
pub fn class_words() -> String {
    CLASS_WORDS.join(", ")
}

fn flag_bits() -> [(&'static str, u16); Flags::NAMED.len()] {
    Flags::NAMED.map(|(word, flag)| (word, flag.bits()))
}

fn listed(words: &WordBits) -> String {
    words.iter().map(|(word, _)| *word).collect::<Vec<_>>().join(", ")
}

fn bits_of_word(words: &WordBits, word: &str) -> Option<u16> {
    words.iter().find(|(name, _)| *name == word).map(|(_, bits)| *bits)
}

fn words_of_bits(words: &WordBits, bits: u16) -> Option<String> {
    let named = words.iter().filter(|(_, bit)| bits & bit != 0);
    let (names, named_bits): (Vec<_>, Vec<_>) = named.copied().unzip();
    let all_named = !names.is_empty() && named_bits.iter().sum::<u16>() == bits;
    all_named.then(|| names.join(" "))
}

fn flag_number(word: &str) -> Option<u16> {
    let is_number = word.len() == FLAG_DIGITS && word.bytes().all(|byte| byte.is_ascii_hexdigit());
    is_number.then(|| u16::from_str_radix(word, 16).ok())?
}
