//! Extended LIST commands of given parts: a reader, a set of options, a reference and patterns. What is
//! shown of several commands at a time (document 02, W10 and W11) is shown of these.

use formats::readers::Reader;
use second::command::{Return, Selection};
use second::joined::{options_of, MAX_OPTIONS};

use crate::commands::{push_in_some_case, tag_and_space};
use crate::random::Random;
use crate::strings::push_string;

/// A set of selection options and a set of return options.
#[derive(Clone, Copy, Debug)]
pub struct Options {
    pub selection: Selection,
    pub returned: Return,
}

/// A command that is extended, and accepted unless it has more than eight patterns.
#[derive(Clone, Debug)]
pub struct Request {
    pub reader: Reader,
    pub options: Options,
    pub reference: Vec<u8>,
    pub patterns: Vec<Vec<u8>>,
}

impl Options {
    /// The selections that 7 does not refuse, each with every set of return options.
    pub fn all() -> Vec<Options> {
        let options = |number: u8| {
            let (selection, returned) = options_of(number);
            Options { selection, returned }
        };
        let all = (0..=MAX_OPTIONS).map(options);
        all.filter(|options| options.selection.is_lawful()).collect()
    }

    /// The number of the set, from which a joined command is written.
    pub fn number(self) -> u8 {
        let Selection { subscribed, remote, recursive_match, special_use } = self.selection;
        let selection = [subscribed, remote, recursive_match, special_use];
        let Return { subscribed, children, special_use } = self.returned;
        let bits = selection.into_iter().chain([subscribed, children, special_use]);
        bits.zip(0..).map(|(is_given, bit)| u8::from(is_given) << bit).sum()
    }

    pub fn some(random: &mut Random) -> Options {
        let all = Options::all();
        all[random.below(all.len())]
    }

    fn selected(self) -> Vec<&'static str> {
        let Selection { subscribed, remote, recursive_match, special_use } = self.selection;
        words_of(&[
            ("SUBSCRIBED", subscribed),
            ("REMOTE", remote),
            ("RECURSIVEMATCH", recursive_match),
            ("SPECIAL-USE", special_use),
        ])
    }

    fn returned(self) -> Vec<&'static str> {
        let Return { subscribed, children, special_use } = self.returned;
        words_of(&[
            ("SUBSCRIBED", subscribed),
            ("CHILDREN", children),
            ("SPECIAL-USE", special_use),
        ])
    }

    /// What the text of each set begins with.
    pub const WORD: &'static str = "options";

    /// The set in words, by which it is counted.
    pub fn text(self) -> String {
        format!("{} ({}) ({})", Options::WORD, self.selected().join(" "), self.returned().join(" "))
    }
}

fn words_of(options: &[(&'static str, bool)]) -> Vec<&'static str> {
    options.iter().filter(|(_, is_given)| *is_given).map(|(word, _)| *word).collect()
}

impl Request {
    /// This request with other patterns.
    pub fn with(&self, patterns: Vec<Vec<u8>>) -> Request {
        Request { patterns, ..self.clone() }
    }

    /// "In an extended command an empty pattern matches nothing and has no canonical form."
    pub fn canonical_patterns(&self) -> Vec<Vec<u8>> {
        let written = self.patterns.iter().filter(|pattern| !pattern.is_empty());
        written.map(|pattern| [self.reference.as_slice(), pattern].concat()).collect()
    }

    /// Whether a name matches some pattern.
    pub fn matches(&self, name: &[u8]) -> bool {
        self.canonical_patterns().iter().any(|pattern| second::matches(pattern, name))
    }

    /// The command, with its CR LF. It has parentheses around its patterns, unless there is one alone and
    /// a list of options makes it extended.
    pub fn line(&self, random: &mut Random) -> Vec<u8> {
        let (selected, returned) = (self.options.selected(), self.options.returned());
        let has_selection = !selected.is_empty() || random.percent(30);
        let has_return = !returned.is_empty() || random.percent(20);
        let mut line = tag_and_space(random);
        push_in_some_case(&mut line, random, b"LIST");
        if has_selection {
            line.push(b' ');
            push_words(&mut line, random, selected);
        }
        line.push(b' ');
        push_string(&mut line, random, &self.reference, b"");
        line.push(b' ');
        match self.patterns.as_slice() {
            [pattern] if (has_selection || has_return) && random.percent(50) => {
                push_string(&mut line, random, pattern, b"%*");
            }
            patterns => push_patterns(&mut line, random, patterns),
        }
        if has_return {
            line.push(b' ');
            push_in_some_case(&mut line, random, b"RETURN");
            line.push(b' ');
            push_words(&mut line, random, returned);
        }
        line.extend_from_slice(b"\r\n");
        line
    }
}

/// Options in parentheses, in some order, now and then one of them twice.
fn push_words(line: &mut Vec<u8>, random: &mut Random, mut words: Vec<&str>) {
    if !words.is_empty() && random.percent(15) {
        words.push(words[random.below(words.len())]);
    }
    random.shuffle(&mut words);
    line.push(b'(');
    for (at, word) in words.iter().enumerate() {
        line.extend_from_slice(if at == 0 { b"" } else { b" " });
        push_in_some_case(line, random, word.as_bytes());
    }
    line.push(b')');
}

fn push_patterns(line: &mut Vec<u8>, random: &mut Random, patterns: &[Vec<u8>]) {
    line.push(b'(');
    for (at, pattern) in patterns.iter().enumerate() {
        line.extend_from_slice(if at == 0 { b"" } else { b" " });
        push_string(line, random, pattern, b"%*");
    }
    line.push(b')');
}
