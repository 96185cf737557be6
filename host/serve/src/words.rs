//! Tag and word of a line, and what the server itself answers: to words that the library does not know,
//! and for refusals.

use luspemaro::{Reader, Refusal};

/// What the server can do, as it says after CAPABILITY and in its greeting.
pub const CAPABILITIES: &str = "IMAP4rev1 LIST-EXTENDED SPECIAL-USE CHILDREN NAMESPACE ID";

const NO_MESSAGES: &str =
    "[CANNOT] no messages are served here, only the names of mailboxes: LIST, LSUB, \
                           NAMESPACE, SUBSCRIBE, UNSUBSCRIBE, CAPABILITY, ID, NOOP, LOGOUT";
const NO_LOGIN: &str =
    "[CANNOT] PREAUTH was the greeting: this connection needs no login, and none is taken";
const NO_AUTHENTICATE: &str =
    "[CANNOT] PREAUTH was the greeting: this connection needs no login; LOGIN is taken, AUTHENTICATE is not";
const CRLF: &[u8] = b"\r\n";
/// Stands where a line has no tag.
const NO_TAG: &[u8] = b"*";

/// A line up to the end of its word.
struct LineStart<'l> {
    tag: &'l [u8],
    word: &'l [u8],
    /// What comes after the word, without CR LF.
    rest: &'l [u8],
}

/// What the server itself answers, and whether the connection ends after it.
#[derive(Debug, PartialEq, Eq)]
pub struct Own {
    pub lines: Vec<u8>,
    pub is_end: bool,
}

/// The first line that a client is sent.
pub fn greeting(reader: Reader) -> Vec<u8> {
    let number = reader.number();
    line(&[
        NO_TAG,
        format!("PREAUTH [CAPABILITY {CAPABILITIES}] Luspemaro, for reader {number}").as_bytes(),
    ])
}

/// The last line of a connection that the server ends.
pub fn farewell(why: &str) -> Vec<u8> {
    line(&[NO_TAG, b"BYE", why.as_bytes()])
}

/// Said once to a client whose line ends in LF without CR, which ends no command.
pub fn bare_lf_hint() -> Vec<u8> {
    line(&[
        NO_TAG,
        b"BAD a line ended in LF without CR; a command ends in CR LF, so it is not read yet",
    ])
}

/// Whether the word of a line is that of an edit. What an edit changed is the library's to say; this tells what a line
/// of a review file is that changed no row, and which commands are decided alone from the start.
pub fn is_edit(line: &[u8]) -> bool {
    LineStart::of(line)
        .is_some_and(|start| start.is_word("SUBSCRIBE") || start.is_word("UNSUBSCRIBE"))
}

/// The answer to a line whose word the library does not know. A line without a word has none.
pub fn own_answer(text: &[u8], accepts_login: bool) -> Option<Own> {
    let start = LineStart::of(text).filter(|start| !start.word.is_empty())?;
    let (lines, is_end) = if start.is_word("CAPABILITY") {
        (start.plain(&["CAPABILITY ", CAPABILITIES].concat()), false)
    } else if start.is_word("NOOP") {
        (start.plain(""), false)
    } else if start.is_word("LOGOUT") {
        (start.plain("BYE Luspemaro"), start.rest.is_empty())
    } else if start.is_word("ID") {
        (start.id(), false)
    } else if start.is_word("LOGIN") || start.is_word("AUTHENTICATE") {
        (start.login(accepts_login), false)
    } else {
        (start.tagged("NO", NO_MESSAGES), false)
    };
    Some(Own { lines, is_end })
}

impl Own {
    /// OK, NO or BAD: the word after the tag of the last line.
    pub fn status(&self) -> String {
        let text = String::from_utf8_lossy(&self.lines);
        text.lines().last().and_then(|line| line.split(' ').nth(1)).unwrap_or_default().to_string()
    }
}

/// Whether a refusal, 3 to 8, is about the line alone: the table decides nothing about it.
pub fn is_about_line(refusal: Refusal) -> bool {
    (3..=8).contains(&refusal.number())
}

/// The line of a refusal: BAD for what is about the line, and NO for all others. The text is
/// the line that is refused, or its first bytes.
pub fn refusal_line(text: &[u8], refusal: Refusal) -> Vec<u8> {
    let status = if is_about_line(refusal) { "BAD" } else { "NO" };
    let told = format!("[refusal {}] {}", refusal.number(), refusal.meaning());
    line(&[tag_of(text), status.as_bytes(), told.as_bytes()])
}

/// The line of a command that was not decided since it could not be kept.
pub fn not_kept_line(text: &[u8], why: &str) -> Vec<u8> {
    line(&[tag_of(text), b"NO [UNAVAILABLE]", why.as_bytes()])
}

/// The tag of a line, with a space or the end of the line after it; or `*` where it has none that is lawful.
fn tag_of(text: &[u8]) -> &[u8] {
    let (tag, rest) = split_run(text, is_tag_byte);
    if tag.is_empty() || !(rest.starts_with(b" ") || rest.starts_with(CRLF)) {
        return NO_TAG;
    }
    tag
}

impl<'l> LineStart<'l> {
    fn of(text: &'l [u8]) -> Option<LineStart<'l>> {
        let (tag, rest) = split_run(text, is_tag_byte);
        let rest = rest.strip_prefix(b" ").filter(|_| !tag.is_empty())?;
        let (word, rest) = split_run(rest, is_atom_byte);
        Some(LineStart { tag, word, rest: rest.strip_suffix(CRLF).unwrap_or(rest) })
    }

    fn is_word(&self, word: &str) -> bool {
        self.word.eq_ignore_ascii_case(word.as_bytes())
    }

    fn tagged(&self, status: &str, text: &str) -> Vec<u8> {
        line(&[self.tag, status.as_bytes(), text.as_bytes()])
    }

    /// The answer to a word that stands alone: an untagged line, unless it is empty, and OK.
    fn plain(&self, untagged: &str) -> Vec<u8> {
        if !self.rest.is_empty() {
            return self.tagged("BAD", "nothing comes after this word");
        }
        self.done(untagged)
    }

    /// id = "ID" SP (list / "NIL"); what the client says of itself is not looked at.
    fn id(&self) -> Vec<u8> {
        if !self.rest.starts_with(b" (") && !self.rest.eq_ignore_ascii_case(b" NIL") {
            return self.tagged("BAD", "a list or NIL comes after ID");
        }
        let version = env!("CARGO_PKG_VERSION");
        self.done(&format!("ID (\"name\" \"Luspemaro\" \"version\" \"{version}\")"))
    }

    /// What a client says who it is decides nothing, and is not looked at: who reaches the server is its
    /// reader. AUTHENTICATE would go on in lines that are no commands, so it is never taken.
    fn login(&self, is_accepted: bool) -> Vec<u8> {
        match (is_accepted, self.is_word("LOGIN")) {
            (false, _) => self.tagged("NO", NO_LOGIN),
            (true, false) => self.tagged("NO", NO_AUTHENTICATE),
            (true, true) if self.rest.is_empty() => {
                self.tagged("BAD", "a name and a password come after LOGIN")
            }
            (true, true) => self.done(""),
        }
    }

    fn done(&self, untagged: &str) -> Vec<u8> {
        let mut lines = Vec::new();
        if !untagged.is_empty() {
            lines = line(&[NO_TAG, untagged.as_bytes()]);
        }
        lines.extend(self.tagged("OK", "done"));
        lines
    }
}

/// Words with one space between them, and CR LF.
fn line(words: &[&[u8]]) -> Vec<u8> {
    [&words.join(&b' '), CRLF].concat()
}

fn split_run(text: &[u8], is_of_it: impl Fn(u8) -> bool) -> (&[u8], &[u8]) {
    text.split_at(text.iter().take_while(|&&byte| is_of_it(byte)).count())
}

/// Document 01's atom bytes.
fn is_atom_byte(byte: u8) -> bool {
    byte.is_ascii_graphic() && !b"(){%*\"\\]".contains(&byte)
}

/// tag = 1*(atom byte / "]"), no "+"
fn is_tag_byte(byte: u8) -> bool {
    (is_atom_byte(byte) || byte == b']') && byte != b'+'
}

#[cfg(test)]
mod tests {
    use crate::words::*;

    fn refused(text: &str, refusal: Refusal) -> String {
        String::from_utf8(refusal_line(text.as_bytes(), refusal)).expect("text")
    }

    #[test]
    fn refusals_keep_the_tag() {
        let cases = [
            ("a1 LIST\r\n", "a1 BAD [refusal 4] "),
            ("a1\r\n", "a1 BAD [refusal 4] "),
            ("a]} LIST", "a]} BAD [refusal 4] "),
            ("\r\n", "* BAD [refusal 4] "),
            ("a+ LIST\r\n", "* BAD [refusal 4] "),
            ("* LIST\r\n", "* BAD [refusal 4] "),
            ("a", "* BAD [refusal 4] "),
            ("a{3}\r\nabc", "* BAD [refusal 4] "),
            ("a\tLIST\r\n", "* BAD [refusal 4] "),
        ];
        for (text, start) in cases {
            let told = refused(text, Refusal::Grammar);
            assert!(told.starts_with(start) && told.ends_with("grammar\r\n"), "{text:?}: {told:?}");
        }
    }

    #[test]
    fn bad_is_for_3_to_8() {
        for refusal in Refusal::ALL {
            let status = if (3..=8).contains(&refusal.number()) { "BAD" } else { "NO" };
            let told = refused("a LIST\r\n", refusal);
            assert_eq!(
                told,
                format!("a {status} [refusal {}] {}\r\n", refusal.number(), refusal.meaning())
            );
        }
    }

    #[test]
    fn edits_by_their_word() {
        for line in ["a SUBSCRIBE x\r\n", "a unsubscribe {1}\r\nx\r\n", "] sUbScRiBe \"\"\r\n"] {
            assert!(is_edit(line.as_bytes()), "{line:?}");
        }
        for line in [
            "a LIST SUBSCRIBE x\r\n",
            "SUBSCRIBE x\r\n",
            "a  SUBSCRIBE x\r\n",
            "a SUBSCRIBED x\r\n",
        ] {
            assert!(!is_edit(line.as_bytes()), "{line:?}");
        }
    }

    #[test]
    fn own_words() {
        let capability = format!("* CAPABILITY {CAPABILITIES}\r\na OK done\r\n");
        let no = format!("a NO {NO_MESSAGES}\r\n");
        let id = "* ID (\"name\" \"Luspemaro\" \"version\" \"0.1.0\")\r\na OK done\r\n";
        let cases: [(&str, Option<&str>, bool); 15] = [
            ("a CAPABILITY\r\n", Some(&capability), false),
            ("a capability\r\n", Some(&capability), false),
            ("a CAPABILITY x\r\n", Some("a BAD nothing comes after this word\r\n"), false),
            ("a NOOP\r\n", Some("a OK done\r\n"), false),
            ("a NOOP \r\n", Some("a BAD nothing comes after this word\r\n"), false),
            ("a LOGOUT\r\n", Some("* BYE Luspemaro\r\na OK done\r\n"), true),
            ("a LOGOUT now\r\n", Some("a BAD nothing comes after this word\r\n"), false),
            ("a ID NIL\r\n", Some(id), false),
            ("a id (\"name\" \"x\")\r\n", Some(id), false),
            ("a ID\r\n", Some("a BAD a list or NIL comes after ID\r\n"), false),
            ("a SELECT INBOX\r\n", Some(&no), false),
            ("a EXAMINE INBOX\r\n", Some(&no), false),
            ("a }+\r\n", Some(&no), false),
            ("a  NOOP\r\n", None, false),
            ("a (NOOP\r\n", None, false),
        ];
        for (text, expected, is_end) in cases {
            for accepts_login in [false, true] {
                let own = own_answer(text.as_bytes(), accepts_login);
                let expected = expected.map(|text| Own { lines: text.as_bytes().to_vec(), is_end });
                assert_eq!(own, expected, "{text:?}");
            }
        }
    }

    /// Each line, and the answer without and with `--accept-login`.
    #[test]
    fn logins() {
        let [no, never] = [NO_LOGIN, NO_AUTHENTICATE].map(|text| format!("a NO {text}\r\n"));
        let cases: [(&str, &str, &str); 6] = [
            ("a LOGIN x y\r\n", &no, "a OK done\r\n"),
            ("a login \"x\" {1}\r\ny\r\n", &no, "a OK done\r\n"),
            ("a LOGIN\r\n", &no, "a BAD a name and a password come after LOGIN\r\n"),
            ("a AUTHENTICATE PLAIN\r\n", &no, &never),
            ("a authenticate plain AHgAeQ==\r\n", &no, &never),
            (
                "a LOGINS x y\r\n",
                &format!("a NO {NO_MESSAGES}\r\n"),
                &format!("a NO {NO_MESSAGES}\r\n"),
            ),
        ];
        for (text, without, with) in cases {
            for (accepts_login, expected) in [(false, without), (true, with)] {
                let own = own_answer(text.as_bytes(), accepts_login).expect("an answer");
                assert_eq!(String::from_utf8_lossy(&own.lines), expected, "{text:?}");
                assert!(!own.is_end && expected.starts_with(&format!("a {} ", own.status())));
            }
        }
    }
}
