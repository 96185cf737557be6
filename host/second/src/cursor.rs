//! The tokens of a command line, read from left to right. What is off the grammar is 4, at the place
//! where another byte would have had to stand.
//!
//! Atoms, quoted strings and literals are RFC 3501's. Each method has its grammar above it; SP is
//! one space. A literal is one symbol: no other token reaches over it.

use crate::fault::LineFault;
use crate::literal::Literal;
use crate::pattern::is_wildcard;
use crate::quoted::read_quoted;
use crate::refusal::Refusal;

const SPACE: u8 = b' ';

/// A token, or why there is none.
pub type Token<T> = Result<T, LineFault>;

/// What is left of the line.
pub struct Cursor<'l, 's> {
    /// The text up to the next literal.
    rest: &'l [u8],
    /// The place of that text in the line.
    at: usize,
    literals: &'s [Literal<'l>],
}

/// An option as it is written. A value is read and not kept: no known option has one.
pub struct WrittenOption<'l> {
    pub name: &'l [u8],
    pub has_value: bool,
    /// Its place in the line.
    pub at: usize,
}

impl<'l, 's> Cursor<'l, 's> {
    /// The text that a line starts with, and after it the literals with the text after each.
    pub fn new(text: &'l [u8], literals: &'s [Literal<'l>]) -> Cursor<'l, 's> {
        Cursor { rest: text, at: 0, literals }
    }

    /// The place in the line.
    pub fn place(&self) -> usize {
        self.at
    }

    /// What is refused here for being off the grammar.
    pub fn off_grammar(&self, rule: &'static str) -> LineFault {
        LineFault { refusal: Refusal::Grammar, at: self.at, rule }
    }

    /// Whether `byte` is next.
    pub fn sees(&self, byte: u8) -> bool {
        self.rest.first() == Some(&byte)
    }

    /// Whether SP and "(" are next.
    pub fn sees_space_and_list(&self) -> bool {
        self.rest.starts_with(b" (")
    }

    /// The end of the line.
    pub fn end(&self) -> Token<()> {
        if self.rest.is_empty() && self.literals.is_empty() {
            Ok(())
        } else {
            Err(self.off_grammar("the end of the line is expected"))
        }
    }

    /// SP
    pub fn space(&mut self) -> Token<()> {
        self.byte(SPACE, "one space is expected")
    }

    /// tag = 1*(atom byte / "]"), no "+"
    pub fn tag(&mut self) -> Token<&'l [u8]> {
        let rule = "a tag is atom bytes and \"]\", no \"+\"";
        self.non_empty_run(is_tag_byte, rule)
    }

    /// word = *(atom byte), the longest run
    pub fn word(&mut self) -> &'l [u8] {
        self.run(is_atom_byte)
    }

    /// reference = astring
    pub fn reference(&mut self) -> Token<Vec<u8>> {
        self.astring()
    }

    /// mailbox = astring
    pub fn mailbox(&mut self) -> Token<Vec<u8>> {
        self.astring()
    }

    /// patterns = pattern / "(" pattern *(SP pattern) ")"
    pub fn patterns(&mut self) -> Token<Vec<Vec<u8>>> {
        if self.sees(b'(') {
            self.list(Self::pattern)
        } else {
            Ok(vec![self.pattern()?])
        }
    }

    /// options = "(" [option *(SP option)] ")"
    pub fn options(&mut self) -> Token<Vec<WrittenOption<'l>>> {
        if self.rest.starts_with(b"()") {
            self.skip(2);
            return Ok(Vec::new());
        }
        self.list(Self::option)
    }

    /// option = 1*(atom byte) [SP value]
    fn option(&mut self) -> Token<WrittenOption<'l>> {
        let at = self.at;
        let name = self.non_empty_run(is_atom_byte, "an option is an atom")?;
        let has_value = self.sees_space_and_list();
        if has_value {
            self.space()?;
            self.value()?;
        }
        Ok(WrittenOption { name, has_value, at })
    }

    /// value = "(" item *(SP item) ")"
    fn value(&mut self) -> Token<()> {
        self.list(Self::value_item).map(drop)
    }

    /// item = astring / value; "values nest as deep as the line allows"
    fn value_item(&mut self) -> Token<()> {
        if self.sees(b'(') {
            self.value()
        } else {
            self.astring().map(drop)
        }
    }

    /// astring = quoted / literal / 1*(atom byte / "]")
    fn astring(&mut self) -> Token<Vec<u8>> {
        self.string_or_run(is_astring_byte, "a quoted string, a literal or an atom is expected")
    }

    /// pattern = quoted / literal / 1*(atom byte / "]" / "%" / "*")
    pub fn pattern(&mut self) -> Token<Vec<u8>> {
        let rule = "a pattern is a quoted string, a literal or a run of atom bytes, ] % and *";
        self.string_or_run(|byte| is_astring_byte(byte) || is_wildcard(byte), rule)
    }

    /// "(" item *(SP item) ")"
    fn list<T>(&mut self, item: fn(&mut Self) -> Token<T>) -> Token<Vec<T>> {
        self.byte(b'(', "an opening parenthesis is expected")?;
        let mut items = vec![item(self)?];
        while self.sees(SPACE) {
            self.space()?;
            items.push(item(self)?);
        }
        self.byte(b')', "a space or a closing parenthesis is expected")?;
        Ok(items)
    }

    fn string_or_run(&mut self, belongs: fn(u8) -> bool, rule: &'static str) -> Token<Vec<u8>> {
        if self.sees(b'"') {
            return self.quoted();
        }
        match self.literal() {
            Some(bytes) => Ok(bytes.to_vec()),
            None => self.non_empty_run(belongs, rule).map(<[u8]>::to_vec),
        }
    }

    /// literal = "{" 1*DIGIT "}" CR LF and so many bytes, if it is next
    fn literal(&mut self) -> Option<&'l [u8]> {
        let (literal, after) = self.literals.split_first().filter(|_| self.rest.is_empty())?;
        self.rest = literal.text_after;
        self.at = literal.text_place;
        self.literals = after;
        Some(literal.bytes)
    }

    /// quoted = DQUOTE *(any byte of a line but DQUOTE and "\" / "\" (DQUOTE / "\")) DQUOTE
    fn quoted(&mut self) -> Token<Vec<u8>> {
        let rule = "a quoted string has both quotes, and a backslash only before \" and \\";
        let (bytes, after) = read_quoted(self.rest).ok_or_else(|| self.off_grammar(rule))?;
        self.skip(self.rest.len() - after.len());
        Ok(bytes)
    }

    fn non_empty_run(&mut self, belongs: fn(u8) -> bool, rule: &'static str) -> Token<&'l [u8]> {
        let run = self.run(belongs);
        if run.is_empty() {
            Err(self.off_grammar(rule))
        } else {
            Ok(run)
        }
    }

    fn run(&mut self, belongs: fn(u8) -> bool) -> &'l [u8] {
        let length = self.rest.iter().take_while(|&&byte| belongs(byte)).count();
        self.skip(length)
    }

    fn byte(&mut self, wanted: u8, rule: &'static str) -> Token<()> {
        if !self.sees(wanted) {
            return Err(self.off_grammar(rule));
        }
        self.skip(1);
        Ok(())
    }

    /// Goes on by so many bytes of the text, which are given.
    fn skip(&mut self, length: usize) -> &'l [u8] {
        let (skipped, after) = self.rest.split_at(length);
        self.rest = after;
        self.at += length;
        skipped
    }
}

/// Atom bytes are 21 to 7E without ( ) { % * " \ and "]".
fn is_atom_byte(byte: u8) -> bool {
    byte.is_ascii_graphic() && !b"(){%*\"\\]".contains(&byte)
}

/// Whether all of some bytes, one at least, are a tag.
pub fn is_tag(bytes: &[u8]) -> bool {
    !bytes.is_empty() && bytes.iter().copied().all(is_tag_byte)
}

fn is_tag_byte(byte: u8) -> bool {
    is_astring_byte(byte) && byte != b'+'
}

fn is_astring_byte(byte: u8) -> bool {
    is_atom_byte(byte) || byte == b']'
}
