//! One LIST or LSUB response of a server, as RFC 3501 and RFC 5258 write it:
//!
//! ```text
//! "* LIST" SP "(" [attribute *(SP attribute)] ")" SP (DQUOTE byte DQUOTE / "NIL") SP mailbox
//!          [SP "(" tag SP value *(SP tag SP value) ")"] line-end
//! mailbox = quoted / atom / "{" number "}" line-end bytes
//! ```
//!
//! A line end is CR LF, or LF alone as in a file that an editor wrote. More spaces than one are taken
//! too. Of values only the tags are kept.

use formats::quoted::read_quoted;

/// A response, its names not judged any further.
#[derive(Debug, PartialEq, Eq)]
pub struct Response {
    pub word: Word,
    pub attributes: Vec<Vec<u8>>,
    /// None for NIL.
    pub delimiter: Option<u8>,
    pub name: Vec<u8>,
    /// The tags of its extended data.
    pub tags: Vec<Vec<u8>>,
}

#[derive(Clone, Copy, Debug, PartialEq, Eq)]
pub enum Word {
    List,
    Lsub,
}

/// What is left to be read of a file.
pub struct Cursor<'t> {
    rest: &'t [u8],
}

type Read<T> = Result<T, &'static str>;

const CUT: &str = "it ends before its end";
const NO_LITERAL: &str = "a literal is not there whole, or longer than a name can be";

impl Word {
    /// The word of the response that a line starts with, and what comes after it.
    pub fn split(line: &[u8]) -> Option<(Word, &[u8])> {
        const LENGTH: usize = b"LIST".len();
        let mut cursor = Cursor::new(line.strip_prefix(b"* ")?);
        cursor.skip_spaces();
        let (word, rest) = cursor.rest.split_at_checked(LENGTH)?;
        let goes_on =
            rest.first().is_some_and(|byte| byte.is_ascii_alphanumeric() || *byte == b'-');
        match word.to_ascii_uppercase().as_slice() {
            b"LIST" if !goes_on => Some((Word::List, rest)),
            b"LSUB" if !goes_on => Some((Word::Lsub, rest)),
            _ => None,
        }
    }
}

/// The length of the literal whose header ends a line.
pub fn literal_length(line: &[u8]) -> Option<usize> {
    let line = Cursor::new(line).line();
    let at = line.iter().rposition(|&byte| byte == b'{')?;
    header_length(&line[at..])
}

/// "{" number ["+"] "}"
fn header_length(header: &[u8]) -> Option<usize> {
    let digits = header.strip_prefix(b"{")?.strip_suffix(b"}")?;
    let digits = digits.strip_suffix(b"+").unwrap_or(digits);
    let is_number = digits.iter().all(u8::is_ascii_digit);
    str::from_utf8(digits).ok().filter(|_| is_number)?.parse().ok()
}

impl<'t> Cursor<'t> {
    pub fn new(rest: &'t [u8]) -> Cursor<'t> {
        Cursor { rest }
    }

    pub fn rest(&self) -> &'t [u8] {
        self.rest
    }

    /// What comes after the word, through the line end.
    pub fn response(&mut self, word: Word) -> Read<Response> {
        self.skip_spaces();
        let attributes = self.attributes()?;
        self.spaces()?;
        let delimiter = self.delimiter()?;
        self.spaces()?;
        let name = self.string()?;
        let has_space = self.skip_spaces();
        let tags = if has_space && self.sees(b'(') { self.tags()? } else { Vec::new() };
        self.skip_spaces();
        self.line_end()?;
        Ok(Response { word, attributes, delimiter, name, tags })
    }

    /// The bytes up to the line end, which is not taken.
    pub fn line(&self) -> &'t [u8] {
        let line = self.rest.split(|&byte| byte == b'\n').next().unwrap_or_default();
        line.strip_suffix(b"\r").unwrap_or(line)
    }

    /// The bytes of a literal whose header the cursor is at: "{" number ["+"] "}" line-end bytes. Where
    /// there is none the cursor stays, so that the lines after the header can be read.
    pub fn literal(&mut self) -> Read<&'t [u8]> {
        let header = self.line();
        let length = header_length(header);
        let length = length.ok_or("a literal starts with {, a number and } at the line end")?;
        let mut after = Cursor::new(&self.rest[header.len()..]);
        after.line_end()?;
        let (bytes, rest) = after.rest.split_at_checked(length).ok_or(NO_LITERAL)?;
        self.rest = rest;
        Ok(bytes)
    }

    fn sees(&self, byte: u8) -> bool {
        self.rest.first() == Some(&byte)
    }

    fn take(&mut self, byte: u8, missing: &'static str) -> Read<()> {
        self.rest = self.rest.strip_prefix(&[byte]).ok_or(missing)?;
        Ok(())
    }

    /// Whether there was one.
    fn skip_spaces(&mut self) -> bool {
        let count = self.rest.iter().take_while(|&&byte| byte == b' ').count();
        self.rest = &self.rest[count..];
        count > 0
    }

    fn spaces(&mut self) -> Read<()> {
        if self.skip_spaces() {
            Ok(())
        } else {
            Err("a space is missing")
        }
    }

    fn line_end(&mut self) -> Read<()> {
        let rest = self.rest.strip_prefix(b"\r").unwrap_or(self.rest);
        match rest {
            [] => self.rest = b"",
            [b'\n', rest @ ..] => self.rest = rest,
            _ => return Err("something stands where the line should end"),
        }
        Ok(())
    }

    fn attributes(&mut self) -> Read<Vec<Vec<u8>>> {
        self.take(b'(', "the attributes start with (")?;
        let mut attributes = Vec::new();
        loop {
            self.skip_spaces();
            if self.rest.is_empty() {
                return Err(CUT);
            }
            if self.sees(b')') {
                self.rest = &self.rest[1..];
                return Ok(attributes);
            }
            attributes.push(self.atom("an attribute is empty")?.to_vec());
        }
    }

    fn delimiter(&mut self) -> Read<Option<u8>> {
        const SHAPE: &str = "the delimiter is one byte in quotes, or NIL";
        if self.sees(b'"') {
            let delimiter = self.quoted()?;
            return match delimiter.as_slice() {
                [byte] => Ok(Some(*byte)),
                _ => Err(SHAPE),
            };
        }
        let word = self.atom(SHAPE)?;
        if word.eq_ignore_ascii_case(b"NIL") {
            Ok(None)
        } else {
            Err(SHAPE)
        }
    }

    /// A quoted string, a literal or an atom.
    fn string(&mut self) -> Read<Vec<u8>> {
        match self.rest.first() {
            Some(b'"') => self.quoted(),
            Some(b'{') => self.literal().map(<[u8]>::to_vec),
            _ => self.atom("the name is missing").map(<[u8]>::to_vec),
        }
    }

    /// Both quotes stand in one line.
    fn quoted(&mut self) -> Read<Vec<u8>> {
        const SHAPE: &str = "a quoted string ends with a quote in its line, and a backslash in it \
                             stands before a quote or a backslash";
        let line = self.line();
        let (bytes, rest) = read_quoted(line).ok_or(SHAPE)?;
        self.rest = &self.rest[line.len() - rest.len()..];
        Ok(bytes)
    }

    /// The longest run of bytes that neither part nor end anything. More than the grammar's atom
    /// bytes are taken, so that what is wrong with a name can be told by its name.
    fn atom(&mut self, missing: &'static str) -> Read<&'t [u8]> {
        let is_end = |byte: &u8| matches!(byte, b' ' | b'(' | b')' | b'{' | b'"' | b'\r' | b'\n');
        let length = self.rest.iter().take_while(|byte| !is_end(byte)).count();
        let (atom, rest) = self.rest.split_at(length);
        self.rest = rest;
        if atom.is_empty() {
            Err(missing)
        } else {
            Ok(atom)
        }
    }

    /// Extended data. Within it values nest; a tag is what stands first and after each whole value.
    fn tags(&mut self) -> Read<Vec<Vec<u8>>> {
        let mut tags = Vec::new();
        let (mut depth, mut is_tag) = (0_usize, true);
        loop {
            self.skip_spaces();
            match self.rest.first() {
                None | Some(b'\r' | b'\n') => return Err(CUT),
                Some(b'(') => {
                    self.rest = &self.rest[1..];
                    depth += 1;
                }
                Some(b')') => {
                    self.rest = &self.rest[1..];
                    depth -= 1;
                    match depth {
                        0 => return Ok(tags),
                        1 => is_tag = true,
                        _ => {}
                    }
                }
                Some(_) => {
                    let string = self.string()?;
                    if depth == 1 {
                        if is_tag {
                            tags.push(string);
                        }
                        is_tag = !is_tag;
                    }
                }
            }
        }
    }
}
