//! Printing a session: as text, or as the frames and answers that were sent.

use std::io::{self, Write};

use formats::item::{Origin, Sent};
use formats::reply::Reply;
use formats::show::{came_text, refusal_text, show_reply, show_sent, shown_start, Shown};
use formats::text::line_text;

use crate::data::{Data, End, Remark};
use crate::difference::{Disagreement, SECOND};
use crate::form::Form;
use crate::report::Came;
use crate::second_program::UNPROVED;
use crate::summary::{ItemVerdict, RunSummary};
use crate::turn::OWN;

/// What an item is to whoever reads the session.
#[derive(Clone, Copy, Debug, PartialEq, Eq)]
pub enum Part {
    Comment,
    /// A row or an entry that is added and not answered, or what is told of their order.
    SetUp,
    /// A frame that is answered.
    Exchange,
    /// This tool's own command, and its answer.
    Own,
}

pub struct Printer<'o, W> {
    output: &'o mut W,
    form: Form,
    data: Data,
    previous: Option<Part>,
}

impl<'o, W: Write> Printer<'o, W> {
    pub fn new(output: &'o mut W, form: Form) -> Printer<'o, W> {
        Printer { output, form, data: Data::new(form), previous: None }
    }

    pub fn print_comment(&mut self, comment: &str) -> io::Result<()> {
        self.start_part(Part::Comment)?;
        match self.form {
            Form::Text => writeln!(self.output, "{comment}"),
            _ => self.output.write_all(self.data.remark(Remark::Comment(comment)).as_bytes()),
        }
    }

    /// What is told of the order of the rows. Frames have no text beside them, so it is told on
    /// standard error then.
    pub fn print_order(&mut self, text: &str) -> io::Result<()> {
        self.start_part(Part::SetUp)?;
        if self.form == Form::Frames {
            // The frames show it too.
            let _ = writeln!(io::stderr(), "{text}");
        }
        self.output.write_all(self.data.remark(Remark::Order(text)).as_bytes())?;
        self.print_shown(&Shown::one_line("Order", text.to_string()))
    }

    pub fn print_sent(&mut self, sent: &Sent, part: Part) -> io::Result<()> {
        self.start_part(part)?;
        let own = Some("own").filter(|_| part == Part::Own);
        if self.form != Form::Frames {
            return self.print_shown(&match own {
                Some(_) => show_own(sent),
                None => show_sent(sent),
            });
        }
        let Sent { frame, length, .. } = sent;
        let text = match sent.is_overlong() {
            true => shown_start(&frame.text, *length),
            false => line_text(&frame.text),
        };
        writeln!(self.output, "{}> {text}", own.unwrap_or_else(|| frame_mark(sent)))
    }

    /// An answer line as it was sent.
    pub fn print_answer(&mut self, sent: &Sent, line: &[u8]) -> io::Result<()> {
        match self.form {
            Form::Frames => {
                let own = Some("own").filter(|_| self.previous == Some(Part::Own));
                let mark = own.unwrap_or_else(|| frame_mark(sent));
                writeln!(self.output, "{mark}< {}", line_text(line))
            }
            _ => Ok(()),
        }
    }

    /// An answer as text, with what explains a refusal and what was expected.
    pub fn print_reply(
        &mut self,
        sent: &Sent,
        reply: Option<&Reply>,
        explanation: Option<&str>,
    ) -> io::Result<()> {
        let verdict = ItemVerdict::of(sent, reply);
        match reply {
            Some(Reply::Refused(number)) if verdict == ItemVerdict::AsExpected => {
                let text = format!("{} (as expected)", refusal_text(*number));
                self.print_shown(&Shown::one_line("Refused", text))?;
            }
            Some(reply) => self.print_shown(&show_reply(reply))?,
            None => {}
        }
        if let Some(text) = explanation {
            let lines = vec![text.to_string(), format!("({UNPROVED})")];
            self.print_shown(&Shown::new("Explained", lines))?;
        }
        match sent.expected {
            Some(expected) if verdict == ItemVerdict::Unmet => {
                let text = format!("{expected}; and it was {}", came_text(reply));
                self.print_shown(&Shown::one_line("Expected", text))
            }
            _ => Ok(()),
        }
    }

    /// What an edit that was answered does.
    pub fn print_effect(&mut self, text: &str) -> io::Result<()> {
        let lines = vec![text.to_string(), format!("({UNPROVED})")];
        self.print_shown(&Shown::new("Effect", lines))
    }

    /// What was hidden from the reader of a command or a walk that was answered.
    pub fn print_hidden(&mut self, mut lines: Vec<String>) -> io::Result<()> {
        lines.push(format!("({UNPROVED})"));
        self.print_shown(&Shown::new("Hidden", lines))
    }

    /// Where an answer is not the second program's.
    pub fn print_difference(&mut self, difference: &Disagreement) -> io::Result<()> {
        let Disagreement { short, lines } = difference;
        let short = format!("from the second program: {short}");
        let lines = [vec![short], lines.clone(), vec![format!("({SECOND})")]].concat();
        self.print_shown(&Shown::new("Differs", lines))
    }

    /// What was sent and what came of it, in the forms that are data.
    pub fn print_came(&mut self, came: &Came) -> io::Result<()> {
        self.output.write_all(self.data.came(came).as_bytes())
    }

    /// What came of the session, in the forms that are data.
    pub fn print_end(&mut self, end: End) -> io::Result<()> {
        self.output.write_all(self.data.end(end).as_bytes())
    }

    /// The last line of the text.
    pub fn print_summary(&mut self, summary: &RunSummary) -> io::Result<()> {
        if self.form == Form::Text && self.previous.is_some() {
            writeln!(self.output)?;
        }
        self.print_shown(&Shown::one_line("Summary", summary.to_string()))
    }

    /// Prints an empty line where a new part starts. A comment stays with what follows it.
    fn start_part(&mut self, part: Part) -> io::Result<()> {
        let starts_part = self.previous != Some(part) || part == Part::Exchange;
        let follows_comment = self.previous.is_none_or(|previous| previous == Part::Comment);
        self.previous = Some(part);
        if self.form == Form::Text && starts_part && !follows_comment {
            writeln!(self.output)?;
        }
        Ok(())
    }

    /// Frames alone have no text beside them.
    fn print_shown(&mut self, shown: &Shown) -> io::Result<()> {
        match self.form {
            Form::Text => write!(self.output, "{shown}"),
            _ => Ok(()),
        }
    }
}

/// This tool's own command, and what it is for.
fn show_own(sent: &Sent) -> Shown {
    let command = show_sent(sent).lines().map(|(_, line)| line.to_string()).collect();
    Shown::new("Own check", [command, vec![format!("({OWN})")]].concat())
}

/// Before the marks of frames that the program was not sent and did not answer, but the library.
fn frame_mark(sent: &Sent) -> &'static str {
    match sent.origin {
        Origin::LargeWalk => "library",
        _ => "",
    }
}
