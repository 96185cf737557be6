//! Running a session and printing it.

use std::io::{self, Write};

use child::{Running, PATIENCE};
use formats::error::SessionError;
use formats::frames::Frame;
use formats::item::{Content, Item, Origin, Sent};
use formats::reply::Reply;
use formats::session::{own_command, EndCheck, Session};
use formats::sha256::Sum;
use formats::show::counted;
use formats::text::path_text;

use crate::data::End;
use crate::difference::Disagreement;
use crate::form::Form;
use crate::kept::Kept;
use crate::large::walk_large;
use crate::printer::{Part, Printer};
use crate::ran::{Programs, Ran};
use crate::report::{Came, Report};
use crate::second_program::Stored;
use crate::summary::RunSummary;
use crate::turn::Turn;

/// A session of more items shows its progress on standard error.
const LONG_SESSION: u64 = 2_000;
/// Items between two lines of progress, but no more lines than these.
const PROGRESS_STEP: u64 = 1_000;
const MOST_PROGRESS_LINES: u64 = 40;

/// Why a session was not run to its end.
#[derive(Debug)]
pub enum RunError {
    /// The session's lines could be read at first and cannot be any more.
    Session(SessionError),
    /// The program cannot be run, does not answer as a program of frames does, or reports that
    /// something failed.
    Program(io::Error),
    /// What is printed cannot be written.
    Output(io::Error),
}

/// Sends a session to a program and prints each item, with its answer if it has one, and at the end
/// what came of it all. What came of it is given too where it stopped before its end.
pub fn run_session(
    programs: impl Into<Programs>,
    session: &Session,
    form: Form,
    output: &mut impl Write,
) -> (RunSummary, Result<(), RunError>) {
    run_printing(programs.into(), session, Printer::new(output, form), None)
}

/// The same, and fills a report, be it one of a session that stopped.
pub fn run_reported(
    programs: impl Into<Programs>,
    session: &Session,
    form: Form,
    output: &mut impl Write,
    report: &mut Report,
) -> (RunSummary, Result<(), RunError>) {
    run_printing(programs.into(), session, Printer::new(output, form), Some(report))
}

fn run_printing(
    programs: Programs,
    session: &Session,
    printer: Printer<impl Write>,
    report: Option<&mut Report>,
) -> (RunSummary, Result<(), RunError>) {
    let mut summary = RunSummary::default();
    let result = run_items(programs, session, printer, &mut summary, report);
    (summary, result)
}

fn run_items(
    programs: Programs,
    session: &Session,
    printer: Printer<impl Write>,
    summary: &mut RunSummary,
    report: Option<&mut Report>,
) -> Result<(), RunError> {
    let send = session.sender().map_err(RunError::Session)?;
    *summary.ran_mut() = Ran::before(&programs);
    let running = Running::start(&programs.frames, PATIENCE, send).map_err(RunError::Program)?;
    let progress = Progress { done: 0, length: session.length };
    let (kept, stored) = (Kept::default(), Stored::default());
    let session_sum = session.sum();
    let mut run =
        Run { running, programs, session_sum, printer, kept, stored, summary, report, progress };
    let result = run.take_all(session).and_then(|()| run.check_end(session.end_check()));
    if let Some(report) = &mut run.report {
        report.record_end(&run.kept, &run.stored);
    }
    run.finish(result)
}

/// A session under way.
struct Run<'o, 's, W> {
    running: Running,
    programs: Programs,
    session_sum: Sum,
    printer: Printer<'o, W>,
    /// What the program keeps, and what the second program does.
    kept: Kept,
    stored: Stored,
    summary: &'s mut RunSummary,
    report: Option<&'s mut Report>,
    progress: Progress,
}

/// What is told of an answer beside it.
#[derive(Default)]
struct Annotations {
    /// Why it is a refusal.
    explanation: Option<String>,
    /// What an edit does.
    effect: Option<String>,
    /// What its reader does not see.
    hidden: Option<Vec<String>>,
    /// Where it is not the second program's.
    difference: Option<Disagreement>,
}

impl<W: Write> Run<'_, '_, W> {
    /// Prints what came of it all. Data has an end too where the session stopped before its own.
    fn finish(mut self, result: Result<(), RunError>) -> Result<(), RunError> {
        let result = match result {
            Ok(()) => {
                self.printer.print_summary(self.summary).map_err(RunError::Output)?;
                self.running.finish().map_err(RunError::Program)
            }
            stopped => stopped,
        };
        self.summary.ran_mut().look_again(&self.programs.frames);
        let stopped = match &result {
            Ok(()) => None,
            Err(RunError::Program(error)) => Some(error.to_string()),
            Err(RunError::Session(error)) => Some(error.to_string()),
            // Nothing more can be written.
            Err(RunError::Output(_)) => return result,
        };
        let (summary, kept, stored) = (&*self.summary, &self.kept, &self.stored);
        let (session_sum, stopped) = (self.session_sum, stopped.as_deref());
        let end = End { summary, kept, stored, session_sum, stopped };
        self.printer.print_end(end).map_err(RunError::Output)?;
        result
    }

    fn take_all(&mut self, session: &Session) -> Result<(), RunError> {
        for item in session.items().map_err(RunError::Session)? {
            self.take(&item.map_err(RunError::Session)?)?;
        }
        Ok(())
    }

    fn take(&mut self, item: &Item) -> Result<(), RunError> {
        let printer = &mut self.printer;
        match &item.content {
            Content::Comment(comment) => {
                if let Some(report) = &mut self.report {
                    report.record_comment(comment);
                }
                printer.print_comment(comment).map_err(RunError::Output)
            }
            Content::AsGiven => printer.print_order("as given").map_err(RunError::Output),
            Content::Sorted(count) => {
                let lines = counted(*count, "mailbox line", "mailbox lines");
                let text = format!("{lines}, put in the order of the bytes of their names");
                printer.print_order(&text).map_err(RunError::Output)
            }
            Content::Sent(sent) => self.exchange(item.line, sent),
        }
    }

    /// Asks whether the table and the namespace list pass, where the session does not; or reports that
    /// nobody can.
    fn check_end(&mut self, check: EndCheck) -> Result<(), RunError> {
        match check {
            EndCheck::Done => Ok(()),
            EndCheck::Own => {
                let sent = own_command();
                let frame = Frame::decode(&sent.frame.text).ok();
                self.printer.print_sent(&sent, Part::Own).map_err(RunError::Output)?;
                self.answer(Turn::Own, &sent, frame.as_ref())
            }
            EndCheck::Impossible => {
                let fault = self.stored.table_fault();
                let judged = fault.map_or("they pass".to_string(), |fault| fault);
                self.summary.report(format!(
                    "at the end: nobody asked whether the last rows and entries pass, since the \
                     last frame has no LF; by the second program, not proved: {judged}"
                ));
                Ok(())
            }
        }
    }

    /// Prints what is sent and what comes of it, counts both, and reports them.
    fn exchange(&mut self, line: u64, sent: &Sent) -> Result<(), RunError> {
        let whole = Some(&sent.frame).filter(|frame| !frame.is_cut);
        let frame = whole.and_then(|frame| Frame::decode(&frame.text).ok());
        let is_kept = self.kept.keep(frame.as_ref());
        self.stored.store(line, frame.as_ref());
        let part = if is_kept { Part::SetUp } else { Part::Exchange };
        self.summary.count_sent(frame.as_ref(), is_kept, sent.origin == Origin::LargeWalk);
        self.printer.print_sent(sent, part).map_err(RunError::Output)?;
        let turn = Turn::Line(line);
        if is_kept {
            self.take_reply(turn, sent, frame.as_ref(), None)?;
        } else {
            self.answer(turn, sent, frame.as_ref())?;
        }
        self.progress.count();
        Ok(())
    }

    /// Takes the answer to a frame that has one.
    fn answer(&mut self, turn: Turn, sent: &Sent, frame: Option<&Frame>) -> Result<(), RunError> {
        let reply = self.next_reply(sent, frame)?;
        self.take_reply(turn, sent, frame, Some(&reply))?;
        match reply {
            Reply::Unreadable(_) => Err(program_error("what it answers is no answer")),
            _ => Ok(()),
        }
    }

    fn take_reply(
        &mut self,
        turn: Turn,
        sent: &Sent,
        frame: Option<&Frame>,
        reply: Option<&Reply>,
    ) -> Result<(), RunError> {
        let told = self.told(sent, frame, reply);
        let explanation = told.explanation.as_deref();
        self.summary.count_reply((turn, sent), frame, reply, explanation);
        if reply.is_some_and(|reply| !matches!(reply, Reply::Unreadable(_))) {
            self.summary.count_compared(turn, told.difference.as_ref());
        }
        let stored = &self.stored;
        let (effect, hidden) = (told.effect.as_deref(), told.hidden.as_deref());
        let difference = told.difference.as_ref();
        let came =
            Came { turn, sent, frame, reply, explanation, effect, hidden, difference, stored };
        if let Some(report) = &mut self.report {
            report.record(&came);
        }
        self.printer.print_came(&came).map_err(RunError::Output)?;
        self.print_reply(sent, reply, &told).map_err(RunError::Output)
    }

    fn told(&mut self, sent: &Sent, frame: Option<&Frame>, reply: Option<&Reply>) -> Annotations {
        let Some(reply) = reply.filter(|reply| !matches!(reply, Reply::Unreadable(_))) else {
            return Annotations::default();
        };
        let second = self.stored.answer(sent);
        let difference = Disagreement::between(reply, &second.0);
        let mut told = Annotations { difference, ..Annotations::default() };
        match reply {
            Reply::Refused(number) => {
                told.explanation = Some(self.stored.explanation(sent, *number));
            }
            Reply::Lines(_) => {
                self.kept.follow(&sent.frame.text, frame);
                told.effect = self.stored.follow(frame, second);
                told.hidden = self.stored.hidden(frame);
            }
            Reply::Walked { .. } => told.hidden = self.stored.hidden(frame),
            Reply::Unreadable(_) => {}
        }
        told
    }

    fn print_reply(
        &mut self,
        sent: &Sent,
        reply: Option<&Reply>,
        told: &Annotations,
    ) -> io::Result<()> {
        self.printer.print_reply(sent, reply, told.explanation.as_deref())?;
        if let Some(effect) = &told.effect {
            self.printer.print_effect(effect)?;
        }
        if let Some(hidden) = &told.hidden {
            self.printer.print_hidden(hidden.clone())?;
        }
        match &told.difference {
            Some(difference) => self.printer.print_difference(difference),
            None => Ok(()),
        }
    }

    fn next_reply(&mut self, sent: &Sent, frame: Option<&Frame>) -> Result<Reply, RunError> {
        let line = match sent.origin {
            Origin::LargeWalk => self.walk_large(sent)?,
            _ => self.next_line()?,
        };
        self.printer.print_answer(sent, &line).map_err(RunError::Output)?;
        Ok(Reply::to_frame(&line, frame))
    }

    fn next_line(&mut self) -> Result<Vec<u8>, RunError> {
        let line = self.running.next_line().map_err(RunError::Program)?;
        let mut line = line.ok_or_else(|| program_error("no more answers"))?;
        line.pop_if(|byte| *byte == b'\n');
        Ok(line)
    }

    /// A walk by the library, over what the program of frames was sent and accepted so far.
    fn walk_large(&self, sent: &Sent) -> Result<Vec<u8>, RunError> {
        let walker = self.programs.walker.as_ref();
        let walker = walker.ok_or_else(|| program_error("there is no walker for walk large"))?;
        let failed = |error: io::Error| program_error(&format!("{}: {error}", path_text(walker)));
        let (rows, edits) = (self.kept.rows(), self.kept.edits());
        walk_large(walker, rows, edits, &sent.frame.text).map_err(failed)
    }
}

fn program_error(message: &str) -> RunError {
    RunError::Program(io::Error::other(message))
}

/// How far a long session is.
struct Progress {
    done: u64,
    length: u64,
}

impl Progress {
    fn count(&mut self) {
        self.done += 1;
        let step = PROGRESS_STEP.max(self.length / MOST_PROGRESS_LINES);
        if self.length > LONG_SESSION && self.done.is_multiple_of(step) {
            // Progress that nobody can read is no reason to stop.
            let _ = writeln!(io::stderr(), "{} of {} items", self.done, self.length);
        }
    }
}
