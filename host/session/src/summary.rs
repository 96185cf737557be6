//! What came of a session: how much was sent and kept, what was refused, and whether the second program
//! answers the same.

use std::fmt;

use formats::frames::Frame;
use formats::item::{Origin, Sent};
use formats::reply::Reply;
use formats::show::{came_text, counted};

use crate::difference::Disagreement;
use crate::judged::Judged;
use crate::ran::Ran;
use crate::second_program::UNPROVED;
use crate::turn::Turn;

/// Of what is not as it should be no more is kept.
const MOST_TROUBLES: usize = 100;

/// What came of a session.
#[derive(Debug, Default)]
pub struct RunSummary {
    rows: Given,
    entries: Given,
    commands: usize,
    walks: usize,
    /// Of the walks, those by the library.
    large_walks: usize,
    /// Frames that are none of these.
    bad_frames: usize,
    refused: usize,
    /// Of those refused, the ones that said so.
    expected: usize,
    /// Items that were refused and did not say so, or that said so and were not.
    unexpected: usize,
    /// Answers, this tool's own command among them, and those that are not the second program's.
    answers: usize,
    differing: usize,
    /// What came of this tool's own command, if it was sent.
    own: Option<OwnCheck>,
    judged: Judged,
    /// What was run, as far as it is known.
    ran: Ran,
    /// All that is not as it should be, of which not all may be kept.
    troubled: usize,
    troubles: Vec<String>,
}

/// What came of this tool's own command.
#[derive(Clone, Copy, Debug, PartialEq, Eq)]
pub enum OwnCheck {
    /// The table and the namespace list pass.
    Passed,
    Refused(u8),
}

/// Frames that add to a table or list.
#[derive(Clone, Copy, Debug, Default)]
struct Given {
    given: usize,
    kept: usize,
}

/// What came of a frame beside what the session says of it.
#[derive(Clone, Copy, Debug, PartialEq, Eq)]
pub enum ItemVerdict {
    Answered,
    AsExpected,
    Refused,
    /// Refused otherwise than expected, or not at all.
    Unmet,
}

impl ItemVerdict {
    /// Of a row or an entry that was kept there is no reply.
    pub fn of(sent: &Sent, reply: Option<&Reply>) -> ItemVerdict {
        let number = match reply {
            Some(Reply::Refused(number)) => Some(*number),
            _ => None,
        };
        match (sent.expected.map(|refusal| refusal.number()), number) {
            (None, None) => ItemVerdict::Answered,
            (None, Some(_)) => ItemVerdict::Refused,
            (expected, number) if expected == number => ItemVerdict::AsExpected,
            _ => ItemVerdict::Unmet,
        }
    }
}

impl RunSummary {
    /// Whether each item was answered, or refused as it said, with the second program's answers, and
    /// the table was not left unjudged or refused at the end.
    pub fn is_all_answered(&self) -> bool {
        self.troubled == 0
    }

    /// Each count, with what it counts.
    pub fn counts(&self) -> [(&'static str, usize); 14] {
        [
            ("rows given", self.rows.given),
            ("rows kept", self.rows.kept),
            ("entries given", self.entries.given),
            ("entries kept", self.entries.kept),
            ("commands", self.commands),
            ("walks", self.walks),
            ("of these, large, by the library", self.large_walks),
            ("bad frames", self.bad_frames),
            ("refused", self.refused),
            ("of these, refused as expected", self.expected),
            ("not refused as expected", self.unmet()),
            ("own commands of this tool", usize::from(self.own.is_some())),
            ("answers compared with the second program", self.answers),
            ("of these, the same line by line", self.answers - self.differing),
        ]
    }

    /// How many frames of the session were sent.
    pub fn sent(&self) -> usize {
        self.rows.given + self.entries.given + self.commands + self.walks + self.bad_frames
    }

    /// How many answers were compared with the second program's, and how many of them differ.
    pub fn compared(&self) -> (usize, usize) {
        (self.answers, self.differing)
    }

    /// Items that were refused and did not say so, or that said so and were not.
    pub fn unexpected(&self) -> usize {
        self.unexpected
    }

    /// Walks by the library.
    pub fn large_walks(&self) -> usize {
        self.large_walks
    }

    pub fn ran(&self) -> &Ran {
        &self.ran
    }

    pub fn ran_mut(&mut self) -> &mut Ran {
        &mut self.ran
    }

    /// What came of this tool's own command, if it was sent.
    pub fn own_check(&self) -> Option<OwnCheck> {
        self.own
    }

    /// What the program has said of the table and the namespace list.
    pub fn judged(&self) -> Judged {
        self.judged
    }

    /// What is not as it should be, a line of text each, and how many more there are.
    pub fn troubles(&self) -> (&[String], usize) {
        (&self.troubles, self.troubled - self.troubles.len())
    }

    /// Counts what the session sent, or had walked by the library.
    pub fn count_sent(&mut self, frame: Option<&Frame>, is_kept: bool, is_large: bool) {
        self.large_walks += usize::from(is_large);
        match frame {
            Some(Frame::Row(_)) => self.rows.count(is_kept),
            Some(Frame::Entry(_)) => self.entries.count(is_kept),
            Some(Frame::Command { .. }) => self.commands += 1,
            Some(Frame::Walk { .. }) => self.walks += 1,
            None => self.bad_frames += 1,
        }
    }

    /// Counts what came of a frame, and keeps what is to be told of it.
    pub fn count_reply(
        &mut self,
        (turn, sent): (Turn, &Sent),
        frame: Option<&Frame>,
        reply: Option<&Reply>,
        explanation: Option<&str>,
    ) {
        // Of a large walk the library has looked at the table, and not the program.
        if sent.origin != Origin::LargeWalk {
            self.judged.take(frame, reply);
        }
        let verdict = ItemVerdict::of(sent, reply);
        let number = match reply {
            Some(Reply::Refused(number)) => Some(*number),
            _ => None,
        };
        match turn {
            Turn::Own => self.own = Some(number.map_or(OwnCheck::Passed, OwnCheck::Refused)),
            Turn::Line(_) => {
                self.refused += usize::from(number.is_some());
                self.expected += usize::from(verdict == ItemVerdict::AsExpected);
                self.unexpected +=
                    usize::from(matches!(verdict, ItemVerdict::Refused | ItemVerdict::Unmet));
            }
        }
        if matches!(verdict, ItemVerdict::Answered | ItemVerdict::AsExpected) {
            return;
        }
        let explained = explanation.map(|text| format!("; {text} ({UNPROVED})"));
        let came = came_text(reply) + &explained.unwrap_or_default();
        self.report(match sent.expected {
            Some(expected) => {
                let number = expected.number();
                format!("{turn}: refusal {number} was expected, and it was {came}")
            }
            None => format!("{turn}: {came}"),
        });
    }

    /// Counts an answer beside the second program's.
    pub fn count_compared(&mut self, turn: Turn, difference: Option<&Disagreement>) {
        self.answers += 1;
        if let Some(difference) = difference {
            self.differing += 1;
            self.report(format!("{turn}: the programs differ: {}", difference.short));
        }
    }

    /// Keeps a line of text on what is not as it should be.
    pub fn report(&mut self, text: String) {
        self.troubled += 1;
        if self.troubles.len() < MOST_TROUBLES {
            self.troubles.push(text);
        }
    }

    /// Items that said that they are refused and were not, or with another number.
    fn unmet(&self) -> usize {
        self.unexpected - (self.refused - self.expected)
    }
}

impl Given {
    fn count(&mut self, is_kept: bool) {
        self.given += 1;
        self.kept += usize::from(is_kept);
    }
}

/// In one line.
impl fmt::Display for RunSummary {
    fn fmt(&self, formatter: &mut fmt::Formatter) -> fmt::Result {
        let RunSummary { rows, entries, .. } = self;
        let kept = |given: &Given| format!("{} of {}", given.kept, given.given);
        let mut sent = vec![
            counted(self.commands, "command", "commands"),
            counted(self.walks, "walk", "walks"),
        ];
        if self.large_walks > 0 {
            sent.push(format!("{} of them large, by the library", self.large_walks));
        }
        if self.bad_frames > 0 {
            sent.push(counted(self.bad_frames, "bad frame", "bad frames"));
        }
        let mut refused = vec![format!("{} refused", self.refused)];
        if self.expected > 0 {
            refused.push(format!("{} of them as expected", self.expected));
        }
        if self.unmet() > 0 {
            refused.push(format!("{} not refused as expected", self.unmet()));
        }
        let kept = format!("{} rows and {} entries kept", kept(rows), kept(entries));
        write!(formatter, "{kept}; {}; {}", sent.join(", "), refused.join(", "))?;
        match self.own {
            None => {}
            Some(OwnCheck::Passed) => write!(formatter, "; own check passed")?,
            Some(OwnCheck::Refused(number)) => {
                write!(formatter, "; own check refused with {number}")?;
            }
        }
        match self.differing {
            0 => Ok(()),
            count => write!(formatter, "; {count} not as the second program answers"),
        }
    }
}
