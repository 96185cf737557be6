//! One exchange of a report: what was sent, what it saw, and why.

use formats::frames::Frame;
use formats::item::{Origin, Sent};
use formats::reply::Reply;
use formats::show::{beside_line, came_text, refusal_text, show_sent, BY_LIBRARY};
use formats::text::line_text;

use crate::difference::{Disagreement, SECOND};
use crate::report::html::{cell, table, Html};
use crate::report::walk::{purpose_text, Walk};
use crate::second_program::{Explained, Stored, UNPROVED};
use crate::summary::ItemVerdict;
use crate::turn::{Turn, OWN};

/// What was sent and what came of it.
pub struct Came<'c> {
    pub turn: Turn,
    pub sent: &'c Sent,
    /// None where it cannot be read.
    pub frame: Option<&'c Frame>,
    /// None where a row or an entry was kept.
    pub reply: Option<&'c Reply>,
    pub explanation: Option<&'c str>,
    pub effect: Option<&'c str>,
    pub hidden: Option<&'c [String]>,
    /// Where the answer is not the second program's.
    pub difference: Option<&'c Disagreement>,
    /// What was stored when it answered a command that is no edit.
    pub stored: &'c Stored,
}

impl Came<'_> {
    /// Whether there is more to show than a row or an entry that was kept.
    pub fn is_shown(&self) -> bool {
        self.reply.is_some() || self.verdict() == ItemVerdict::Unmet
    }

    fn verdict(&self) -> ItemVerdict {
        ItemVerdict::of(self.sent, self.reply)
    }

    pub fn kind(&self) -> &'static str {
        match self.frame {
            _ if self.turn == Turn::Own => "own command of this tool",
            Some(Frame::Walk { .. }) if self.sent.origin == Origin::LargeWalk => "walk large",
            Some(Frame::Row(_)) => "mailbox",
            Some(Frame::Entry(_)) => "namespace",
            Some(Frame::Command { .. }) => "command",
            Some(Frame::Walk { .. }) => "walk",
            None => "bad frame",
        }
    }
}

/// The line of the session, or that it is this tool's own command.
fn turn_word(turn: Turn) -> String {
    match turn {
        Turn::Line(line) => line.to_string(),
        Turn::Own => "end".to_string(),
    }
}

/// The cell that leads to an exchange.
fn link_cell(turn: Turn) -> Html {
    let word = turn_word(turn);
    let target = format!("#line-{word}");
    Html::element("td", &[], Html::of_text("a", &[("href", &target)], &word))
}

/// An answer that is not the second program's, for the list of them all.
pub struct Differing {
    turn: Turn,
    difference: Disagreement,
}

impl Differing {
    pub fn of(came: &Came) -> Option<Differing> {
        came.difference
            .map(|difference| Differing { turn: came.turn, difference: difference.clone() })
    }

    pub fn html(&self) -> Html {
        let cells =
            [link_cell(self.turn), Html::element("td", &[], difference_html(&self.difference))];
        Html::element("tr", &[("data-differs", &turn_word(self.turn))], Html::joined(cells))
    }
}

/// How an answer differs, with each line that is missing or added.
fn difference_html(Disagreement { short, lines }: &Disagreement) -> Html {
    let item = |line: &String| {
        let code = Html::of_text("code", &[], line);
        Html::element("li", &[("data-difference", line)], code)
    };
    let list = match lines.as_slice() {
        [] => Html::default(),
        lines => Html::element("ul", &[], Html::joined(lines.iter().map(item))),
    };
    Html::joined([Html::of_text("span", &[("class", "wrong")], short), list])
}

/// A refusal, for the list of them all.
pub struct Refused {
    turn: Turn,
    number: u8,
    explanation: String,
    expected: &'static str,
}

impl Refused {
    pub fn of(came: &Came) -> Option<Refused> {
        let Some(Reply::Refused(number)) = came.reply else {
            return None;
        };
        let expected = match (came.sent.expected, came.verdict()) {
            (None, _) => "no",
            (Some(_), ItemVerdict::AsExpected) => "yes",
            (Some(_), _) => "another number",
        };
        let explanation = came.explanation.map(explained_text).unwrap_or_default();
        Some(Refused { turn: came.turn, number: *number, explanation, expected })
    }

    pub fn html(&self) -> Html {
        let (line, number) = (turn_word(self.turn), self.number.to_string());
        let cells = [
            link_cell(self.turn),
            cell(refusal_text(self.number)),
            cell(&self.explanation),
            cell(self.expected),
        ];
        let attributes: [(&str, &str); 2] = [("data-line", &line), ("data-number", &number)];
        Html::element("tr", &attributes, Html::joined(cells))
    }
}

/// The whole exchange.
pub fn exchange_html(came: &Came) -> Html {
    let (line, kind) = (turn_word(came.turn), came.kind());
    let id = format!("line-{line}");
    let class = match (came.reply, came.verdict()) {
        _ if came.difference.is_some() => "exchange refused",
        (_, ItemVerdict::AsExpected) => "exchange expected",
        (Some(Reply::Refused(_)), _) | (_, ItemVerdict::Unmet) => "exchange refused",
        _ => "exchange",
    };
    let head = match came.turn {
        Turn::Line(line) => format!("Line {line}: {kind}{}", sender_text(came)),
        Turn::Own => format!("At the end: {kind}{}", sender_text(came)),
    };
    let mut html = Html::of_text("h3", &[], head);
    html.push(sent_html(came));
    html.push(reply_html(came));
    html.push(beside_html(came));
    let attributes: [(&str, &str); 4] =
        [("class", class), ("id", &id), ("data-line", &line), ("data-kind", kind)];
    Html::element("section", &attributes, html).and_line()
}

/// What is told beside an answer.
fn beside_html(came: &Came) -> Html {
    let mut html = Html::default();
    let mut small = |text: String| html.push(Html::of_text("p", &[("class", "small")], text));
    if came.turn == Turn::Own {
        small(format!("This command was {OWN}."));
    }
    if let Some(text) = came.explanation {
        small(explained_text(text));
    }
    if let Some(text) = came.effect {
        small(format!("Effect: {}", explained_text(text)));
    }
    if let Some(lines) = came.hidden {
        small(format!("Hidden {}", explained_text(&lines.join("; "))));
    }
    if let (Some(expected), ItemVerdict::Unmet) = (came.sent.expected, came.verdict()) {
        let text = format!("Expected was {expected}; and it was {}.", came_text(came.reply));
        html.push(Html::of_text("p", &[("class", "wrong")], text));
    }
    if let Some(difference) = came.difference {
        let head = format!("The second program answers otherwise ({SECOND}): ");
        let content = Html::joined([Html::text(head), difference_html(difference)]);
        html.push(Html::element("div", &[("class", "differs")], content));
    }
    html
}

fn sender_text(came: &Came) -> String {
    let reader = came.frame.and_then(Frame::reader);
    reader.map(|reader| format!(", from reader {reader}")).unwrap_or_default()
}

fn sent_html(came: &Came) -> Html {
    if let Some(Frame::Walk { option, .. }) = came.frame {
        let by = match came.sent.origin {
            Origin::LargeWalk => format!(" It was made by {BY_LIBRARY}."),
            _ => String::new(),
        };
        return Html::of_text("p", &[("class", "purpose")], purpose_text(*option) + &by);
    }
    let shown = show_sent(came.sent);
    // Who sends it stands above.
    let lines: Vec<String> = shown
        .lines()
        .filter(|(label, _)| *label != "From")
        .map(|(_, line)| line.to_string())
        .collect();
    Html::of_text("pre", &[("class", "sent")], lines.join("\n"))
}

fn reply_html(came: &Came) -> Html {
    match came.reply {
        None => Html::default(),
        Some(Reply::Lines(answer)) => {
            let lines = came.stored.explained_lines(came.frame, answer);
            table("answer", &["Line", "Why it is there"], lines.iter().map(line_html))
        }
        Some(Reply::Walked { count, found }) => Walk { count: *count, found }.html(),
        Some(Reply::Refused(number)) => {
            let text = format!("Refused with {}", refusal_text(*number));
            let (class, text) = match came.verdict() {
                ItemVerdict::AsExpected => ("as-expected", text + ", as expected"),
                _ => ("wrong", text),
            };
            let number = number.to_string();
            let attributes: [(&str, &str); 2] = [("class", class), ("data-refused", &number)];
            Html::of_text("p", &attributes, text)
        }
        Some(Reply::Unreadable(line)) => {
            let text = format!("What it answers is no answer: {}", line_text(line));
            Html::of_text("p", &[("class", "wrong")], text)
        }
    }
}

fn line_html(explained: &Explained) -> Html {
    let Explained { line, why } = explained;
    let text = line_text(line);
    let content = [Html::of_text("code", &[], &text), Html::text(beside_line(line))];
    let line = Html::element("td", &[("data-answer", &text)], Html::joined(content));
    let why = match why {
        Some(why) => Html::of_text("td", &[("data-why", why.kind.word())], &why.text),
        None => cell(""),
    };
    Html::element("tr", &[], Html::joined([line, why]))
}

/// What explains something, with whose word it is.
fn explained_text(text: &str) -> String {
    format!("{text} ({UNPROVED})")
}
