//! The account of a replay as text. Its first line is the verdict.

use formats::frames::Frame;
use formats::show::{counted, Shown};
use formats::text::{line_text, path_text, shortened};
use luspemaro::Verdict;

use crate::difference::Difference;
use crate::followed::{Contradicted, Counts, Followed};
use crate::night::Account;
use crate::second_program::UNPROVED;
use crate::served::LeftOut;
use crate::start::LogStart;

/// Of the frame that stopped a log no more is shown.
const MOST_OF_FRAME: usize = 60;

/// The verdict in the words of the request.
pub fn verdict_text(verdict: Verdict) -> String {
    match verdict {
        Verdict::Agree => "agree".to_string(),
        Verdict::Differs(frame) => format!("differs {frame}"),
        Verdict::Refused(frame) => format!("refused 13 {frame}"),
    }
}

/// The whole account; with `has_table` the rows at the end as frames, one a line, after an empty line.
pub fn text(account: &Account, has_table: bool) -> String {
    let mut text = verdict_text(account.followed.verdict) + "\n";
    let mut show = |label, lines: Vec<String>| text += &Shown::new(label, lines).to_string();
    for (label, lines) in facts(account) {
        show(label, lines);
    }
    for (label, lines) in stop(account) {
        show(label, lines);
    }
    for difference in &account.followed.differences {
        text += "\n";
        for (label, lines) in shown_difference(difference) {
            text += &Shown::new(label, lines).to_string();
        }
    }
    text += &more_text(account);
    if has_table {
        text += "\n";
        text.extend(
            account
                .followed
                .table
                .packed_rows()
                .into_iter()
                .map(|row| String::from_utf8_lossy(&Frame::Row(row).encode()).into_owned() + "\n"),
        );
    }
    text
}

type Labelled = (&'static str, Vec<String>);

/// Where the log and its table come from, and what was run.
fn facts(account: &Account) -> Vec<Labelled> {
    let Account { night, start, faults, followed, served, .. } = account;
    let counts = &followed.counts;
    let mut facts = vec![("Log", vec![format!("{}: {}", night.log_text(), counts_text(counts))])];
    if counts.commands() == 0 {
        facts.push((
            "Nothing",
            vec!["no command was run again, so nothing was compared".to_string()],
        ));
    }
    facts.push(("Table", table_lines(account)));
    facts.push(("Numbers", vec![numbers_text(start.lines())]));
    let rows = counted(followed.table.count(), "row", "rows");
    let changed = counted(counts.changed as usize, "command", "commands");
    facts.push(("At the end", vec![format!("{rows}; {changed} changed one")]));
    let faults =
        faults.iter().map(|fault| ("Not passed", vec![fault.clone(), format!("({UNPROVED})")]));
    facts.extend(faults);
    if let Some((path, why)) = served {
        let path = path_text(path);
        let mut lines = vec![match why {
            Some(LeftOut { why, .. }) => format!("{path} is left out: {why}"),
            None => format!("{path} has the time of each command"),
        }];
        lines.extend(served_doubts(followed));
        facts.push(("Served", lines));
    }
    facts
}

/// What the server's log has otherwise than the record, if anything.
pub fn served_doubts(followed: &Followed) -> Vec<String> {
    let commands = |count: u64| counted(count as usize, "command", "commands");
    let Followed { unrecorded, contradicted: Contradicted { count, first }, .. } = followed;
    let more = (*unrecorded > 0)
        .then(|| format!("it has {} more, which this log has not", commands(*unrecorded)));
    let otherwise = first.as_ref().map(|(frame, recorded, logged)| {
        let commands = commands(*count);
        format!("it says otherwise of {commands}, first of frame {frame}: {logged}, where {recorded} is recorded")
    });
    more.into_iter().chain(otherwise).collect()
}

/// How many frames and commands.
pub fn counts_text(counts: &Counts) -> String {
    let Counts { frames, answered, refused, .. } = *counts;
    let (frames, commands) =
        (counted(frames as usize, "frame", "frames"), counts.commands() as usize);
    let commands = counted(commands, "command", "commands");
    format!("{frames}, {commands} run again, {answered} of them recorded as answered and {refused} as refused")
}

fn table_lines(account: &Account) -> Vec<String> {
    let start = &account.start;
    let rows = counted(formats::rows::split_rows(&start.rows).0.len(), "row", "rows");
    let entries = formats::namespaces::split_entries(&start.entries).0.len();
    let entries = counted(entries, "namespace entry", "namespace entries");
    let sum = start.rows_sum();
    let from = match (&start.from, &account.night.table) {
        (LogStart::Heading(0), _) => {
            "the log begins with no row and no entry, so the table is empty, as ./serve records an empty one".to_string()
        }
        (LogStart::Heading(lines), _) => format!("by the first {} of the log", counted(*lines as usize, "line", "lines")),
        (LogStart::File { .. }, Some(path)) => format!("by {}", path_text(path)),
        (LogStart::File { .. }, None) => String::new(),
    };
    let mut lines =
        vec![format!("{rows}, {entries}: {from}"), format!("SHA-256 of the packed rows {sum}")];
    if let LogStart::File { left_out: count @ 1.., .. } = start.from {
        let items = counted(count as usize, "item", "items");
        lines.push(format!("{items} of it, no rows and no entries, left out"));
    }
    lines
}

/// How frames are numbered, and which line is which.
pub fn numbers_text(lines: u64) -> String {
    match lines {
        0 => "frames count from 1, so the number of a frame is its line in the file".to_string(),
        _ => {
            let (before, first) = (counted(lines as usize, "line", "lines"), lines + 1);
            format!("frames count from 1 after the first {before} of the file, so frame 1 is line {first}")
        }
    }
}

/// Why the log was stopped, if it was, and what is to be done where it brings a table beside the one that is named.
fn stop(account: &Account) -> Vec<Labelled> {
    let Some(stop) = &account.followed.stop else {
        return Vec::new();
    };
    let line = stop.frame + account.start.lines();
    let place = format!("by frame {}, line {line} of the file: {}", stop.frame, stop.rule);
    let mut shown = vec![("Stopped", vec![place, format!("({UNPROVED})")])];
    if !stop.text.is_empty() {
        shown.push(("Frame", vec![shortened(&line_text(&stop.text), MOST_OF_FRAME)]));
    }
    let has_row = matches!(Frame::decode(&stop.text), Ok(Frame::Row(_) | Frame::Entry(_)));
    if has_row && stop.frame == 1 && account.night.table.is_some() {
        shown.push((
            "Hint",
            vec!["the log brings its own table: ./replay LOG, without TABLE, takes it".to_string()],
        ));
    }
    shown
}

/// A difference, each part with its label.
pub fn shown_difference(difference: &Difference) -> Vec<Labelled> {
    let Difference {
        frame,
        line,
        command,
        recorded,
        now,
        short,
        missing,
        too_much,
        explained,
        logged,
    } = difference;
    let mut shown =
        vec![("Differs", vec![format!("frame {frame}, line {line} of the file: {short}")])];
    shown.extend(command.iter().map(|(label, line)| (*label, vec![line.clone()])));
    if let Some(logged) = logged {
        let (time, connection, peer) = (&logged.time, &logged.connection, &logged.peer);
        shown.push((
            "Served",
            vec![format!("{time}, connection {connection}, {peer}: {}", logged.what)],
        ));
    }
    shown.push(("Recorded", recorded.clone()));
    shown.push(("Now", now.clone()));
    shown.extend(Some(("Missing", missing.clone())).filter(|(_, lines)| !lines.is_empty()));
    shown.extend(Some(("Too much", too_much.clone())).filter(|(_, lines)| !lines.is_empty()));
    if !explained.is_empty() {
        let marked = explained.iter().cloned().chain([format!("({UNPROVED})")]);
        shown.push(("Explained", marked.collect()));
    }
    shown
}

/// What is not shown of the differences.
fn more_text(account: &Account) -> String {
    let Followed { differences, counts, .. } = &account.followed;
    let more = counts.differing - differences.len() as u64;
    if more > 0 {
        format!("\nand {more} more that differ, counted and not shown\n")
    } else if !differences.is_empty() && !account.night.finds_all {
        "\nthe first difference alone was looked for; --all finds every one\n".to_string()
    } else {
        String::new()
    }
}
