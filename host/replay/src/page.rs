//! The account of a replay as a page: one file that loads nothing and runs nothing.

use formats::sha256::Sum;
use formats::show::{counted, show_table};
use formats::text::path_text;
use session::html::{cell, code_cell, fact, table, Html};
use session::{page_of, Matter};

use crate::account::{counts_text, numbers_text, shown_difference, verdict_text};
use crate::difference::Difference;
use crate::followed::{Now, SentCommand};
use crate::judge::{against, what_agrees};
use crate::night::Account;
use crate::second_program::UNPROVED;
use crate::start::LogStart;

const NOT_GIVEN: &str = "not given";
const NOT_KNOWN: &str = "not known";
const GREEN: &str = "Every recorded answer is what the proved library answers now.";
const NOT_GREEN: &str = "Not everything was checked or agreed.";
const BUILT: &str = "The library is the one that this repository's proof built.";
const NOT_BUILT: &str =
    "It is not known what built the library, so nothing here is the word of the proved one.";
const ABOUT: &str = "The verdict is the library's: it runs each command of the log again and compares what it answers with what \
                     was recorded. Reading the files and writing this page is not proved, nor are the explanations.";

/// Who built the library, as the call says it.
#[derive(Clone, Debug, Default)]
pub struct LibraryBuild {
    pub archive_sum: Option<String>,
    pub is_built_by_proof: bool,
    pub sources_sum: Option<String>,
    pub commit: Option<String>,
}

/// What a page names beside the night.
pub struct PageFacts {
    pub matter: Matter,
    /// From this machine's clock, and from the call.
    pub clock: String,
    pub date: Option<String>,
    pub origin: LibraryBuild,
    /// This tool's version and sum.
    pub tool: &'static str,
    pub tool_sum: Option<Sum>,
}

/// The page.
pub fn page(account: &Account, facts: &PageFacts) -> String {
    let title = "Replay of a night";
    let mut reasons = against(account);
    if !facts.origin.is_built_by_proof {
        reasons.push(NOT_BUILT.to_string());
    }
    let is_green = reasons.is_empty();
    if is_green {
        reasons = vec![what_agrees(account), BUILT.to_string()];
    }
    let text = if is_green { GREEN } else { NOT_GREEN };
    let parts = [
        Html::of_text("h1", &[], title),
        verdict_html(is_green, text, &reasons),
        facts_html(account, facts),
        differences_html(account),
        sent_html(account),
        end_html(account),
        Html::of_text("p", &[("class", "small")], ABOUT),
    ];
    page_of(&format!("{title}: {}", account.night.log_text()), parts)
}

/// A verdict with its reasons.
pub fn verdict_html(is_green: bool, text: &str, reasons: &[String]) -> Html {
    let class = if is_green { "well" } else { "wrong" };
    let item = |text: &String| Html::of_text("li", &[("data-reason", class)], text).and_line();
    Html::joined([
        Html::of_text("p", &[("class", class), ("id", "verdict")], text).and_line(),
        Html::element("ul", &[("class", "reasons")], Html::joined(reasons.iter().map(item))),
    ])
}

/// Rows of facts as a table.
pub fn facts_table(rows: Vec<Html>) -> Html {
    let rows = Html::joined(rows.into_iter().map(Html::and_line));
    Html::element("table", &[("class", "facts")], Html::element("tbody", &[], rows))
}

fn facts_html(account: &Account, facts: &PageFacts) -> Html {
    let or = |text: &Option<String>, otherwise: &str| {
        text.clone().unwrap_or_else(|| otherwise.to_string())
    };
    let PageFacts { matter, clock, date, origin, tool, tool_sum } = facts;
    let mut rows = vec![
        fact("case", "Case", &or(&matter.case, NOT_GIVEN)),
        fact("examiner", "Examiner", &or(&matter.examiner, NOT_GIVEN)),
        fact("exhibit", "Exhibit", &or(&matter.exhibit, NOT_GIVEN)),
    ];
    rows.extend(date.as_ref().map(|date| fact("date", "Date as given by the examiner", date)));
    rows.push(fact("clock", "Date by this machine's clock", clock));
    rows.extend(night_rows(account, ""));
    let built = if origin.is_built_by_proof { "this repository's proof" } else { NOT_KNOWN };
    let sum = tool_sum.map(|sum| sum.to_string());
    rows.extend([
        fact("archive-sum", "SHA-256 of the library", &or(&origin.archive_sum, NOT_KNOWN)),
        fact("built", "Who built it", built),
        fact("sources-sum", "SHA-256 of the proved sources", &or(&origin.sources_sum, NOT_KNOWN)),
        fact("commit", "Version of the repository", &or(&origin.commit, NOT_KNOWN)),
        fact("tool", "This tool, which wrote the page", &format!("version {tool}, not proved")),
        fact("tool-sum", "SHA-256 of this tool", &or(&sum, NOT_KNOWN)),
    ]);
    facts_table(rows)
}

/// What a night is: log, table, counts. The prefix keeps the rows of several nights of a page apart.
pub fn night_rows(account: &Account, prefix: &str) -> Vec<Html> {
    let Account { night, start, followed, log_sum, served, .. } = account;
    let fact = |id: &str, head: &str, text: &str| fact(&format!("{prefix}{id}"), head, text);
    let or_not_known = |sum: Option<Sum>| sum.map_or(NOT_KNOWN.to_string(), |sum| sum.to_string());
    let mut rows = vec![
        fact("replayed", "Verdict of the replay", &verdict_text(followed.verdict)),
        fact("log", "Log", &night.log_text()),
        fact("log-sum", "SHA-256 of the log", &or_not_known(*log_sum)),
        fact("counts", "What it has", &counts_text(&followed.counts)),
        fact("numbers", "Numbers of frames", &numbers_text(start.lines())),
    ];
    match (&start.from, &night.table) {
        (LogStart::File { sum, .. }, Some(path)) => {
            rows.push(fact("table", "Table", &path_text(path)));
            rows.push(fact("table-sum", "SHA-256 of its file", &or_not_known(*sum)));
        }
        _ => rows.push(fact("table", "Table", "the first lines of the log")),
    }
    rows.push(fact("rows-sum", "SHA-256 of its packed rows", &start.rows_sum().to_string()));
    if let Some((path, left_out)) = served {
        let text =
            left_out.as_ref().map_or("read".to_string(), |one| format!("left out: {}", one.why));
        rows.push(fact("served", "The server's own log", &format!("{}: {text}", path_text(path))));
    }
    rows.extend(followed.stop.as_ref().map(|stop| {
        let line = stop.frame + start.lines();
        let text = format!("frame {}, line {line}: {} ({UNPROVED})", stop.frame, stop.rule);
        fact("stop", "What stopped it", &text)
    }));
    rows
}

/// Each difference that is kept.
pub fn differences_html(account: &Account) -> Html {
    let followed = &account.followed;
    let mut section = Html::of_text("h2", &[], "Where the log differs");
    if followed.differences.is_empty() {
        section.push(Html::of_text("p", &[], "Nowhere, as far as it was replayed."));
        return section;
    }
    if !account.night.finds_all {
        section.push(Html::of_text("p", &[], "The first alone was looked for."));
    }
    section.push(Html::joined(followed.differences.iter().map(difference_html)));
    let more = followed.counts.differing - followed.differences.len() as u64;
    if more > 0 {
        section.push(Html::of_text("p", &[], format!("And {more} more, counted and not shown.")));
    }
    section
}

fn difference_html(difference: &Difference) -> Html {
    let (frame, mut parts) =
        (difference.frame.to_string(), shown_difference(difference).into_iter());
    let head = parts.next().map(|(_, lines)| lines.join(" ")).unwrap_or_default();
    let mut html = Html::of_text("h3", &[], head);
    for (label, lines) in parts {
        let label = if label.is_empty() { "and" } else { label };
        html.push(Html::of_text("p", &[("class", "small")], label));
        html.push(Html::of_text("pre", &[("data-part", label)], lines.join("\n")));
    }
    Html::element("section", &[("class", "exchange refused"), ("data-frame", &frame)], html)
        .and_line()
}

/// The commands of the night, by name and time.
fn sent_html(account: &Account) -> Html {
    let followed = &account.followed;
    let mut section = Html::of_text("h2", &[], "The commands of the night");
    if followed.sent.iter().all(|sent| sent.logged.is_none()) {
        section.push(Html::of_text(
            "p",
            &[],
            "No time is known: there is no log of the server that belongs to them.",
        ));
    }
    let heads = ["Frame", "Line", "Time", "From", "Command", "Recorded", "Now"];
    section.push(table("night", &heads, followed.sent.iter().map(sent_row)));
    let more = followed.counts.commands() - followed.sent.len() as u64;
    if more > 0 {
        let more = counted(more as usize, "command", "commands");
        section.push(Html::of_text(
            "p",
            &[],
            format!("After these came {more} more, run again and not listed."),
        ));
    }
    section
}

fn sent_row(sent: &SentCommand) -> Html {
    let SentCommand { frame, line, reader, word, recorded, now, logged } = sent;
    let (time, from) = match logged {
        Some(logged) => (logged.time.clone(), format!("{}, reader {reader}", logged.peer)),
        None => (String::new(), format!("reader {reader}")),
    };
    let (class, now) = match now {
        Now::Same => ("well", "the same"),
        Now::Differs => ("wrong", "differs"),
        Now::NotLookedAt => ("small", "not looked at"),
    };
    let cells = [
        cell(frame.to_string()),
        cell(line.to_string()),
        cell(time),
        cell(from),
        code_cell(word),
        cell(recorded),
        Html::element("td", &[], Html::of_text("span", &[("class", class)], now)),
    ];
    Html::element("tr", &[("data-sent", &frame.to_string())], Html::joined(cells))
}

/// The table at the end.
fn end_html(account: &Account) -> Html {
    let rows = account.followed.table.packed_rows();
    let mut section = Html::of_text("h2", &[], "The table at the end");
    let shown = show_table(&rows.concat());
    let lines: Vec<String> = shown.lines().map(|(_, line)| line.to_string()).collect();
    section.push(Html::of_text("pre", &[("id", "end")], lines.join("\n")));
    section
}
