//! What `./verify` says: what is proved and what is trusted, by name and sum, and each night's verdict. No night is called
//! verified where anything is not proved.

use luspemaro::Verdict;
use session::html::{cell, code_cell, fact, table, Html};
use session::page_of;

use crate::account::verdict_text;
use crate::judge::{against, what_agrees};
use crate::night::{Account, Failure, Night};
use crate::page::{differences_html, facts_table, night_rows, verdict_html};
use crate::proof::{CrateProof, CrateState, FileSum, Proof, TRUSTED};

const VERIFIED: &str = "Verified: everything is proved, and every recorded answer is what the proved library answers now.";
const NOT_VERIFIED: &str = "Not verified.";

/// Status of a night that differs, of a wrong call or file, of a log that is refused, and of trouble or something that is
/// not proved.
const DIFFERS: u8 = 1;
const NOT_RUN: u8 = 2;
const REFUSED: u8 = 3;
const TROUBLE: u8 = 4;

/// A night and what came of it.
pub type ReplayedNight = (Night, Result<Account, Failure>);

/// All that was found.
pub struct Verified {
    pub proof: Proof,
    /// None was replayed where something is not proved.
    pub nights: Vec<ReplayedNight>,
    pub clock: String,
    pub tool: &'static str,
}

impl Verified {
    /// The worst of what was found.
    pub fn status(&self) -> u8 {
        // From the best to the worst.
        let order = [0, DIFFERS, REFUSED, NOT_RUN, TROUBLE];
        let of_proof = if self.proof.against().is_empty() { 0 } else { TROUBLE };
        let of_nights = self.nights.iter().map(|(_, replayed)| status_of(replayed));
        let worst = of_nights
            .chain([of_proof])
            .max_by_key(|status| order.iter().position(|one| one == status));
        worst.unwrap_or(TROUBLE)
    }

    /// What stands against calling it verified.
    fn against(&self) -> Vec<String> {
        let mut reasons: Vec<String> = self.proof.against();
        if self.nights.is_empty() {
            reasons.push("no night was replayed".to_string());
        }
        for (night, replayed) in &self.nights {
            let path = night.log_text();
            match replayed {
                Ok(account) => reasons
                    .extend(against(account).iter().map(|reason| format!("{path}: {reason}"))),
                Err(Failure::NotRun(why) | Failure::Trouble(why)) => {
                    reasons.push(format!("not replayed: {why}"))
                }
            }
        }
        reasons
    }

    /// What one night comes to: verified only where all is proved and nothing stands against it.
    fn word_of(&self, replayed: &Result<Account, Failure>) -> (bool, String) {
        match replayed {
            Err(Failure::NotRun(why) | Failure::Trouble(why)) => {
                (false, format!("not replayed: {why}"))
            }
            Ok(account) => {
                let verdict = verdict_text(account.followed.verdict);
                let is_well = self.proof.against().is_empty() && against(account).is_empty();
                (
                    is_well,
                    if is_well {
                        format!("verified: {verdict}")
                    } else {
                        format!("not verified: {verdict}")
                    },
                )
            }
        }
    }
}

/// Doubts beside the verdict, as a table that does not pass, count as a difference.
fn status_of(replayed: &Result<Account, Failure>) -> u8 {
    match replayed {
        Err(Failure::NotRun(_)) => NOT_RUN,
        Err(Failure::Trouble(_)) => TROUBLE,
        Ok(account) => match account.followed.verdict {
            Verdict::Refused(_) => REFUSED,
            Verdict::Differs(_) => DIFFERS,
            Verdict::Agree if against(account).is_empty() => 0,
            Verdict::Agree => DIFFERS,
        },
    }
}

/// The short form, for a terminal.
pub fn kit_text(verified: &Verified) -> String {
    let Verified { proof, nights, .. } = verified;
    let count = |state| proof.crates.iter().filter(|one| one.state == state).count();
    let [now, before, not] =
        [CrateState::Proved, CrateState::Unchanged, CrateState::NotProved].map(count);
    let all = proof.crates.len();
    let mut text = format!(
        "Crates     {all}: {now} proved in this run, {before} proved before and unchanged since, {not} not proved\n"
    );
    for CrateProof { name, sum, state } in &proof.crates {
        let label = if *state == CrateState::NotProved { "Not proved" } else { "Proved" };
        text += &format!("{label:11}{sum}  {name}\n");
    }
    text += &format!("Kit        {}\n", proof.kit);
    for FileSum { name, sum, .. } in &proof.sums {
        text += &format!("SHA-256    {sum}  {name}\n");
    }
    for (what, why) in TRUSTED {
        text += &format!("Trusted    {what}: {why}\n");
    }
    for (night, replayed) in nights {
        text += &format!("Night      {}: {}\n", night.log_text(), verified.word_of(replayed).1);
    }
    let reasons = verified.against();
    text += if reasons.is_empty() { VERIFIED } else { NOT_VERIFIED };
    text += "\n";
    text.extend(reasons.iter().map(|reason| format!("           {reason}\n")));
    text
}

/// The page.
pub fn kit_page(verified: &Verified) -> String {
    let title = "What was verified";
    let reasons = verified.against();
    let verdict = match reasons.as_slice() {
        [] => {
            let accounts =
                verified.nights.iter().filter_map(|(_, replayed)| replayed.as_ref().ok());
            let agreed: Vec<String> = accounts.map(what_agrees).collect();
            verdict_html(true, VERIFIED, &agreed)
        }
        reasons => verdict_html(false, NOT_VERIFIED, reasons),
    };
    let mut parts = vec![Html::of_text("h1", &[], title), verdict];
    parts.extend([proved_html(verified), trusted_html()]);
    let numbered = (1..).zip(&verified.nights);
    parts.extend(numbered.map(|(number, night)| night_html(verified, number, night)));
    page_of(title, parts)
}

fn proved_html(verified: &Verified) -> Html {
    let Proof { kit, rust, commit, crates, sums, .. } = &verified.proof;
    let or_not_known =
        |text: &Option<String>| text.clone().unwrap_or_else(|| "not known".to_string());
    let mut rows = vec![
        fact("clock", "Date by this machine's clock", &verified.clock),
        fact("kit", "The kit that proved", kit),
        fact("rust", "The Rust that built the tool", &or_not_known(rust)),
        fact("commit", "Version of the repository", &or_not_known(commit)),
        fact("tool", "This tool", &format!("version {}, not proved", verified.tool)),
    ];
    let sum_row = |one: &FileSum| {
        fact(&format!("{}-sum", one.id), &format!("SHA-256 of {}", one.name), &one.sum)
    };
    rows.extend(sums.iter().map(sum_row));
    let mut section = Html::of_text("h2", &[], "What is proved");
    section.push(facts_table(rows));
    let row = |one: &CrateProof| {
        let class = if one.state == CrateState::NotProved { "wrong" } else { "well" };
        let state = Html::of_text("span", &[("class", class)], one.state.text());
        let cells = [cell(&one.name), Html::element("td", &[], state), code_cell(&one.sum)];
        Html::element("tr", &[("data-crate", &one.name)], Html::joined(cells))
    };
    section.push(table(
        "crates",
        &["Crate", "State", "SHA-256 of its sources"],
        crates.iter().map(row),
    ));
    section
}

fn trusted_html() -> Html {
    let mut section = Html::of_text("h2", &[], "What is trusted, and not proved");
    let row = |(what, why): &(&str, &str)| {
        Html::element("tr", &[], Html::joined([cell(what), cell(why)]))
    };
    section.push(table("trusted", &["What", "Why it counts"], TRUSTED.iter().map(row)));
    section
}

fn night_html(verified: &Verified, number: usize, (night, replayed): &ReplayedNight) -> Html {
    let path = night.log_text();
    let mut section = Html::of_text("h2", &[], format!("The night {path}"));
    let (is_well, word) = verified.word_of(replayed);
    let class = if is_well { "well" } else { "wrong" };
    section.push(Html::of_text("p", &[("class", class), ("data-night", &path)], word));
    if let Ok(account) = replayed {
        section.push(facts_table(night_rows(account, &format!("night-{number}-"))));
        section.push(differences_html(account));
    }
    section
}
