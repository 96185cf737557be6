//! What `./verify` found of the proofs, as it hands it over: lines of words parted by tabs.
//!
//! | Line | What it says |
//! |---|---|
//! | `kit ID` | the identity of the kit that proved |
//! | `rust TEXT` | the Rust that built the tools |
//! | `commit TEXT` | the commit of the repository, and whether files differ from it |
//! | `crate NAME SUM STATE` | a crate, the sum of its sources, and `proved`, `unchanged` or `not-proved` |
//! | `sum ID NAME SUM` | the sum of another file that counts, with a word for it: the library, the program, the header, the tool |
//! | `trouble TEXT` | what is not as it must be |
//! | `end` | the last line: all was handed over |

/// What a crate is.
#[derive(Clone, Copy, Debug, PartialEq, Eq)]
pub enum CrateState {
    /// In this run.
    Proved,
    /// Before, and none of its files has changed since.
    Unchanged,
    NotProved,
}

/// A crate with the sum of its sources.
#[derive(Clone, Debug, PartialEq, Eq)]
pub struct CrateProof {
    pub name: String,
    pub sum: String,
    pub state: CrateState,
}

/// Another file that counts.
#[derive(Clone, Debug, PartialEq, Eq)]
pub struct FileSum {
    /// A word for the page's own markup.
    pub id: String,
    pub name: String,
    pub sum: String,
}

/// All of it.
#[derive(Clone, Debug, Default, PartialEq, Eq)]
pub struct Proof {
    pub kit: String,
    pub rust: Option<String>,
    pub commit: Option<String>,
    pub crates: Vec<CrateProof>,
    pub sums: Vec<FileSum>,
    pub troubles: Vec<String>,
}

impl CrateState {
    fn of_word(word: &str) -> Option<CrateState> {
        Some(match word {
            "proved" => CrateState::Proved,
            "unchanged" => CrateState::Unchanged,
            "not-proved" => CrateState::NotProved,
            _ => return None,
        })
    }

    pub fn text(self) -> &'static str {
        match self {
            CrateState::Proved => "proved in this run",
            CrateState::Unchanged => "proved before on this machine, unchanged since",
            CrateState::NotProved => "not proved",
        }
    }
}

impl Proof {
    /// What was handed over, or which line cannot be read. Lines that are missing are no proof.
    pub fn read(text: &str) -> Result<Proof, String> {
        let mut proof = Proof::default();
        let mut has_ended = false;
        for line in text.lines() {
            let words: Vec<&str> = line.split('\t').collect();
            let bad = || format!("what is proved cannot be read: {line}");
            match words.as_slice() {
                _ if has_ended => return Err(bad()),
                ["kit", kit] => proof.kit = kit.to_string(),
                ["rust", rust] => proof.rust = Some(rust.to_string()),
                ["commit", commit] => proof.commit = Some(commit.to_string()),
                ["crate", name, sum, state] => {
                    let state = CrateState::of_word(state).ok_or_else(bad)?;
                    proof.crates.push(CrateProof {
                        name: name.to_string(),
                        sum: sum.to_string(),
                        state,
                    });
                }
                ["sum", id, name, sum] => {
                    let [id, name, sum] = [id, name, sum].map(|word| word.to_string());
                    proof.sums.push(FileSum { id, name, sum });
                }
                ["trouble", trouble] => proof.troubles.push(trouble.to_string()),
                ["end"] => has_ended = true,
                _ => return Err(bad()),
            }
        }
        match has_ended {
            true => Ok(proof),
            false => Err("what is proved was not handed over whole".to_string()),
        }
    }

    /// What stands against it; nothing where every crate is proved.
    pub fn against(&self) -> Vec<String> {
        let mut reasons = self.troubles.clone();
        if self.kit.is_empty() {
            reasons.push("the kit has no identity".to_string());
        }
        if self.crates.is_empty() {
            reasons.push("no crate was looked at".to_string());
        }
        let not_proved: Vec<&str> = self
            .crates
            .iter()
            .filter(|one| one.state == CrateState::NotProved)
            .map(|one| one.name.as_str())
            .collect();
        if !not_proved.is_empty() {
            reasons.push(format!("not proved: {}", not_proved.join(", ")));
        }
        let without_sum = self.crates.iter().map(|one| (&one.name, &one.sum));
        let without_sum = without_sum.chain(self.sums.iter().map(|one| (&one.name, &one.sum)));
        let is_sum =
            |sum: &str| sum.len() == 64 && sum.bytes().all(|byte| byte.is_ascii_hexdigit());
        reasons.extend(
            without_sum
                .filter(|(_, sum)| !is_sum(sum))
                .map(|(name, _)| format!("{name} has no sum")),
        );
        reasons
    }
}

/// What is believed and not proved, by name.
pub const TRUSTED: [(&str, &str); 6] = [
    ("the prover and its axioms", "the kit's, by its identity above"),
    ("the compiler's back end, the linker and the machine", "they make the library of what was proved"),
    ("the kit's reads and writes", "the program of frames calls them; their contracts are assumed"),
    ("the tools in plain Rust", "./replay and ./verify read the files, lend the memory and write this page; ./serve wrote the record"),
    ("the second program", "it explains, and decides nothing"),
    ("the definitions", "that they say what documents 01 and 02 say is for a reader to judge: crates/listing_rules/specs"),
];

#[cfg(test)]
mod tests {
    use crate::proof::*;

    fn text(crates: &str) -> String {
        format!("kit\tk 1\ncommit\tc\n{crates}sum\tlibrary\tthe library\t{}\nend\n", "0".repeat(64))
    }

    #[test]
    fn every_crate_counts() {
        let sum = "a".repeat(64);
        let proof = |state: &str| {
            Proof::read(&text(&format!("crate\tone\t{sum}\tproved\ncrate\ttwo\t{sum}\t{state}\n")))
        };
        assert_eq!(proof("proved").expect("lines").against(), Vec::<String>::new());
        assert_eq!(proof("unchanged").expect("lines").against(), Vec::<String>::new());
        assert_eq!(proof("not-proved").expect("lines").against(), ["not proved: two"]);
        assert!(proof("perhaps").is_err());
    }

    #[test]
    fn what_is_missing_is_no_proof() {
        let sum = "a".repeat(64);
        let whole = text(&format!("crate\tone\t{sum}\tproved\n"));
        for count in 0..whole.lines().count() {
            let lines: String = whole.lines().take(count).map(|line| format!("{line}\n")).collect();
            assert!(Proof::read(&lines).is_err(), "{lines}");
        }
        assert!(Proof::read(&(whole.clone() + "crate\n")).is_err());
        assert_eq!(Proof::read(&text("")).expect("lines").against(), ["no crate was looked at"]);
        let cut = text(&format!("crate\tone\t{}\tproved\n", &sum[1..]));
        assert_eq!(Proof::read(&cut).expect("lines").against(), ["one has no sum"]);
        let trouble = text(&format!("crate\tone\t{sum}\tproved\ntrouble\tx\n"));
        assert_eq!(Proof::read(&trouble).expect("lines").against(), ["x"]);
    }
}
