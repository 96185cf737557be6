//! The grammar of the search: it gives lawful commands and tables only, and they are written so that they are read again.

use bench::changes::{changed, some_hostile};
use bench::hostile::{most_rows, read_all, Hostile, KINDS, KNOWN, WORDS, WORST};
use bench::runs::Runs;
use bench::search::{search, Budget, KEPT};
use compare::library::both::{Asked, Mailboxes, ANSWER, PROVED, SECOND};
use compare::random::Random;

/// Random commands, and changes of each.
const STARTS: u64 = 60;
const CHANGES: usize = 20;
/// A command is asked over so few rows, since it may take long; its table is checked whole.
const FEW_ROWS: usize = 3;
/// Any answer has fewer bytes.
const ANSWER_SIZE: usize = 1_572_864;

/// Gives each command of the grammar that the test tries.
fn for_each_tried(mut look: impl FnMut(&Hostile)) {
    for seed in 0..STARTS {
        let mut random = Random::of("grammar", seed);
        let mut hostile = some_hostile(&mut random);
        for _ in 0..CHANGES {
            look(&hostile);
            hostile = changed(&hostile, &mut random);
        }
    }
}

/// What a library answers to a line over the rows of a command, or the number that it refuses with.
fn asked(who: usize, hostile: &Hostile, line: &[u8]) -> Result<Vec<u8>, u8> {
    let mut out = vec![0; ANSWER_SIZE];
    let mut mailboxes = Mailboxes::new(hostile.layout());
    let given = ANSWER[who](&mut mailboxes, Asked::by_0(line), &mut out)?;
    out.truncate(given.length);
    Ok(out)
}

#[test]
fn tables_and_lines_are_lawful() {
    for_each_tried(|hostile| {
        assert_eq!(asked(SECOND, hostile, b"a NAMESPACE\r\n").err(), None, "{hostile}");
        let few = Hostile { rows: hostile.rows.min(FEW_ROWS), ..hostile.clone() };
        let answers = [PROVED, SECOND].map(|who| asked(who, &few, &few.line()));
        assert_eq!(answers[SECOND].as_ref().err(), None, "{hostile}");
        assert_eq!(answers[PROVED], answers[SECOND], "{hostile}");
    });
}

#[test]
fn the_same_seed_gives_the_same_commands() {
    let [one, other] = [(); 2].map(|()| {
        let mut all = Vec::new();
        for_each_tried(|hostile| all.push(hostile.to_string()));
        all
    });
    assert_eq!(one, other);
}

#[test]
fn what_is_written_is_read_again() {
    for_each_tried(|hostile| {
        assert_eq!(Hostile::read(&hostile.to_string()).as_ref(), Some(hostile));
    });
}

#[test]
fn the_files_have_commands() {
    let known = read_all(KNOWN).expect("lines");
    let worst = read_all(WORST).expect("lines");
    assert!(known.len() >= 4 && worst.len() <= KEPT);
    for hostile in known.iter().chain(&worst) {
        assert_eq!(asked(SECOND, hostile, b"a NAMESPACE\r\n").err(), None, "{hostile}");
    }
}

#[test]
fn the_grammar_has_every_word_and_kind() {
    let (mut words, mut kinds, mut counts) = (Vec::new(), Vec::new(), Vec::new());
    for_each_tried(|hostile| {
        words.push(hostile.word);
        kinds.push(hostile.kind.0);
        counts.push(hostile.patterns.len());
    });
    assert!(WORDS.iter().all(|word| words.contains(word)));
    assert!(KINDS.iter().all(|(kind, _)| kinds.contains(kind)));
    assert!((1..=8).all(|count| counts.contains(&count)));
}

/// A line of a file, and whether it is a command.
const LINES: [(&str, bool); 16] = [
    ("LIST; *%{160}a{90}; b% b%; 163; exists; #a{167}(/a){15}", true),
    ("LIST; ; *; 512; both; #", true),
    ("LSUB; a; %; 512; subscribed; #", true),
    ("LSUB; a; % %; 512; subscribed; #", false),
    ("LIST; *%{160}a{95}; b%; 163; exists; #", false),
    ("LIST; ; %{254}b; 512; exists; #", true),
    ("LIST; ; %{255}b; 512; exists; #", false),
    ("LIST; ; * * * * * * * * *; 512; exists; #", false),
    ("LIST; ; *; 513; exists; #", false),
    ("LIST; ; *; 163; exists; #a{197}", true),
    ("LIST; ; *; 164; exists; #a{197}", false),
    ("LIST; ; *; 9; exists; #a{198}", false),
    ("LIST; ; *; 9; exists; #(/a){16}", false),
    ("LIST; ; *; 9; exists; a{9}", false),
    ("LIST; ; *; 9; exists; #/", false),
    ("LIST (RECURSIVEMATCH); ; *; 9; exists; #", false),
];

#[test]
fn lines_of_a_file() {
    for (line, is_command) in LINES {
        assert_eq!(Hostile::read(line).is_some(), is_command, "{line}");
    }
}

#[test]
fn runs_are_read_and_written() {
    for text in ["", "a", "%{160}", "(/a){15}", "*%{2}(ab)#(/abb){3}b"] {
        assert_eq!(Runs::read(text).map(|runs| runs.to_string()).as_deref(), Some(text));
    }
    for text in ["a{0}", "a{", "a{x}", "a{256}", "(a", "()", "a;", "a b", "\"", "\\"] {
        assert_eq!(Runs::read(text), None, "{text}");
    }
    let runs = Runs::read("a{2}(/b){2}#").expect("runs");
    assert_eq!((runs.text().as_str(), runs.name(7).as_str()), ("aa/b/b#", "aa/b/b007"));
    assert_eq!(runs.name_length(), 9);
    assert_eq!(most_rows(&runs), 512);
}

/// The steps of the first known command for each of its rows when it was found: what it takes now is no more.
const STEPS_A_ROW: u64 = 3_044_432;

#[test]
fn a_known_command_takes_no_more_steps() {
    let known = read_all(KNOWN).expect("lines");
    let few = Hostile { rows: FEW_ROWS, ..known[0].clone() };
    assert!(few.steps() > 0 && few.estimated_steps() > 0.0);
    assert!(few.steps() <= STEPS_A_ROW * FEW_ROWS as u64, "{} steps", few.steps());
}

#[test]
fn a_short_search() {
    let known = [Hostile::read("LIST; *a{20}; b%; 500; exists; #a{20}(/a){3}").expect("a command")];
    let budget = Budget { seed: 3, seconds: 2.0, trials: 3 };
    let (found, tried) = search(&known, budget).expect("no difference");
    assert!(!found.is_empty() && found.len() <= KEPT && tried > 0);
    assert!(found.iter().all(|taken| taken.hostile.is_lawful() && taken.seconds > 0.0));
}
