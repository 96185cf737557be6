//! The generator of records: what it lays out passes, and it breaks every rule, often by one cause
//! alone.

use compare::random::Random;
use compare::records::{laid_out, overlapping, some_layout, Layout};
use compare::tables::{good_table, table_bytes, NewRow};
use second::table::checked_rows;
use second::{check_table, Table};

use crate::reached::Reached;

const SEEDS: std::ops::Range<u64> = 0..4_000;
const OVERLAP: &str = "names do not overlap";

/// The rule that a layout breaks, or what passes is said to break none.
fn rule_of(layout: &Layout) -> &'static str {
    checked_rows(Table::Records(layout.as_records())).map_or_else(|fault| fault.rule, |_| "none")
}

/// The rules that the layouts of one generator break, over so many rows each.
fn rules_of(name: &str, count: usize, generator: fn(&mut Random, &[NewRow]) -> Layout) -> Reached {
    let mut rules = Reached::default();
    for seed in SEEDS {
        let mut random = Random::of(name, seed);
        let rows = good_table(&mut random, count);
        rules.add(rule_of(&generator(&mut random, &rows)));
    }
    rules
}

#[test]
fn lawful_layouts_pass() {
    let (mut in_order, mut with_gaps) = (0, 0);
    for seed in SEEDS {
        let mut random = Random::of("lawful layouts", seed);
        let rows = good_table(&mut random, 12);
        let layout = laid_out(&mut random, &rows);
        assert_eq!(rule_of(&layout), "none", "seed {seed}");
        let held = &layout.records[..layout.count];
        in_order += usize::from(held.is_sorted_by_key(|record| record.start));
        let used: usize = held.iter().map(|record| usize::from(record.len)).sum();
        with_gaps += usize::from(used < layout.area.len());
        let in_place = Layout::of_packed(&table_bytes(&rows)).expect("rows that fill it");
        assert!(check_table(Table::Records(in_place.as_records())), "seed {seed}");
    }
    let total = SEEDS.end as usize;
    assert!(total / 10 < in_order && in_order < total / 2, "{in_order}");
    assert!(total / 3 < with_gaps && with_gaps < total, "{with_gaps}");
}

/// Names that share bytes are refused for that alone; those side by side pass.
#[test]
fn overlaps_are_the_only_cause() {
    let rules = rules_of("overlapping names", 6, overlapping);
    let share = |rule: &str| rules.times(rule) * 100 / SEEDS.end as usize;
    assert!(share(OVERLAP) > 80 && share("none") > 2, "{rules:?}");
}

#[test]
fn every_rule_is_broken() {
    let broken = [
        "none",
        OVERLAP,
        "names lie inside the area",
        "there are as many records as the count says",
        "an area has at most 32,768 bytes",
        "a name has 1 to 200 bytes",
        "name bytes are 20 to 7E (hex), without % and *",
        "names strictly ascend by bytes",
        "a row that does not exist has flags exactly 0002",
        "bits 7 and 15 of the flags must be 0",
        "no level of a name is empty",
        "no row lies below a row with no inferiors",
    ];
    rules_of("layouts", 12, some_layout).check(&broken.map(|rule| (rule, 10)));
}
