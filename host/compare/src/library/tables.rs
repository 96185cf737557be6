//! The two checks.

use formats::rows::{Flags, MAX_ROWS, MAX_TABLE, ROW_HEAD};
use formats::show::show_namespaces;

use super::both::{Lent, CHECK_NAMESPACES, CHECK_TABLE, PROVED, SECOND};
use super::tally::{Tally, SEED};
use crate::damage::{damaged_bytes, damaged_table, namespace_list};
use crate::random::Random;
use crate::tables::{good_table, table_bytes, NewRow};

const TABLES: usize = 60_000;
const LISTS: usize = 200_000;

pub fn tables(tally: &mut Tally) {
    let mut random = Random::of("library: tables", SEED);
    for _ in 0..TABLES {
        let count = random.below(24);
        let rows = good_table(&mut random, count);
        check_packed(tally, &table_bytes(&rows));
        check_packed(tally, &damaged_table(&mut random, rows.clone()));
        check_packed(tally, &damaged_bytes(&mut random, table_bytes(&rows)));
    }
}

/// Numbers of rows and of bytes on both sides of what passes.
pub fn limits(tally: &mut Tally) {
    for rows in MAX_ROWS - 1..=MAX_ROWS + 1 {
        check_packed(tally, &table_of(rows, 8));
    }
    // Rows of 204 bytes, and one for which 128 bytes are left, so that one byte more in its name decides.
    for length in 1..=200 {
        let mut rows = numbered(MAX_TABLE / (ROW_HEAD + 200), 200);
        rows.push(NewRow::new(Flags::EXISTS, vec![b'~'; length]));
        check_packed(tally, &table_bytes(&rows));
    }
    for length in 0..=255 {
        check_packed(tally, &table_of(3, length));
    }
}

pub fn namespace_lists(tally: &mut Tally) {
    let mut random = Random::of("library: namespace lists", SEED);
    for _ in 0..LISTS {
        let list = namespace_list(&mut random);
        let call = || format!("check_namespaces\n{}", show_namespaces(&list));
        tally.same(call, CHECK_NAMESPACES.map(|check| check(&list)));
    }
}

fn check_packed(tally: &mut Tally, table: &[u8]) {
    check_both(tally, [Lent::Packed(table); 2]);
}

/// Check 1 by both libraries, each over its form of the table.
pub fn check_both(tally: &mut Tally, tables: [Lent; 2]) {
    let call = || format!("check_table\n{}", tables[PROVED]);
    tally.same(call, [PROVED, SECOND].map(|who| CHECK_TABLE[who](tables[who])));
}

fn table_of(rows: usize, length: usize) -> Vec<u8> {
    table_bytes(&numbered(rows, length))
}

/// Rows with ascending names of one length, where it is at least 4.
pub fn numbered(rows: usize, length: usize) -> Vec<NewRow> {
    let name = |at: usize| format!("{at:04}{}", "n".repeat(length)).into_bytes()[..length].to_vec();
    (0..rows).map(|at| NewRow::new(Flags::EXISTS, name(at))).collect()
}
