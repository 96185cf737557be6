//! The page with its tables: they stand between its marks, and the rest of it stays.

use std::array;

use bench::hostile::{read_all, Hostile, KNOWN};
use bench::inputs::CASES;
use bench::measure::Measured;
use bench::page::{with_measures, Measures, Unbounded};
use bench::trial::Taken;

const PAGE: &str = include_str!("../../../docs/PERFORMANCE.md");

fn measured(size: usize) -> Measured {
    Measured {
        by_second: 0.5,
        by_byte_floor: 2.0,
        by_block_floor: 30.0,
        by_beside: None,
        growth: 1.0,
        doubling: 4.0 + size as f64,
        seconds: 0.001,
        steps: None,
    }
}

fn taken(hostile: &Hostile) -> Taken {
    let hostile = hostile.clone();
    Taken { hostile, steps: 123_456, seconds: 1.0, by_second: 4.25, by_reference: 16_000.0 }
}

fn unbounded() -> Unbounded {
    let known: Vec<Taken> = read_all(KNOWN).expect("lines").iter().map(taken).collect();
    Unbounded { found: known[..1].to_vec(), known, walk: array::from_fn(measured) }
}

#[test]
fn tables_are_written() {
    let measures: Measures = CASES.iter().map(|_| array::from_fn(measured)).collect();
    let page = with_measures(PAGE, &measures, &unbounded()).expect("a page with its marks");
    let again = with_measures(&page, &measures, &unbounded()).expect("marks that stay");
    assert_eq!(page, again);
    let row = "| `LIST`, reference `*%{160}a{90}`, 8 of `b%` | 163 | `#a{167}(/a){15}`, exists | 4.25 | 16000 | 123456 |";
    assert_eq!(page.matches(row).count(), 2, "{page}");
    for row in ["| 64 | 0.50 | |\n", "| 128 | 0.50 | 5.0 |\n", "| 512 | 0.50 | 7.0 |\n"] {
        assert!(page.contains(row), "{row}");
    }
    assert!(with_measures("no marks", &measures, &unbounded()).is_none());
}
