//! What the sessions of a kind reach, and how often.

use compare::kinds;
use second::frames::Program;

pub use compare::reached::Reached;

/// Of each kind.
const SEEDS: u64 = 20;

/// Checks that each of these comes at least so often in the sessions of a kind. `what_of` sends a frame
/// and names what comes of it.
pub fn check_often(
    kind: &str,
    least: &[(&str, usize)],
    mut what_of: impl FnMut(&mut Program, &[u8]) -> Vec<String>,
) {
    let kind = kinds().find(|one| one.name == kind).expect("a kind");
    let mut reached = Reached::default();
    for seed in 0..SEEDS {
        let mut program = Program::default();
        for frame in kind.session(seed) {
            what_of(&mut program, &frame.text).into_iter().for_each(|what| reached.add(what));
        }
    }
    reached.check(least);
}
