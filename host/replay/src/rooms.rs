//! The stack that the library needs for a replay.

/// `LUSPEMARO_STACK_REPLAY`, the most that any entry needs which is called here.
const STACK_LIBRARY: usize = 372_736;
/// What this crate and the second program need above it, with a margin.
const STACK_OWN: usize = 4 << 20;

/// The stack of the thread that replays.
pub const THREAD_STACK: usize = STACK_LIBRARY + STACK_OWN;

#[cfg(test)]
mod tests {
    use crate::rooms::*;

    /// The number that the header defines.
    fn defined(name: &str) -> usize {
        let header = include_str!("../../../include/luspemaro.h");
        let words = header.lines().map(|line| line.split_whitespace().collect::<Vec<_>>());
        let number = words
            .filter(|words| words.get(1) == Some(&name))
            .find_map(|words| words.get(2)?.parse().ok());
        number.unwrap_or_else(|| panic!("no {name}"))
    }

    #[test]
    fn the_stack_is_the_headers() {
        let entries =
            ["REPLAY", "REPLAY_FEED", "ANSWER", "SUMMARIZE", "CHECK_TABLE", "CHECK_NAMESPACES"];
        let most =
            entries.map(|entry| defined(&format!("LUSPEMARO_STACK_{entry}"))).into_iter().max();
        assert_eq!(most, Some(STACK_LIBRARY));
    }
}
