//! Document 01's walk order: "fewer levels first, then by the first level that differs, by bytes, a
//! prefix first".

use formats::name::DELIMITER;

/// The place of a name in walk order.
#[derive(Clone, Debug, PartialEq, Eq, PartialOrd, Ord)]
pub struct WalkPlace {
    // Compared in this order: the count of levels first.
    count: usize,
    levels: Vec<Vec<u8>>,
}

impl WalkPlace {
    pub fn of(name: &[u8]) -> WalkPlace {
        let levels: Vec<Vec<u8>> =
            name.split(|&byte| byte == DELIMITER).map(<[u8]>::to_vec).collect();
        WalkPlace { count: levels.len(), levels }
    }
}
