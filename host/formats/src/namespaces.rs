//! Entries of a namespace list: class, prefix length, prefix, and delimiter, 0 for NIL.

/// One entry of the namespace list.
#[derive(Clone, Copy, Debug)]
pub struct Entry<'n> {
    pub class: u8,
    pub prefix: &'n [u8],
    /// None is NIL.
    pub delimiter: Option<u8>,
}

impl Entry<'_> {
    /// The bytes of the entry; none for a prefix that is longer than its length byte can say.
    pub fn to_bytes(&self) -> Option<Vec<u8>> {
        let mut bytes = vec![self.class, u8::try_from(self.prefix.len()).ok()?];
        bytes.extend_from_slice(self.prefix);
        bytes.push(self.delimiter.unwrap_or_default());
        Some(bytes)
    }
}

/// The entries of a list, not judged any further, and the bytes after them that are no whole entry.
pub fn split_entries(list: &[u8]) -> (Vec<Entry<'_>>, &[u8]) {
    let (mut entries, mut rest) = (Vec::new(), list);
    while let [class, length, after @ ..] = rest {
        let Some((prefix, [delimiter, after @ ..])) = after.split_at_checked(usize::from(*length))
        else {
            break;
        };
        let delimiter = Some(*delimiter).filter(|&byte| byte != 0);
        entries.push(Entry { class: *class, prefix, delimiter });
        rest = after;
    }
    (entries, rest)
}
