//! The examples of RFC 3501, section 6.3.9 (LSUB), as far as they fit documents 01 and 02.
//!
//! The delimiter is "/" where the RFC prints "."; else document 01's own choices stand in them: every
//! name is quoted, and each answer ends with `OK done`.

use crate::common::{check_dialogue, Rows};

const NEWS: &Rows = &[
    ("#news/comp/mail/mime", "exists subscribed"),
    ("#news/comp/mail/misc", "exists subscribed"),
    ("#news/comp/os", "exists"),
];

#[test]
fn rfc3501_lsub_ex1() {
    check_dialogue(
        NEWS,
        r##"
        C: A002 LSUB "#news/" "comp/mail/*"
        S: * LSUB () "/" "#news/comp/mail/mime"
        S: * LSUB () "/" "#news/comp/mail/misc"
        S: A002 OK done
        "##,
    );
}

#[test]
fn rfc3501_lsub_ex2() {
    check_dialogue(
        NEWS,
        r##"
        C: A003 LSUB "#news/" "comp/%"
        S: * LSUB (\Noselect) "/" "#news/comp/mail"
        S: A003 OK done
        "##,
    );
}

/// "Consider what happens if "foo/bar" (with a hierarchy delimiter of "/") is subscribed and "foo"
/// is not. A "%" wildcard to LSUB must return foo, not foo/bar", flagged with `\Noselect`.
#[test]
fn rfc3501_lsub_percent() {
    for above in [None, Some("exists"), Some("exists marked remote")] {
        let foo = above.map(|flags| ("foo", flags));
        let rows: Vec<_> = foo.into_iter().chain([("foo/bar", "exists subscribed")]).collect();
        check_dialogue(
            &rows,
            r#"
            C: a LSUB "" "%"
            S: * LSUB (\Noselect) "/" "foo"
            S: a OK done
            "#,
        );
    }
}

/// A subscribed name stays in the list "even if a mailbox by that name no longer exists".
#[test]
fn rfc3501_lsub_nonexistent() {
    check_dialogue(
        &[("foo", "subscribed"), ("foo/bar/baz", "subscribed")],
        r#"
        C: a LSUB "" "*"
        S: * LSUB () "/" "foo"
        S: * LSUB () "/" "foo/bar/baz"
        S: a OK done
        C: b LSUB "foo/" "%"
        S: * LSUB (\Noselect) "/" "foo/bar"
        S: b OK done
        "#,
    );
}
