//! The examples of RFC 6154, section 5, as far as they fit document 01.
//!
//! The CAPABILITY, CREATE, GETMETADATA and SETMETADATA commands of examples 5.2 to 5.4 do not
//! fit: document 01 knows LIST and NAMESPACE alone.

use crate::common::{check_dialogue, Rows};

const TABLE: &Rows = &[
    ("INBOX", "exists marked"),
    ("MyDrafts", "exists marked drafts"),
    ("Projects", "exists"),
    ("Projects/Harbour", "exists"),
    ("SentMail", "exists sent"),
    ("ToDo", "exists"),
    ("Trash", "exists trash"),
];

/// As printed it does not fit: there a plain LIST shows uses and children unasked. Asked for
/// both, the same attributes stand in document 01's order.
#[test]
fn rfc6154_ex5_1() {
    check_dialogue(
        TABLE,
        r#"
        C: t1 LIST "" "%" RETURN (SPECIAL-USE CHILDREN)
        S: * LIST (\Marked \HasNoChildren) "/" "INBOX"
        S: * LIST (\Marked \Drafts \HasNoChildren) "/" "MyDrafts"
        S: * LIST (\HasChildren) "/" "Projects"
        S: * LIST (\Sent \HasNoChildren) "/" "SentMail"
        S: * LIST (\HasNoChildren) "/" "ToDo"
        S: * LIST (\Trash \HasNoChildren) "/" "Trash"
        S: t1 OK done
        "#,
    );
}

#[test]
fn rfc6154_ex5_2() {
    check_dialogue(
        TABLE,
        r#"
        C: t2 LIST "" "%" RETURN (SPECIAL-USE)
        S: * LIST (\Marked) "/" "INBOX"
        S: * LIST (\Marked \Drafts) "/" "MyDrafts"
        S: * LIST () "/" "Projects"
        S: * LIST (\Sent) "/" "SentMail"
        S: * LIST () "/" "ToDo"
        S: * LIST (\Trash) "/" "Trash"
        S: t2 OK done
        C: t3 LIST (SPECIAL-USE) "" "*"
        S: * LIST (\Marked \Drafts) "/" "MyDrafts"
        S: * LIST (\Sent) "/" "SentMail"
        S: * LIST (\Trash) "/" "Trash"
        S: t3 OK done
        "#,
    );
}

/// Example 5.3 is a CREATE and does not fit. Of example 5.4 the LIST at its start does, and the
/// LIST at its end over a table with the changes made.
#[test]
fn rfc6154_ex5_4() {
    let before = [
        ("MyDrafts", "exists drafts"),
        ("SavedDrafts", "exists"),
        ("SentMail", "exists sent"),
        ("Trash", "exists trash"),
    ];
    let after = [
        ("MyDrafts", "exists"),
        ("SavedDrafts", "exists drafts"),
        ("SentMail", "exists"),
        ("Trash", "exists trash"),
    ];
    check_dialogue(
        &before,
        r#"
        C: t1 LIST "" "%" RETURN (SPECIAL-USE)
        S: * LIST (\Drafts) "/" "MyDrafts"
        S: * LIST () "/" "SavedDrafts"
        S: * LIST (\Sent) "/" "SentMail"
        S: * LIST (\Trash) "/" "Trash"
        S: t1 OK done
        "#,
    );
    check_dialogue(
        &after,
        r#"
        C: t5 LIST "" "%" RETURN (SPECIAL-USE)
        S: * LIST () "/" "MyDrafts"
        S: * LIST (\Drafts) "/" "SavedDrafts"
        S: * LIST () "/" "SentMail"
        S: * LIST (\Trash) "/" "Trash"
        S: t5 OK done
        "#,
    );
}
