//! The examples of RFC 2342, section 5, as far as they fit document 01.
//!
//! The CREATE commands of examples 5.5 and 5.6 do not fit: document 01 knows LIST and NAMESPACE
//! alone.

use crate::common::check_dialogue_with;

const PERSONAL: u8 = 0;
const OTHER_USERS: u8 = 1;
const SHARED: u8 = 2;
const SLASH: Option<u8> = Some(b'/');
const DOT: Option<u8> = Some(b'.');

#[test]
fn rfc2342_ex5_1() {
    let entries = [(PERSONAL, "", SLASH)];
    check_dialogue_with(
        &[],
        &entries,
        r#"
        C: A001 NAMESPACE
        S: * NAMESPACE (("" "/")) NIL NIL
        S: A001 OK done
        "#,
    );
}

#[test]
fn rfc2342_ex5_2() {
    let entries = [(SHARED, "", DOT)];
    check_dialogue_with(
        &[],
        &entries,
        r#"
        C: A001 NAMESPACE
        S: * NAMESPACE NIL NIL (("" "."))
        S: A001 OK done
        "#,
    );
}

#[test]
fn rfc2342_ex5_3() {
    let entries = [(PERSONAL, "", SLASH), (SHARED, "Public Folders/", SLASH)];
    check_dialogue_with(
        &[],
        &entries,
        r#"
        C: A001 NAMESPACE
        S: * NAMESPACE (("" "/")) NIL (("Public Folders/" "/"))
        S: A001 OK done
        "#,
    );
}

#[test]
fn rfc2342_ex5_4() {
    let entries = [
        (PERSONAL, "", SLASH),
        (OTHER_USERS, "~", SLASH),
        (SHARED, "#shared/", SLASH),
        (SHARED, "#public/", SLASH),
        (SHARED, "#ftp/", SLASH),
        (SHARED, "#news.", DOT),
    ];
    check_dialogue_with(
        &[],
        &entries,
        r##"
        C: A001 NAMESPACE
        S: * NAMESPACE (("" "/")) (("~" "/")) (("#shared/" "/")("#public/" "/")("#ftp/" "/")("#news." "."))
        S: A001 OK done
        "##,
    );
}

#[test]
fn rfc2342_ex5_5() {
    let entries = [(PERSONAL, "INBOX.", DOT)];
    check_dialogue_with(
        &[],
        &entries,
        r#"
        C: A001 NAMESPACE
        S: * NAMESPACE (("INBOX." ".")) NIL NIL
        S: A001 OK done
        "#,
    );
}

/// The extension behind the second entry does not fit: an entry is class, prefix and delimiter.
#[test]
fn rfc2342_ex5_6() {
    let entries = [(PERSONAL, "", SLASH), (PERSONAL, "#mh/", SLASH)];
    check_dialogue_with(
        &[],
        &entries,
        r##"
        C: A001 NAMESPACE
        S: * NAMESPACE (("" "/")("#mh/" "/")) NIL NIL
        S: A001 OK done
        "##,
    );
}

#[test]
fn rfc2342_ex5_7() {
    let rows = [
        ("Other Users/Karen", "exists"),
        ("Other Users/Matthew", "exists"),
        ("Other Users/Mike", "exists"),
        ("Other Users/Tesa", "exists"),
    ];
    let entries = [(PERSONAL, "", SLASH), (OTHER_USERS, "Other Users/", SLASH)];
    check_dialogue_with(
        &rows,
        &entries,
        r#"
        C: A001 NAMESPACE
        S: * NAMESPACE (("" "/")) (("Other Users/" "/")) NIL
        S: A001 OK done
        C: A002 LIST "" "Other Users/%"
        S: * LIST () "/" "Other Users/Karen"
        S: * LIST () "/" "Other Users/Matthew"
        S: * LIST () "/" "Other Users/Mike"
        S: * LIST () "/" "Other Users/Tesa"
        S: A002 OK done
        "#,
    );
}

/// The NO to A002 does not fit: document 01 lists every mailbox that matches.
#[test]
fn rfc2342_ex5_8() {
    let rows = [("#Users/Mike/Foo", "exists"), ("#Users/Mike/INBOX", "exists")];
    let entries = [(PERSONAL, "", SLASH), (OTHER_USERS, "#Users/", SLASH)];
    check_dialogue_with(
        &rows,
        &entries,
        r##"
        C: A001 NAMESPACE
        S: * NAMESPACE (("" "/")) (("#Users/" "/")) NIL
        S: A001 OK done
        C: A003 LIST "" "#Users/Mike/%"
        S: * LIST () "/" "#Users/Mike/Foo"
        S: * LIST () "/" "#Users/Mike/INBOX"
        S: A003 OK done
        "##,
    );
}

#[test]
fn rfc2342_ex5_9() {
    let rows = [("~mark/INBOX", "exists"), ("~mark/foo", "exists")];
    let entries = [(PERSONAL, "", SLASH), (OTHER_USERS, "~", SLASH)];
    check_dialogue_with(
        &rows,
        &entries,
        r#"
        C: A001 NAMESPACE
        S: * NAMESPACE (("" "/")) (("~" "/")) NIL
        S: A001 OK done
        C: A002 LIST "" "~mark/%"
        S: * LIST () "/" "~mark/INBOX"
        S: * LIST () "/" "~mark/foo"
        S: A002 OK done
        "#,
    );
}
