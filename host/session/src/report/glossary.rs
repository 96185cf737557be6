//! What the words on a page mean, for who reads it without knowing IMAP.

use crate::report::html::Html;

const WORDS: [(&str, &str); 14] = [
    (
        "level",
        "A part of a mailbox's name between two slashes: Customers/ABC has the levels Customers and ABC. \
         A name with fewer levels that starts another one stands above it.",
    ),
    (
        "implied name",
        "A name above a mailbox that is no row of the table itself, as Customers where only \
         Customers/ABC is there. It is listed as \\NonExistent.",
    ),
    (
        "subscribed",
        "Marked by the account's owner as one to look at. A name can be subscribed although there is no \
         such mailbox.",
    ),
    ("remote", "Kept by another server than the one that was asked; all others are local."),
    ("special use", "What a mailbox is for, as \\Sent or \\Trash."),
    (
        "reader",
        "One of eight people or machines, 0 to 7, who ask. The table says of each row which of them \
         see it; the others are answered as if it were not there.",
    ),
    (
        "pattern",
        "The names that a command asks for. In it * stands for any text, and % for any text within one \
         level.",
    ),
    (
        "criteria",
        "What else a command asks of a name: that it exists, is local, is subscribed or has a special \
         use.",
    ),
    (
        "CHILDINFO",
        "Written after a listed name where something below it meets the criteria, so that who walks by \
         levels knows to ask there.",
    ),
    (
        "RECURSIVEMATCH",
        "Asks that a name is also listed for what lies below it, where that would not be listed itself.",
    ),
    (
        "refusal",
        "The program gives no answer but a number from 1 to 16, which says why. It is expected where the \
         session says beforehand that this number is right.",
    ),
    (
        "walk",
        "What a collecting machine does: it asks at the top level, then below each name that has \
         CHILDINFO, until nothing is left, and keeps what it finds. Its options are written as one \
         number, the option byte.",
    ),
    (
        "proved",
        "A machine has checked a proof that the program answers as the written rules say, for every \
         table and every command.",
    ),
    (
        "second program",
        "Another program, written from the same rules and not proved. It answers everything once more, \
         so that the answers can be compared, and gives the reasons on this page.",
    ),
];

/// Leads to the words from the head of the page.
pub fn glossary_link() -> Html {
    let text = "The words of this page are explained at its end.";
    let link = Html::of_text("a", &[("href", "#words")], text);
    Html::element("p", &[("class", "small")], link)
}

pub fn glossary_html() -> Html {
    let word = |(word, text): (&str, &str)| {
        Html::joined([
            Html::of_text("dt", &[("data-word", word)], word),
            Html::of_text("dd", &[], text).and_line(),
        ])
    };
    Html::joined([
        Html::of_text("h2", &[("id", "words")], "Words on this page"),
        Html::element("dl", &[("class", "glossary")], Html::joined(WORDS.map(word))),
    ])
}
