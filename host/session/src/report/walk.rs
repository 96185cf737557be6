//! The walk as a picture: the levels, below which names was asked, and what was found.
//!
//! It is drawn from the answer alone. By demand 3 the names below which a walk asks are the different
//! proper ancestors of the names that it finds, in walk order, after the top level; so the count has to
//! be one more than they are, and a report says so where it is not.

use std::collections::{BTreeMap, BTreeSet};

use formats::name::{ancestors, DELIMITER};
use formats::show::{beside, counted};
use formats::text::{line_text, name_text, shortened};
use formats::walk_options::{
    MAX_OPTION, OPTION_REMOTE, OPTION_SPECIAL_USE, OPTION_WITHOUT_SUBSCRIBED,
};

use crate::report::html::{cell, code_cell, table, Html};

const ROW_HEIGHT: usize = 24;
const COLUMN: usize = 28;
/// As many as a lawful name has levels. Deeper names stand in the last column too, with their level beside
/// them, so that no picture is wider than a page takes.
const MOST_COLUMNS: usize = 16;
const LEFT: usize = 24;
const HEAD_HEIGHT: usize = 22;
/// Where a label starts, from the place of its node on.
const LABEL: usize = 36;
const CHARACTER: usize = 8;
/// Of the last level of a name no more is drawn; the whole name stands in the tables.
const MOST_OF_LABEL: usize = 30;
/// A picture of more rows goes on in the next one, so that pages can break between them.
const ROWS_A_PICTURE: usize = 36;

const LEGEND: &str =
    "A number is the command that asked below the name beside it; a dot is a mailbox \
                      that was found. Columns are levels; deeper names stand in the last column.";

/// What a walk looks for, in words.
pub fn purpose_text(option: u8) -> String {
    let has = |bit: u8| option & bit != 0;
    let names = match (has(OPTION_SPECIAL_USE), has(OPTION_WITHOUT_SUBSCRIBED)) {
        _ if option > MAX_OPTION => None,
        (false, false) => Some("subscribed mailboxes"),
        (true, false) => Some("subscribed mailboxes with a special use"),
        (true, true) => Some("mailboxes with a special use, subscribed or not"),
        (false, true) => None,
    };
    let places = if has(OPTION_REMOTE) { "local and remote ones" } else { "local ones only" };
    match names {
        Some(names) => format!("A walk that looks for {names}: {places}."),
        None => format!("A walk with options that no walk has: number {option}."),
    }
}

/// A walk that was answered.
pub struct Walk<'w> {
    pub count: u16,
    pub found: &'w [Vec<u8>],
}

/// One row of the picture.
struct Node<'w> {
    /// Empty for the top level.
    levels: Vec<&'w [u8]>,
    /// The number of the command that asked below it, from 1 on.
    asked: Option<usize>,
    is_found: bool,
    /// Whether another name of a level comes further down under the same parent, for each level from 1
    /// to its own.
    goes_on: Vec<bool>,
    has_child: bool,
}

impl Walk<'_> {
    pub fn html(&self) -> Html {
        let asked = self.asked();
        let commands = counted(self.count.into(), "command sent", "commands sent");
        let found = counted(self.found.len(), "mailbox found", "mailboxes found");
        let (count, total) = (self.count.to_string(), self.found.len().to_string());
        let attributes: [(&str, &str); 3] =
            [("class", "walked"), ("data-commands", &count), ("data-found", &total)];
        let mut html = Html::of_text("p", &attributes, format!("{commands}, {found}."));
        if usize::from(self.count) != 1 + asked.len() {
            let text = "The count is not one more than the ancestors of what was found.";
            html.push(Html::of_text("p", &[("class", "wrong")], text));
        }
        html.push(self.pictures(&asked));
        html.push(Html::of_text("p", &[("class", "small")], LEGEND));
        html.push(self.steps(&asked));
        html.and_line()
    }

    /// The names below which was asked, in walk order: fewer levels first, then by the first level
    /// that differs.
    fn asked(&self) -> Vec<Vec<&[u8]>> {
        let names: BTreeSet<&[u8]> = self.found.iter().flat_map(|name| ancestors(name)).collect();
        let mut asked: Vec<Vec<&[u8]>> = names.into_iter().map(levels).collect();
        asked.sort_by(|one, other| (one.len(), one).cmp(&(other.len(), other)));
        asked
    }

    /// A line for each command: where it asked, and what was found there.
    fn steps(&self, asked: &[Vec<&[u8]>]) -> Html {
        let mut found_below: BTreeMap<Vec<&[u8]>, Vec<&[u8]>> = BTreeMap::new();
        for name in self.found {
            let mut above = levels(name);
            above.pop();
            found_below.entry(above).or_default().push(name);
        }
        let top = Vec::new();
        let step = |(number, above): (usize, &Vec<&[u8]>)| {
            let place = match above.as_slice() {
                [] => "the top level".to_string(),
                _ => format!("below {}", name_text(&above.join(&DELIMITER))),
            };
            let found = found_below.get(above).map(Vec::as_slice).unwrap_or_default();
            let item = |name: &&[u8]| {
                let shown = name_text(name) + &beside(name);
                let content = Html::of_text("code", &[], shown);
                Html::element("li", &[("data-found-name", &line_text(name))], content)
            };
            let list = match found {
                [] => Html::text("nothing"),
                _ => Html::element("ul", &[], Html::joined(found.iter().map(item))),
            };
            let number = number.to_string();
            let cells = [cell(&number), code_cell(place), Html::element("td", &[], list)];
            Html::element("tr", &[("data-asked", &number)], Html::joined(cells))
        };
        let rows = (1..).zip([&top].into_iter().chain(asked)).map(step);
        table("steps", &["Command", "Asked", "Found there"], rows)
    }

    fn pictures(&self, asked: &[Vec<&[u8]>]) -> Html {
        let nodes = self.nodes(asked);
        let depth = nodes.iter().map(|node| node.levels.len()).max().unwrap_or_default();
        let label = nodes.iter().map(|node| node.label().chars().count()).max().unwrap_or_default();
        let depth = depth.min(MOST_COLUMNS);
        let width = LEFT + depth * COLUMN + LABEL + label * CHARACTER + LEFT;
        let picture = |(number, part): (usize, &[Node])| {
            let head = if number == 0 { HEAD_HEIGHT } else { 0 };
            let height = head + part.len() * ROW_HEIGHT;
            let view = format!("0 0 {width} {height}");
            let style = format!("max-width:{width}px");
            let title = Html::title("The walk, level by level");
            let heads = (0..=depth).filter(|_| number == 0).map(level_head);
            let rows = (0..).zip(part).map(|(row, node)| node.html(head + row * ROW_HEIGHT));
            let drawn = Html::joined([title].into_iter().chain(heads).chain(rows));
            let attributes: [(&str, &str); 5] = [
                ("class", "walk"),
                ("viewBox", &view),
                ("style", &style),
                ("role", "img"),
                ("aria-label", "The walk, level by level"),
            ];
            Html::element("svg", &attributes, drawn).and_line()
        };
        Html::joined(nodes.chunks(ROWS_A_PICTURE).enumerate().map(picture))
    }

    /// The top level, then every name that was found or asked below, each parent before its children.
    fn nodes<'n>(&'n self, asked: &[Vec<&'n [u8]>]) -> Vec<Node<'n>> {
        let mut all: BTreeMap<Vec<&[u8]>, (Option<usize>, bool)> = BTreeMap::new();
        all.insert(Vec::new(), (Some(1), false));
        for (number, levels) in (2..).zip(asked) {
            all.entry(levels.clone()).or_default().0 = Some(number);
        }
        for name in self.found {
            all.entry(levels(name)).or_default().1 = true;
        }
        let node = |(levels, (asked, is_found))| Node {
            levels,
            asked,
            is_found,
            goes_on: Vec::new(),
            has_child: false,
        };
        let mut nodes: Vec<Node> = all.into_iter().map(node).collect();
        let mut later = Vec::new();
        for node in nodes.iter_mut().rev() {
            let depth = node.levels.len();
            node.has_child = later.get(depth) == Some(&true);
            later.resize(depth, false);
            node.goes_on = later.clone();
            if let Some(own) = later.last_mut() {
                *own = true;
            }
        }
        nodes
    }
}

impl Node<'_> {
    fn label(&self) -> String {
        match self.levels.last() {
            None => "top level".to_string(),
            Some(level) => {
                let text = shortened(&line_text(level), MOST_OF_LABEL);
                match self.levels.len() {
                    depth if depth > MOST_COLUMNS => format!("level {depth}: {text}"),
                    _ => text,
                }
            }
        }
    }

    /// The row whose top is at `top`: lines to its parent and past it, its mark, and its label.
    fn html(&self, top: usize) -> Html {
        let (x, middle) = (column(self.levels.len()), top + ROW_HEIGHT / 2);
        let mut parts = self.lines(top);
        if let Some(number) = self.asked {
            parts.push(badge(x, middle, &number.to_string()));
        }
        if self.is_found {
            let x = if self.asked.is_some() { x + LABEL - 14 } else { x };
            parts.push(dot(x, middle));
        }
        let start = if self.asked.is_some() && self.is_found { LABEL } else { LABEL - 18 };
        let (x, y) = ((x + start).to_string(), (middle + 4).to_string());
        parts.push(Html::of_text("text", &[("x", &x), ("y", &y)], self.label()));
        let title = Html::title(line_text(&self.levels.join(&DELIMITER)));
        Html::element("g", &[], Html::joined([title].into_iter().chain(parts))).and_line()
    }

    /// The lines of the row: to its parent, past it to later names, and to its children.
    fn lines(&self, top: usize) -> Vec<Html> {
        let depth = self.levels.len();
        let (x, middle, bottom) = (column(depth), top + ROW_HEIGHT / 2, top + ROW_HEIGHT);
        let mut lines = Vec::new();
        for (above, goes_on) in self.goes_on.iter().enumerate() {
            let is_own = above + 1 == depth;
            let end = if *goes_on { bottom } else { middle };
            if *goes_on || is_own {
                lines.push(line(column(above), top, column(above), end));
            }
            if is_own && column(above) < x {
                lines.push(line(column(above), middle, x, middle));
            }
        }
        if self.has_child {
            lines.push(line(x, middle, x, bottom));
        }
        lines
    }
}

fn levels(name: &[u8]) -> Vec<&[u8]> {
    name.split(|&byte| byte == DELIMITER).collect()
}

fn column(depth: usize) -> usize {
    LEFT + depth.min(MOST_COLUMNS) * COLUMN
}

fn level_head(depth: usize) -> Html {
    let text = if depth == 0 { "top".to_string() } else { depth.to_string() };
    let x = column(depth).to_string();
    Html::of_text("text", &[("x", &x), ("y", "14"), ("class", "head")], text)
}

fn line(x1: usize, y1: usize, x2: usize, y2: usize) -> Html {
    let path = format!("M{x1} {y1}L{x2} {y2}");
    Html::empty("path", &[("d", &path)])
}

/// A command, with its number.
fn badge(x: usize, y: usize, number: &str) -> Html {
    let (left, top) = ((x - 14).to_string(), (y - 9).to_string());
    let frame: [(&str, &str); 5] =
        [("x", &left), ("y", &top), ("width", "28"), ("height", "18"), ("rx", "4")];
    let (x, y) = (x.to_string(), (y + 4).to_string());
    let text = Html::of_text("text", &[("x", &x), ("y", &y), ("class", "number")], number);
    Html::joined([Html::empty("rect", &frame), text])
}

/// A find.
fn dot(x: usize, y: usize) -> Html {
    Html::empty("circle", &[("cx", &x.to_string()), ("cy", &y.to_string()), ("r", "6")])
}
