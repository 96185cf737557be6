//! Pieces of a page. A piece is made of escaped text and of elements alone, so no name, command or
//! comment can become markup.

/// A piece of a page, well-formed as XML too.
#[derive(Clone, Debug, Default)]
pub struct Html(String);

/// The attributes of an element; their values are escaped.
pub type Attributes<'a> = &'a [(&'static str, &'a str)];

impl Html {
    /// Text. What may run from right to left is kept apart level by level, so that the levels of a name
    /// stand in their order and nothing beside them moves.
    pub fn text(text: impl AsRef<str>) -> Html {
        let mut html = Html::default();
        for part in text.as_ref().split_inclusive(LEVEL_ENDS) {
            let (level, end) = part.split_at(part.trim_end_matches(LEVEL_ENDS).len());
            match level.chars().any(runs_left) {
                true => html.push(Html::element("bdi", &[], Html::plain(level))),
                false => html.push(Html::plain(level)),
            }
            html.push(Html::plain(end));
        }
        html
    }

    /// Text alone, for elements that hold nothing else.
    pub fn plain(text: impl AsRef<str>) -> Html {
        Html(escaped(text.as_ref()))
    }

    /// An element with what stands in it.
    pub fn element(tag: &'static str, attributes: Attributes, content: Html) -> Html {
        Html(format!("<{tag}{}>{}</{tag}>", attributes_text(attributes), content.0))
    }

    /// An element that holds text alone.
    pub fn of_text(tag: &'static str, attributes: Attributes, text: impl AsRef<str>) -> Html {
        Html::element(tag, attributes, Html::text(text))
    }

    /// A title, which holds no elements.
    pub fn title(text: impl AsRef<str>) -> Html {
        Html::element("title", &[], Html::plain(text))
    }

    /// An element that holds nothing: of HTML those that never do, of SVG any.
    pub fn empty(tag: &'static str, attributes: Attributes) -> Html {
        Html(format!("<{tag}{}/>", attributes_text(attributes)))
    }

    /// A row of facts whose content is more than text.
    pub fn fact_row(id: &str, head: &str, content: Html) -> Html {
        let class = if id.ends_with("-sum") { "sum" } else { "" };
        let cells = [
            Html::of_text("th", &[("scope", "row")], head),
            Html::element("td", &[("id", id), ("class", class)], content),
        ];
        Html::element("tr", &[], Html::joined(cells))
    }

    /// The style of the page, which is the program's own text.
    pub fn style(style: &'static str) -> Html {
        Html(format!("<style>{style}</style>"))
    }

    pub fn joined(parts: impl IntoIterator<Item = Html>) -> Html {
        Html(parts.into_iter().map(|part| part.0).collect())
    }

    pub fn push(&mut self, part: Html) {
        self.0.push_str(&part.0);
    }

    /// Ends a line, so that the source of a page can be read too.
    pub fn and_line(mut self) -> Html {
        self.0.push('\n');
        self
    }

    pub(crate) fn len(&self) -> usize {
        self.0.len()
    }

    /// The whole page.
    pub fn into_page(self) -> String {
        format!("<!DOCTYPE html>\n{}\n", self.0)
    }
}

/// What parts the levels of a name, and what stands around one.
const LEVEL_ENDS: [char; 2] = ['/', '"'];

/// The blocks of scripts that are written from right to left.
fn runs_left(character: char) -> bool {
    matches!(character,
        '\u{590}'..='\u{8FF}' | '\u{FB1D}'..='\u{FDFF}' | '\u{FE70}'..='\u{FEFF}'
        | '\u{10800}'..='\u{10FFF}' | '\u{1E800}'..='\u{1EFFF}')
}

fn attributes_text(attributes: Attributes) -> String {
    attributes.iter().map(|(name, value)| format!(" {name}=\"{}\"", escaped(value))).collect()
}

fn escaped(text: &str) -> String {
    let mut escaped = String::with_capacity(text.len());
    for character in text.chars() {
        match character {
            '&' => escaped.push_str("&amp;"),
            '<' => escaped.push_str("&lt;"),
            '>' => escaped.push_str("&gt;"),
            '"' => escaped.push_str("&quot;"),
            '\'' => escaped.push_str("&#39;"),
            _ => escaped.push(character),
        }
    }
    escaped
}

/// A table with a head.
pub fn table(class: &str, heads: &[&str], rows: impl IntoIterator<Item = Html>) -> Html {
    let heads = heads.iter().map(|head| Html::of_text("th", &[], head));
    let head = Html::element("thead", &[], Html::element("tr", &[], Html::joined(heads)));
    let body = Html::element("tbody", &[], Html::joined(rows.into_iter().map(Html::and_line)));
    Html::element("table", &[("class", class)], Html::joined([head.and_line(), body])).and_line()
}

/// A row of facts: what it is, and what it says.
pub fn fact(id: &str, head: &str, text: &str) -> Html {
    Html::fact_row(id, head, Html::text(text))
}

/// A cell with text.
pub fn cell(text: impl AsRef<str>) -> Html {
    Html::of_text("td", &[], text)
}

/// A cell with text as it was sent.
pub fn code_cell(text: impl AsRef<str>) -> Html {
    Html::element("td", &[], Html::of_text("code", &[], text))
}
