//! A strict reader of pages, for the tests of reports: elements, attributes and text. What is no
//! well-formed page fails a test.

/// An element. Its text is unescaped.
#[derive(Debug, Default)]
pub struct Element {
    pub tag: String,
    pub attributes: Vec<(String, String)>,
    pub children: Vec<Node>,
}

#[derive(Debug)]
pub enum Node {
    Element(Element),
    Text(String),
}

impl Element {
    /// The element of a whole page.
    pub fn of_page(page: &str) -> Element {
        let text = page.strip_prefix("<!DOCTYPE html>\n").expect("the start of a page");
        let mut reader = Reader { rest: text };
        let Some(Node::Element(html)) = reader.node() else {
            panic!("no element");
        };
        assert_eq!((html.tag.as_str(), reader.rest), ("html", "\n"));
        html
    }

    pub fn attribute(&self, name: &str) -> Option<&str> {
        self.attributes.iter().find(|(found, _)| found == name).map(|(_, value)| value.as_str())
    }

    /// All text in it.
    pub fn text(&self) -> String {
        let text = |node: &Node| match node {
            Node::Element(element) => element.text(),
            Node::Text(text) => text.clone(),
        };
        self.children.iter().map(text).collect()
    }

    /// Every element in it, itself first.
    pub fn all(&self) -> Vec<&Element> {
        let mut all = vec![self];
        for child in &self.children {
            if let Node::Element(element) = child {
                all.extend(element.all());
            }
        }
        all
    }

    /// Those that have an attribute, with its value.
    pub fn with(&self, name: &str) -> Vec<(&Element, &str)> {
        let value = |element: &&Element| element.attribute(name).is_some();
        let all = self.all().into_iter().filter(value);
        all.map(|element| (element, element.attribute(name).unwrap_or_default())).collect()
    }

    pub fn with_id(&self, id: &str) -> &Element {
        let found: Vec<_> = self.with("id").into_iter().filter(|(_, found)| *found == id).collect();
        assert_eq!(found.len(), 1, "{id}");
        found[0].0
    }
}

struct Reader<'p> {
    rest: &'p str,
}

impl<'p> Reader<'p> {
    /// The next piece of text or element; none at an end tag or at the end.
    fn node(&mut self) -> Option<Node> {
        if self.rest.is_empty() || self.rest.starts_with("</") {
            return None;
        }
        let Some(inside) = self.rest.strip_prefix('<') else {
            let end = self.rest.find('<').unwrap_or(self.rest.len());
            return Some(Node::Text(unescaped(self.take(end))));
        };
        self.rest = inside;
        let length = self.rest.find(|c: char| !c.is_ascii_alphanumeric()).expect("an end");
        let mut element = Element { tag: self.take(length).to_string(), ..Element::default() };
        assert!(!element.tag.is_empty());
        while let Some(rest) = self.rest.strip_prefix(' ') {
            let (name, rest) = rest.split_once("=\"").expect("an attribute");
            let (value, rest) = rest.split_once('"').expect("an end of a value");
            assert!(name.bytes().all(|byte| byte.is_ascii_alphabetic() || byte == b'-'), "{name}");
            element.attributes.push((name.to_string(), unescaped(value)));
            self.rest = rest;
        }
        if let Some(rest) = self.rest.strip_prefix("/>") {
            self.rest = rest;
            return Some(Node::Element(element));
        }
        self.rest = self.rest.strip_prefix('>').expect("an end of a tag");
        while let Some(child) = self.node() {
            element.children.push(child);
        }
        let end = format!("</{}>", element.tag);
        self.rest = self.rest.strip_prefix(&end).expect("an end tag");
        Some(Node::Element(element))
    }

    fn take(&mut self, length: usize) -> &'p str {
        let (taken, rest) = self.rest.split_at(length);
        self.rest = rest;
        taken
    }
}

/// Text has no bare `<`, `>` or quote, and `&` is the start of one of five names. Style is the page's own.
fn unescaped(text: &str) -> String {
    const NAMES: [(&str, char); 5] =
        [("amp;", '&'), ("lt;", '<'), ("gt;", '>'), ("quot;", '"'), ("#39;", '\'')];
    let is_style = text.starts_with("\n:root{");
    assert!(is_style || !text.contains(['<', '>', '"', '\'']), "{text}");
    let mut parts = text.split('&');
    let mut plain = parts.next().unwrap_or_default().to_string();
    for part in parts {
        let (name, character) = NAMES
            .iter()
            .find(|(name, _)| part.starts_with(name))
            .unwrap_or_else(|| panic!("{part}"));
        plain.push(*character);
        plain.push_str(&part[name.len()..]);
    }
    plain
}
