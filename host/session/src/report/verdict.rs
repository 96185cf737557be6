//! The verdict at the head of a page.

use crate::report::html::Html;
use crate::verdict::Conclusion;

/// The verdict and its reasons.
pub fn verdict_html(conclusion: &Conclusion) -> Html {
    let class = if conclusion.is_green { "well" } else { "wrong" };
    let item = |text: &String| Html::of_text("li", &[("data-reason", class)], text).and_line();
    let reasons = Html::joined(conclusion.reasons.iter().map(item));
    Html::joined([
        Html::of_text("p", &[("class", class), ("id", "verdict")], conclusion.text()).and_line(),
        Html::element("ul", &[("class", "reasons")], reasons),
    ])
}
