//! The plot docs/performance.svg: the ratios, and how the times grow.

use crate::inputs::{CASES, SIZES};
use crate::measure::Measured;
use crate::page::Measures;

const WIDTH: f64 = 420.0;
const HEIGHT: f64 = 300.0;
/// Where the panels begin.
const TOP: f64 = 40.0;
const LEFTS: [f64; 2] = [60.0, 560.0];
const LEGEND_TOP: f64 = 390.0;
const FRAME: &str = "fill=\"none\" stroke=\"#999\"";
const COLOURS: [&str; CASES.len()] = [
    "#1b9e77", "#d95f02", "#7570b3", "#e7298a", "#66a61e", "#e6ab02", "#a6761d", "#666666",
    "#1f78b4", "#8dd3c7", "#fdb462", "#bebada", "#80b1d3", "#b3de69", "#fb8072", "#bc80bd",
    "#33a02c", "#e31a1c", "#ff7f00", "#6a3d9a", "#b15928", "#a6cee3", "#b2df8a", "#fb9a99",
    "#525252", "#c51b7d", "#01665e", "#543005", "#35978f", "#9970ab", "#5aae61",
];

/// One of the two panels: what it shows, between which values, and a line to compare with.
struct Panel {
    title: &'static str,
    left: f64,
    lowest: f64,
    highest: f64,
    ticks: &'static [f64],
    value: fn(&[Measured; SIZES.len()], usize) -> f64,
    /// The value that the dashed line has at each size.
    aim: fn(usize) -> f64,
}

const PANELS: [Panel; 2] = [
    Panel {
        title: "time by the second program's (dashed: equal)",
        left: LEFTS[0],
        lowest: 0.05,
        highest: 2.0,
        ticks: &[0.05, 0.1, 0.2, 0.5, 1.0, 2.0],
        value: |measured, at| measured[at].by_second,
        aim: |_| 1.0,
    },
    Panel {
        title: "time by that at 64 rows (dashed: as the rows)",
        left: LEFTS[1],
        lowest: 0.8,
        highest: 100.0,
        ticks: &[1.0, 2.0, 4.0, 8.0, 16.0, 32.0, 64.0],
        value: |measured, at| measured[at].growth,
        aim: |at| SIZES[at] as f64 / SIZES[0] as f64,
    },
];

/// The whole picture.
pub fn plot(measures: &Measures) -> String {
    let mut text = String::from(concat!(
        r#"<svg xmlns="http://www.w3.org/2000/svg" viewBox="0 0 1000 660" "#,
        r#"font-family="sans-serif" font-size="12">"#,
        "\n<rect width=\"1000\" height=\"660\" fill=\"white\"/>\n"
    ));
    for panel in &PANELS {
        text += &panel.frame();
        for (measured, colour) in measures.iter().zip(COLOURS) {
            text += &panel.line(|at| (panel.value)(measured, at), colour, "");
        }
        text += &panel.line(panel.aim, "black", r#" stroke-dasharray="4""#);
    }
    text + &legend() + "</svg>\n"
}

impl Panel {
    fn frame(&self) -> String {
        let left = self.left;
        let mut text = label(left, TOP - 12.0, "start", self.title);
        text += &format!(
            "<rect x=\"{left}\" y=\"{TOP}\" width=\"{WIDTH}\" height=\"{HEIGHT}\" {FRAME}/>\n"
        );
        for &tick in self.ticks {
            let y = self.y(tick);
            text += &format!("<path d=\"M{left} {y:.1}h{WIDTH}\" stroke=\"#ddd\"/>\n");
            text += &label(left - 6.0, y + 4.0, "end", &tick.to_string());
        }
        for (at, rows) in SIZES.iter().enumerate() {
            text += &label(self.x(at), TOP + HEIGHT + 16.0, "middle", &format!("{rows} rows"));
        }
        text
    }

    fn line(&self, value: impl Fn(usize) -> f64, colour: &str, style: &str) -> String {
        let point = |at| format!("{:.1},{:.1}", self.x(at), self.y(value(at)));
        let points: Vec<String> = (0..SIZES.len()).map(point).collect();
        format!(
            "<polyline points=\"{}\" fill=\"none\" stroke=\"{colour}\" stroke-width=\"2\"{style}/>\n",
            points.join(" ")
        )
    }

    /// Sizes stand at equal distances, as each is twice the one before.
    fn x(&self, at: usize) -> f64 {
        self.left + WIDTH * (at as f64 + 0.5) / SIZES.len() as f64
    }

    /// The scale is logarithmic.
    fn y(&self, value: f64) -> f64 {
        let part = |value: f64| (value / self.lowest).ln() / (self.highest / self.lowest).ln();
        TOP + HEIGHT * (1.0 - part(value).clamp(0.0, 1.0))
    }
}

/// A text whose start, middle or end is at a place.
fn label(x: f64, y: f64, anchor: &str, text: &str) -> String {
    let text = text.replace('"', "&quot;");
    format!("<text x=\"{x:.1}\" y=\"{y:.1}\" text-anchor=\"{anchor}\">{text}</text>\n")
}

/// The colour of each case, three to a line.
fn legend() -> String {
    let mut text = String::new();
    for (at, (case, colour)) in CASES.iter().zip(COLOURS).enumerate() {
        let x = LEFTS[0] + 320.0 * (at % 3) as f64;
        let y = LEGEND_TOP + 26.0 * (at / 3) as f64;
        text += &format!("<path d=\"M{x} {y}h24\" stroke=\"{colour}\" stroke-width=\"3\"/>\n");
        text += &label(x + 30.0, y + 4.0, "start", &case.title.replace('`', ""));
    }
    text
}
