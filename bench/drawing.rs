//! Ratios as an SVG drawing: for each ticket the library's two engines as bars on a log scale, on the left over the optimised
//! engine, on the right over the faster one. However large or small a ratio is, the drawing is as wide.

use crate::engines::Engine;
use crate::summary::{column, Row};

const COLOURS: [&str; 2] = ["#4477aa", "#ee7733"];

const WIDTH: f64 = 1200.0;
const NAMES: f64 = 310.0;
const PANEL: f64 = 390.0;
const GAP: f64 = 50.0;
const TOP: f64 = 92.0;
const ROW: f64 = 30.0;
const BAR: f64 = 11.0;

/// The powers of ten that a panel reaches at the most; a bar beyond them is cut.
const LOWEST: f64 = -3.0;
const HIGHEST: f64 = 5.0;

/// A log scale from one power of ten to another, with 1 on it.
struct Panel {
    left: f64,
    title: &'static str,
    low: i32,
    high: i32,
}

pub fn of(rows: &[Row]) -> String {
    let mean = Row { family: "", name: "geometric mean of all".to_string(), ratios: [0, 1, 2, 3].map(|i| column(rows, i).geometric_mean()) };
    let rows: Vec<&Row> = rows.iter().chain([&mean]).collect();
    let bottom = TOP + ROW * rows.len() as f64;
    let titles = ["time over the optimised engine's (short is good)", "time over the faster engine's (short is good)"];
    let panels = [0, 1].map(|i| Panel::new(NAMES + i as f64 * (PANEL + GAP), titles[i], rows.iter().flat_map(|row| row.ratios[2 * i..][..2].to_vec())));
    let mut svg = opening(bottom + 44.0);
    svg += &legend();
    panels.iter().for_each(|panel| svg += &panel.axis(bottom));
    for (i, row) in rows.iter().enumerate() {
        svg += &drawn(row, TOP + ROW * i as f64, &panels);
    }
    svg + "</svg>\n"
}

/// A white sheet of this height.
fn opening(height: f64) -> String {
    let size = format!("width=\"{WIDTH}\" height=\"{height}\"");
    let style = "font-family=\"sans-serif\" font-size=\"12\" fill=\"#222\"";
    format!("<svg xmlns=\"http://www.w3.org/2000/svg\" viewBox=\"0 0 {WIDTH} {height}\" {size} {style}>\n<rect {size} fill=\"white\"/>\n")
}

fn legend() -> String {
    let entry = |i: usize| {
        let x = NAMES + 110.0 * i as f64;
        let name = text(x + 18.0, 42.0, "start", Engine::LIBRARY[i].name());
        format!("<rect x=\"{x}\" y=\"32\" width=\"12\" height=\"12\" fill=\"{}\"/>\n{name}", COLOURS[i])
    };
    let title = "<text x=\"16\" y=\"22\" font-size=\"15\" font-weight=\"bold\">Fitting: ratios of times, one run on one machine</text>\n";
    format!("{title}{}{}", entry(0), entry(1))
}

fn text(x: f64, y: f64, anchor: &str, words: &str) -> String {
    format!("<text x=\"{x:.1}\" y=\"{y:.1}\" text-anchor=\"{anchor}\">{words}</text>\n")
}

fn drawn(row: &Row, y: f64, panels: &[Panel; 2]) -> String {
    let weight = if row.family.is_empty() { "bold" } else { "normal" };
    let name = text(NAMES - 12.0, y + ROW / 2.0 + 2.0, "end", &row.name);
    let bar = |i: usize| panels[i / 2].bar(y + 3.0 + BAR * (i % 2) as f64, row.ratios[i], COLOURS[i % 2]);
    format!("<g font-weight=\"{weight}\">\n{name}{}</g>\n", [0, 1, 2, 3].map(bar).concat())
}

impl Panel {
    fn new(left: f64, title: &'static str, ratios: impl Iterator<Item = f64>) -> Panel {
        let logs: Vec<f64> = ratios.map(|ratio| ratio.log10().clamp(LOWEST, HIGHEST)).collect();
        let low = logs.iter().copied().fold(0.0, f64::min).floor() as i32;
        let high = logs.iter().copied().fold(1.0, f64::max).ceil() as i32;
        Panel { left, title, low, high }
    }

    fn x(&self, ratio: f64) -> f64 {
        self.left + PANEL * (ratio.log10().clamp(self.low as f64, self.high as f64) - self.low as f64) / (self.high - self.low) as f64
    }

    /// The title, and a line for each power of ten; the one at 1 is darker.
    fn axis(&self, bottom: f64) -> String {
        let line = |power: i32| {
            let ratio = 10_f64.powi(power);
            let (x, colour) = (self.x(ratio), if power == 0 { "#666" } else { "#ddd" });
            let labels = text(x, TOP - 6.0, "middle", &ratio.to_string()) + &text(x, bottom + 16.0, "middle", &ratio.to_string());
            format!("<line x1=\"{x:.1}\" x2=\"{x:.1}\" y1=\"{TOP}\" y2=\"{bottom}\" stroke=\"{colour}\"/>\n{labels}")
        };
        text(self.left, TOP - 24.0, "start", self.title) + &(self.low..=self.high).map(line).collect::<String>()
    }

    /// A bar from 1 to the ratio, and the ratio beside it.
    fn bar(&self, y: f64, ratio: f64, colour: &str) -> String {
        let (from, to) = (self.x(ratio.min(1.0)), self.x(ratio.max(1.0)));
        let digits = if ratio < 10.0 { 2 } else { (ratio < 100.0) as usize };
        let label = format!("<text x=\"{:.1}\" y=\"{:.1}\" font-size=\"10\">{ratio:.digits$}</text>\n", to + 4.0, y + BAR - 1.5);
        format!("<rect x=\"{from:.1}\" y=\"{y:.1}\" width=\"{:.1}\" height=\"{}\" fill=\"{colour}\"/>\n{label}", to - from, BAR - 1.0)
    }
}
