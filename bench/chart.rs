//! The picture: the calls' passes as bars on a logarithmic scale, a panel for each kind of window.
use crate::table::{short, Measured};
use std::fmt::Write;

const WIDTH: f64 = 1_120.0;
const LEFT: f64 = 128.0;
const TOP: f64 = 96.0;
const ROW: f64 = 24.0;
const BAR: f64 = 14.0;
const GAP: f64 = 40.0;
const PANEL: f64 = (WIDTH - LEFT - 20.0 - 2.0 * GAP) / 3.0;
/// Room for a figure behind the longest bar.
const FIGURE: f64 = 40.0;

const FONT: &str = "Helvetica, Arial, sans-serif";
const INK: &str = "#24292f";
const GREY: &str = "#6e7781";
const RULE: &str = "#e4e7eb";
const WITHIN: &str = "#4c8dae";
const ABOVE: &str = "#d9843b";
/// The style of a goal's line.
const GOAL: &str = "stroke=\"#b3261e\" stroke-width=\"2\" stroke-dasharray=\"4 2\"";

/// A panel: for each row its passes and its goal.
struct Panel {
    title: &'static str,
    under: &'static str,
    bars: Vec<(f64, f64)>,
}

impl Panel {
    /// The highest figures of some windows, in the order of the names.
    fn new(title: &'static str, under: &'static str, names: &[&str], windows: &[Measured]) -> Panel {
        let bar = |name: &&str| {
            let rows = windows.iter().flat_map(|m| &m.rows).filter(|row| row.name == *name);
            rows.map(|row| (row.passes(), row.goal)).fold((0.0, 0.0), |a: (f64, f64), b| if a.0 < b.0 { b } else { a })
        };
        Panel { title, under, bars: names.iter().map(bar).collect() }
    }

    /// The numbers 1, 2 and 5 at every power of ten, from below the shortest bar to the longest bar or goal or above it.
    fn marks(&self) -> Vec<f64> {
        let low = self.bars.iter().fold(f64::MAX, |a, b| a.min(b.0));
        let high = self.bars.iter().fold(0.0, |a: f64, b| a.max(b.0).max(b.1));
        let all: Vec<f64> = (-3..6).flat_map(|power| [1.0, 2.0, 5.0].map(|m| m * 10f64.powi(power))).collect();
        let from = all.iter().rposition(|mark| *mark < low * 0.8).unwrap_or(0);
        let to = all.iter().position(|mark| *mark >= high).unwrap_or(all.len() - 1);
        all[from..=to].to_vec()
    }

    /// Where a number of passes stands, from the panel's left.
    fn x(&self, passes: f64) -> f64 {
        let marks = self.marks();
        let (low, high) = (marks[0].ln(), marks[marks.len() - 1].ln());
        (passes.ln() - low) / (high - low) * (PANEL - FIGURE)
    }
}

fn y(row: usize) -> f64 {
    TOP + ROW * row as f64
}

fn text(svg: &mut String, x: f64, y: f64, style: &str, words: &str) {
    writeln!(svg, "<text x=\"{x:.1}\" y=\"{y:.1}\" {style}>{words}</text>").expect("a string takes all");
}

fn line(svg: &mut String, from: (f64, f64), to: (f64, f64), style: &str) {
    let ((x1, y1), (x2, y2)) = (from, to);
    writeln!(svg, "<line x1=\"{x1:.1}\" y1=\"{y1:.1}\" x2=\"{x2:.1}\" y2=\"{y2:.1}\" {style}/>")
        .expect("a string takes all");
}

fn rectangle(svg: &mut String, at: (f64, f64), size: (f64, f64), style: &str) {
    let ((x, y), (width, height)) = (at, size);
    writeln!(svg, "<rect x=\"{x:.1}\" y=\"{y:.1}\" width=\"{width:.1}\" height=\"{height:.1}\" {style}/>")
        .expect("a string takes all");
}

/// The scale: a thin line at each mark, with its number below; powers of ten alone where there is no room.
fn scale(svg: &mut String, panel: &Panel, left: f64) {
    let marks = panel.marks();
    let bottom = y(panel.bars.len());
    for mark in &marks {
        let x = left + panel.x(*mark);
        line(svg, (x, TOP - 4.0), (x, bottom), &format!("stroke=\"{RULE}\""));
        if marks.len() < 9 || mark.log10().fract().abs() < 0.01 {
            let style = format!("fill=\"{GREY}\" font-size=\"11\" text-anchor=\"middle\"");
            text(svg, x, bottom + 16.0, &style, &mark.to_string());
        }
    }
}

fn bars(svg: &mut String, panel: &Panel, left: f64) {
    for (i, (passes, goal)) in panel.bars.iter().enumerate() {
        let colour = if passes > goal { ABOVE } else { WITHIN };
        let (x, top) = (panel.x(*passes), y(i) + (ROW - BAR) / 2.0);
        rectangle(svg, (left, top), (x, BAR), &format!("fill=\"{colour}\" rx=\"2\""));
        let end = if passes < goal && panel.x(*goal) - x < FIGURE { panel.x(*goal) } else { x };
        text(svg, left + end + 5.0, top + 11.0, &format!("fill=\"{INK}\" font-size=\"11\""), &short(*passes));
    }
}

/// A line at each goal, along the rows that have it.
fn goals(svg: &mut String, panel: &Panel, left: f64) {
    let mut from = 0;
    for same in panel.bars.chunk_by(|a, b| a.1 == b.1) {
        let x = left + panel.x(same[0].1);
        line(svg, (x, y(from) + 1.0), (x, y(from + same.len()) - 1.0), GOAL);
        from += same.len();
    }
}

fn draw(svg: &mut String, panel: &Panel, left: f64) {
    text(svg, left, TOP - 34.0, &format!("fill=\"{INK}\" style=\"font: 600 14px {FONT}\""), panel.title);
    text(svg, left, TOP - 16.0, &format!("fill=\"{GREY}\" font-size=\"11\""), panel.under);
    scale(svg, panel, left);
    bars(svg, panel, left);
    goals(svg, panel, left);
}

fn legend(svg: &mut String, at: f64) {
    let style = format!("fill=\"{GREY}\" font-size=\"11\"");
    rectangle(svg, (LEFT, at - 10.0), (14.0, 10.0), &format!("fill=\"{WITHIN}\" rx=\"2\""));
    text(svg, LEFT + 20.0, at, &style, "within the goal");
    rectangle(svg, (LEFT + 120.0, at - 10.0), (14.0, 10.0), &format!("fill=\"{ABOVE}\" rx=\"2\""));
    text(svg, LEFT + 140.0, at, &style, "above the goal");
    line(svg, (LEFT + 240.0, at - 11.0), (LEFT + 240.0, at + 1.0), GOAL);
    text(svg, LEFT + 248.0, at, &style, "the goal");
    text(
        svg,
        LEFT + 320.0,
        at,
        &style,
        "passes over a window's bytes, shorter is better; each panel has its own logarithmic scale",
    );
}

/// The names of a window's rows, those with one goal side by side.
fn names(typical: &Measured) -> Vec<&'static str> {
    let mut rows: Vec<_> = typical.rows.iter().map(|row| (row.goal, row.name)).collect();
    rows.sort_by(|a, b| a.0.total_cmp(&b.0));
    rows.into_iter().map(|row| row.1).collect()
}

/// The picture of all windows: typical, busy, and the highest figure of the others.
pub fn chart(all: &[Measured]) -> String {
    let names = names(&all[0]);
    let height = y(names.len()) + 60.0;
    let mut svg = format!(
        "<svg xmlns=\"http://www.w3.org/2000/svg\" width=\"{WIDTH}\" height=\"{height}\" viewBox=\"0 0 {WIDTH} {height}\" \
         font-family=\"{FONT}\">\n"
    );
    rectangle(&mut svg, (0.0, 0.0), (WIDTH, height), "fill=\"#ffffff\"");
    text(&mut svg, 20.0, 32.0, &format!("fill=\"{INK}\" style=\"font: 600 18px {FONT}\""), "The calls in passes");
    for (i, name) in names.iter().enumerate() {
        let style = format!("fill=\"{INK}\" font-size=\"12\" text-anchor=\"end\"");
        text(&mut svg, LEFT - 10.0, y(i) + ROW / 2.0 + 4.0, &style, name);
    }
    let panels = [
        Panel::new("Typical window", "goals: 1.5 to read, 2 to write, 5 to delegate", &names, &all[..1]),
        Panel::new("Busy window", "256 entries, 100 live changes; goal: 10", &names, &all[1..2]),
        Panel::new("Worst windows", "the highest figure of five; goal: 300", &names, &all[2..]),
    ];
    for (i, panel) in panels.iter().enumerate() {
        draw(&mut svg, panel, LEFT + (PANEL + GAP) * i as f64);
    }
    legend(&mut svg, height - 18.0);
    svg + "</svg>\n"
}
