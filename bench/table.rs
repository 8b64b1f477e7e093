//! What was measured, as tables.
use crate::cases::{Case, Kind, Set};
use crate::perform::Call::*;
use crate::timing::Times;
use std::fmt::Write;

/// A row of a window's table.
pub struct Row {
    pub name: &'static str,
    pub goal: f64,
    pub times: Times,
    pub instructions: Option<u64>,
}

impl Row {
    pub fn passes(&self) -> f64 {
        self.times.call / self.times.pass
    }
}

pub struct Measured {
    pub name: &'static str,
    pub holds: &'static str,
    pub rows: Vec<Row>,
}

/// The most passes that a case should take on a window.
pub fn goal(set: &Set, case: &Case) -> f64 {
    match (set.name, case.kind) {
        ("typical", Kind::Done(Delegate(..))) => 5.0,
        ("typical", Kind::Check | Kind::Refused(_)) => 1.5,
        ("typical", Kind::Done(Read(..) | Status(_) | Parent(_) | Value(_))) => 1.5,
        ("typical", Kind::Done(_) | Kind::Blocked(_)) => 2.0,
        ("busy", _) => 10.0,
        _ => 300.0,
    }
}

/// Two decimals below 10, one below 100, none above; thousands are set apart.
pub fn short(x: f64) -> String {
    match x {
        x if x < 10.0 => format!("{x:.2}"),
        x if x < 100.0 => format!("{x:.1}"),
        x => grouped(x.round() as u64),
    }
}

fn grouped(n: u64) -> String {
    match n {
        0..=999 => n.to_string(),
        _ => format!("{},{:03}", grouped(n / 1_000), n % 1_000),
    }
}

fn line(text: &mut String, cells: &[String]) {
    writeln!(text, "| {} |", cells.join(" | ")).expect("a string takes all");
}

/// A row's cells; empty where nothing was measured.
fn cells(row: &Row, counted: bool) -> Vec<String> {
    let t = &row.times;
    let mark = if row.passes() > row.goal { " above" } else { "" };
    let mut cells = vec![
        format!("{:15}", row.name),
        format!("{:>7}", short(row.passes())),
        format!("{:>9}", format!("{}{mark}", row.goal)),
        format!("{:>7}", short(t.call / t.memchr)),
        format!("{:>7}", short(t.model / t.call)),
        format!("{:>7}", t.effect.map_or(String::new(), |effect| short(t.call / effect))),
    ];
    if counted {
        cells.push(format!("{:>12}", row.instructions.map_or(String::new(), grouped)));
    }
    cells
}

/// A window's table.
pub fn table(m: &Measured) -> String {
    let counted = m.rows.iter().any(|row| row.instructions.is_some());
    let mut text = format!("**{}**: {}\n\n", m.name, m.holds);
    let heads =
        [("call", 15), ("passes", 7), ("goal", 9), ("memchrs", 7), ("model", 7), ("effect", 7), ("instructions", 12)];
    let columns = if counted { 7 } else { 6 };
    let head: Vec<String> = heads[..columns].iter().map(|(name, width)| format!("{name:width$}")).collect();
    let rule = |(i, (_, width)): (usize, &(&str, usize))| {
        if i == 0 {
            "-".repeat(*width)
        } else {
            "-".repeat(width - 1) + ":"
        }
    };
    let rule: Vec<String> = heads[..columns].iter().enumerate().map(rule).collect();
    line(&mut text, &head);
    line(&mut text, &rule);
    m.rows.iter().for_each(|row| line(&mut text, &cells(row, counted)));
    text
}

/// The yardsticks of a whole run: the shortest of each over all rows, in passes.
pub fn yardsticks(all: &[Measured]) -> String {
    let shortest = |time: fn(&Times) -> f64| {
        let times = all.iter().flat_map(|m| &m.rows).map(|row| time(&row.times));
        times.fold(f64::MAX, f64::min)
    };
    let pass = shortest(|t| t.pass);
    format!(
        "A pass took {:.2} microseconds; the plain loop {} passes, memchr {} passes.\n",
        pass / 1_000.0,
        short(shortest(|t| t.plain) / pass),
        short(shortest(|t| t.memchr) / pass)
    )
}
