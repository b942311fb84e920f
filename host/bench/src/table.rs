//! What is measured, and how it is printed.

/// What a row is held to.
pub enum Goal {
    /// At least so many times as fast as the Rust.
    Times(f64),
    /// At most so many times as long as a copy of the answer.
    Copies(f64),
    /// Less than so many milliseconds.
    Milliseconds(f64),
}

/// The times of one row in nanoseconds for one cell.
pub struct Measured {
    pub ours: f64,
    pub rust: f64,
    pub memcpy: Option<f64>,
}

impl Goal {
    fn text(&self) -> String {
        match self {
            Goal::Times(n) => format!(">= {n} x"),
            Goal::Copies(n) => format!("<= {n} memcpy"),
            Goal::Milliseconds(n) => format!("< {n} ms"),
        }
    }

    fn is_met(&self, m: &Measured) -> bool {
        match self {
            Goal::Times(n) => m.rust / m.ours >= *n,
            Goal::Copies(n) => m.memcpy.is_some_and(|copy| m.ours <= n * copy),
            Goal::Milliseconds(n) => m.ours < n * 1e6,
        }
    }
}

pub const HEAD: [&str; 7] = [
    "what",
    "ours, ns",
    "the Rust, ns",
    "memcpy, ns",
    "goal",
    "",
    "ratio",
];

pub fn line(what: &str, goals: &[Goal], m: &Measured) -> Vec<String> {
    let texts: Vec<String> = goals.iter().map(Goal::text).collect();
    let verdict = match goals {
        [] => "",
        _ => verdict(goals.iter().all(|goal| goal.is_met(m))),
    };
    vec![
        what.to_string(),
        nanoseconds(m.ours),
        nanoseconds(m.rust),
        m.memcpy.map_or(String::new(), nanoseconds),
        texts.join(", "),
        verdict.to_string(),
        format!("{:.2}", m.rust / m.ours),
    ]
}

pub fn verdict(met: bool) -> &'static str {
    if met { "met" } else { "missed" }
}

/// One digit behind the point below a thousand, else commas between the thousands.
pub fn nanoseconds(ns: f64) -> String {
    if ns < 1000.0 {
        return format!("{ns:.1}");
    }
    let digits = format!("{ns:.0}");
    let groups: Vec<&str> = digits
        .as_bytes()
        .rchunks(3)
        .rev()
        .map(|g| std::str::from_utf8(g).unwrap())
        .collect();
    groups.join(",")
}

/// The first column to the left, the others to the right.
pub fn print(head: &[&str], lines: &[Vec<String>]) {
    let width = |i: usize| {
        let column = lines.iter().map(|line| line[i].len());
        column.chain([head[i].len()]).max().unwrap()
    };
    let widths: Vec<usize> = (0..head.len()).map(width).collect();
    let show = |cells: Vec<&str>| {
        let padded = cells.iter().enumerate().map(|(i, cell)| match i {
            0 => format!("{cell:<w$}", w = widths[i]),
            _ => format!("{cell:>w$}", w = widths[i]),
        });
        println!("| {} |", padded.collect::<Vec<_>>().join(" | "));
    };
    show(head.to_vec());
    let rules: Vec<String> = widths
        .iter()
        .enumerate()
        .map(|(i, w)| match i {
            0 => "-".repeat(*w),
            _ => "-".repeat(w - 1) + ":",
        })
        .collect();
    show(rules.iter().map(String::as_str).collect());
    for line in lines {
        show(line.iter().map(String::as_str).collect());
    }
}
