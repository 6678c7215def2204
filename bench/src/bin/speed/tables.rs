//! The tables that are printed.
use crate::inputs::Size;
use crate::services::{Call, Implementation, Service};
use crate::timing::Times;
use Implementation::{BitParallel, Plain, Proved};

/// What was measured of one call at one size.
pub struct Measured<T> {
    pub size: Size,
    pub by: Implementation,
    pub call: Call,
    pub value: T,
}

/// What is said of a call: the service as it is called, or with the reading of its files taken off.
#[derive(Clone, Copy)]
pub struct Line {
    service: Service,
    reading: bool,
}

impl Line {
    pub fn all() -> Vec<Line> {
        let whole = Service::ALL.into_iter().map(|service| Line { service, reading: true });
        let rest = Service::ALL.into_iter().filter(|service| service.reading().is_some()).map(|service| Line { service, reading: false });
        whole.chain(rest).collect()
    }

    fn name(self) -> String {
        format!("{}{}", self.service.name(), if self.reading { "" } else { ", less reading" })
    }
}

/// All that was measured, with a way to pick one figure of each value.
pub struct Figures<'a, T> {
    pub all: &'a [Measured<T>],
    pub pick: fn(&T) -> f64,
}

impl<T> Figures<'_, T> {
    fn of_call(&self, size: Size, by: Implementation, call: Call) -> Option<f64> {
        let found = self.all.iter().find(|m| m.size == size && m.by == by && m.call == call)?;
        Some((self.pick)(&found.value))
    }

    fn of(&self, size: Size, by: Implementation, line: Line) -> Option<f64> {
        let whole = self.of_call(size, by, Call { service: line.service, only_read: false })?;
        match line.service.reading() {
            Some(reading) if !line.reading => Some(whole - self.of_call(size, by, reading)?),
            _ => Some(whole),
        }
    }

    fn ratio(&self, size: Size, line: Line, to: Implementation) -> Option<f64> {
        Some(self.of(size, Proved, line)? / self.of(size, to, line)?)
    }
}

pub fn micro(us: f64) -> String {
    match us {
        _ if us < 10.0 => format!("{us:.2}"),
        _ if us < 1000.0 => format!("{us:.1}"),
        _ => thousands(us),
    }
}

fn thousands(value: f64) -> String {
    let digits = format!("{value:.0}");
    let groups: Vec<&str> = digits.as_bytes().rchunks(3).rev().map(|group| std::str::from_utf8(group).unwrap()).collect();
    groups.join(",")
}

fn list(figures: impl Iterator<Item = f64>, told: fn(f64) -> String) -> String {
    figures.map(told).collect::<Vec<_>>().join("; ")
}

pub fn print_line(cells: &[String]) {
    println!("| {} |", cells.join(" | "));
}

pub fn print_head(columns: &[String]) {
    print_line(columns);
    println!("|{}", "---|".repeat(columns.len()));
}

/// A line for each service, with the figures of each implementation at one size and the library's ratios to two of them.
fn print_compared<T>(title: &str, figures: &[Figures<T>], size: Size, told: fn(f64) -> String) {
    let columns = [title, "proved", "plain Rust", "second", "bit-parallel", "proved to plain Rust", "proved to bit-parallel"];
    print_head(&columns.map(str::to_string));
    for line in Line::all() {
        let mut cells = vec![line.name()];
        cells.extend(Implementation::ALL.map(|by| list(figures.iter().filter_map(|f| f.of(size, by, line)), told)));
        let ratio = |ratio: f64| format!("{ratio:.2}");
        cells.extend([Plain, BitParallel].map(|to| list(figures.iter().filter_map(|f| f.ratio(size, line, to)), ratio)));
        print_line(&cells);
    }
}

/// Best and median times at one size.
pub fn print_times(all: &[Measured<Times>], size: Size) {
    let best = Figures { all, pick: |times| times.best };
    let median = Figures { all, pick: |times| times.median };
    print_compared("µs a call, best; median", &[best, median], size, micro);
}

/// Instructions at one size.
pub fn print_counts(all: &[Measured<f64>], size: Size) {
    print_compared("instructions a call", &[Figures { all, pick: |count| *count }], size, thousands);
}

/// Best times at each size.
pub fn print_growth(all: &[Measured<Times>], sizes: &[Size]) {
    let best = Figures { all, pick: |times| times.best };
    let mut columns = vec!["µs a call, best: proved; plain Rust; second; bit-parallel".to_string()];
    columns.extend(sizes.iter().map(|size| format!("{} rows, {} cycles", size.rows, size.cycles)));
    print_head(&columns);
    for line in Line::all() {
        let mut cells = vec![line.name()];
        cells.extend(sizes.iter().map(|&size| list(Implementation::ALL.into_iter().filter_map(|by| best.of(size, by, line)), micro)));
        print_line(&cells);
    }
}
