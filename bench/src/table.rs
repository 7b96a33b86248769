//! Tables of results, and which aims are met.

use std::fmt;

/// What a ratio is to be.
#[derive(Clone, Copy)]
pub enum Aim {
    AtLeast(f64),
    AtMost(f64),
}

impl Aim {
    pub fn judge(self, ratio: f64) -> Verdict {
        let met = match self {
            Aim::AtLeast(least) => ratio >= least,
            Aim::AtMost(most) => ratio <= most,
        };
        if met {
            Verdict::Met
        } else {
            Verdict::Missed
        }
    }
}

impl fmt::Display for Aim {
    fn fmt(&self, f: &mut fmt::Formatter) -> fmt::Result {
        match self {
            Aim::AtLeast(least) => write!(f, "at least {least}"),
            Aim::AtMost(most) => write!(f, "at most {most}"),
        }
    }
}

#[derive(Clone, Copy, Debug, PartialEq, Eq)]
pub enum Verdict {
    Met,
    Missed,
    NotMeasured,
    NoAim,
}

impl Verdict {
    fn word(self) -> &'static str {
        match self {
            Verdict::Met => "yes",
            Verdict::Missed => "NO",
            Verdict::NotMeasured | Verdict::NoAim => "-",
        }
    }
}

/// A cell for each column but the last, which is the verdict's.
pub struct Row {
    pub cells: Vec<String>,
    pub verdict: Verdict,
}

pub struct Table {
    pub title: &'static str,
    pub head: Vec<String>,
    pub rows: Vec<Row>,
    /// Under the rows, a line each.
    notes: Vec<String>,
}

impl Table {
    pub fn new(title: &'static str, head: &[&str], rows: Vec<Row>) -> Table {
        let head = head.iter().map(|column| column.to_string()).collect();
        Table {
            title,
            head,
            rows,
            notes: Vec::new(),
        }
    }

    /// Where there is nothing but something to say.
    pub fn only_notes(title: &'static str, notes: Vec<String>) -> Table {
        Table::new(title, &[], Vec::new()).with_notes(notes)
    }

    pub fn with_notes(self, notes: Vec<String>) -> Table {
        Table { notes, ..self }
    }

    pub fn count(&self, verdict: Verdict) -> usize {
        let rows = self.rows.iter();
        rows.filter(|row| row.verdict == verdict).count()
    }

    /// The head and the rows, with the verdicts where there is an aim at all.
    fn lines(&self) -> Vec<Vec<&str>> {
        let judged = self.count(Verdict::NoAim) < self.rows.len();
        let head = line(&self.head, judged.then_some("met"));
        let of = |row: &'_ Row| judged.then_some(row.verdict.word());
        let rows = self.rows.iter().map(|row| line(&row.cells, of(row)));
        [head].into_iter().chain(rows).collect()
    }
}

fn line<'a>(cells: &'a [String], last: Option<&'a str>) -> Vec<&'a str> {
    cells.iter().map(String::as_str).chain(last).collect()
}

/// In Markdown, with its columns aligned for who reads it as it is.
impl fmt::Display for Table {
    fn fmt(&self, f: &mut fmt::Formatter) -> fmt::Result {
        writeln!(f, "## {}", self.title)?;
        if !self.head.is_empty() {
            writeln!(f)?;
            grid(f, &self.lines())?;
        }
        for note in &self.notes {
            writeln!(f, "\n{note}")?;
        }
        Ok(())
    }
}

fn grid(f: &mut fmt::Formatter, lines: &[Vec<&str>]) -> fmt::Result {
    let width = |column: usize| lines.iter().map(|line| line[column].chars().count()).max();
    let widths: Vec<usize> = (0..lines[0].len()).filter_map(width).collect();
    for (number, line) in lines.iter().enumerate() {
        for (cell, width) in line.iter().zip(&widths) {
            write!(f, "| {cell:width$} ")?;
        }
        writeln!(f, "|")?;
        if number == 0 {
            let rules = widths.iter().map(|width| "-".repeat(width + 2));
            writeln!(f, "|{}|", rules.collect::<Vec<_>>().join("|"))?;
        }
    }
    Ok(())
}

/// A whole number, with commas.
pub fn grouped(number: f64) -> String {
    let digits = format!("{number:.0}");
    let mut grouped = String::new();
    for (index, digit) in digits.chars().enumerate() {
        if index > 0 && (digits.len() - index) % 3 == 0 {
            grouped.push(',');
        }
        grouped.push(digit);
    }
    grouped
}
