//! Counts of what was compared.

use std::fmt::{Display, Formatter, Result};

const KIND_WIDTH: usize = 24;

/// A line of counts for each kind of request.
pub struct Tally {
    columns: &'static [&'static str],
    lines: Vec<(&'static str, Vec<usize>)>,
}

impl Tally {
    pub fn new(columns: &'static [&'static str]) -> Tally {
        Tally {
            columns,
            lines: Vec::new(),
        }
    }

    /// Counts one request of a kind in a column. Kinds are shown in the order
    /// of their first requests.
    pub fn count(&mut self, kind: &'static str, column: usize) {
        let found = self.lines.iter().rposition(|(line, _)| *line == kind);
        let line = found.unwrap_or_else(|| {
            self.lines.push((kind, vec![0; self.columns.len()]));
            self.lines.len() - 1
        });
        self.lines[line].1[column] += 1;
    }

    /// Stops if a column has fewer requests than these.
    pub fn at_least(&self, least: usize) {
        for (name, sum) in self.columns.iter().zip(self.sums()) {
            assert!(sum >= least, "only {sum} of \"{name}\"");
        }
    }

    fn sums(&self) -> Vec<usize> {
        let column = |i: usize| self.lines.iter().map(|(_, counts)| counts[i]).sum();
        (0..self.columns.len()).map(column).collect()
    }

    fn write_line(&self, f: &mut Formatter<'_>, kind: &str, counts: &[usize]) -> Result {
        write!(f, "{kind:KIND_WIDTH$}")?;
        write!(f, "{:>9}", counts.iter().sum::<usize>())?;
        for (count, name) in counts.iter().zip(self.columns) {
            write!(f, "{count:>0$}", width(name))?;
        }
        writeln!(f)
    }
}

/// Prints counts with their names, and stops if one is less than these.
pub fn print_counts(title: &str, names: &[&str], counts: &[usize], least: usize) {
    println!("{title}");
    for (name, &count) in names.iter().zip(counts) {
        println!("  {name:22}{count:>9}");
        assert!(count >= least, "only {count} of \"{name}\"");
    }
}

fn width(name: &str) -> usize {
    name.len().max(6) + 2
}

impl Display for Tally {
    fn fmt(&self, f: &mut Formatter<'_>) -> Result {
        write!(f, "{:KIND_WIDTH$}{:>9}", "kind", "all")?;
        for name in self.columns {
            write!(f, "{name:>0$}", width(name))?;
        }
        writeln!(f)?;
        for (kind, counts) in &self.lines {
            self.write_line(f, kind, counts)?;
        }
        self.write_line(f, "sum", &self.sums())
    }
}
