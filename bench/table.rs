//! The printed tables: ratios, and absolute figures.

#[cfg(before)]
use crate::before;
use crate::timing::{quartiles, Contestant, Undo};
use std::time::Duration;

/// What stands above the columns and before the rows. Case `row * columns.len() + column` stands in a row and a column.
pub struct Axes {
    pub corner: &'static str,
    pub columns: Vec<String>,
    pub rows: Vec<String>,
}

impl Axes {
    pub fn new<C: ToString, R: ToString>(corner: &'static str, columns: &[C], rows: &[R]) -> Self {
        Self {
            corner,
            columns: columns.iter().map(C::to_string).collect(),
            rows: rows.iter().map(R::to_string).collect(),
        }
    }

    /// A case of the table with this title, by its row and its column.
    #[cfg(before)]
    fn case(&self, title: &str, case: usize) -> String {
        let [row, column] = [case / self.columns.len(), case % self.columns.len()];
        format!(
            "{title}: row {}, column {}",
            self.rows[row], self.columns[column]
        )
    }

    /// A table as text, with a figure for each case.
    pub fn table(&self, title: &str, figure: impl Fn(usize) -> String) -> String {
        let width = self.rows.iter().map(String::len).max().unwrap_or(0);
        let width = width.max(self.corner.len());
        let mut text = format!("\n{title}\n{:>width$}", self.corner);
        for column in &self.columns {
            text += &format!("{column:>10}");
        }
        for (row, name) in self.rows.iter().enumerate() {
            text += &format!("\n{name:>width$}");
            for column in 0..self.columns.len() {
                text += &format!("{:>10}", figure(row * self.columns.len() + column));
            }
        }
        text
    }
}

/// What is measured: its title, the contestants, of which the first is the library, what follows each turn untimed, and a
/// figure for the nanoseconds of a turn at a case, in some unit.
pub struct Contest<'a, C> {
    pub title: &'a str,
    pub contestants: &'a [Contestant<C>],
    pub undo: Undo<C>,
    pub unit: &'a str,
    pub figure: fn(&C, f64) -> f64,
}

/// The tables of a part of the run, and each case in which the version before was measured, with the ratio to it.
#[derive(Default)]
pub struct Report {
    pub ratios: Vec<String>,
    pub figures: Vec<String>,
    pub to_before: Vec<(String, f64)>,
}

impl Report {
    /// Measures, and adds the ratios of the first contestant to each other one and the figures of all.
    pub fn measure<C>(
        &mut self,
        time: Duration,
        contest: &Contest<C>,
        axes: &Axes,
        cases: &mut [C],
    ) {
        let Contest { title, unit, .. } = contest;
        let quartiles = quartiles(time, cases, contest.contestants, contest.undo);
        let rounds = quartiles.rounds;
        for (which, (name, _)) in contest.contestants.iter().enumerate() {
            let nanoseconds = |case: usize| quartiles.nanoseconds[case][which];
            if which > 0 {
                let about = format!("{title}: {} / {name}", contest.contestants[0].0);
                let times = |case: usize| nanoseconds(case) / quartiles.nanoseconds[case][0];
                self.ratios
                    .push(axes.table(&about, |case| ratio(times(case))));
                #[cfg(before)]
                if *name == before::NAME {
                    let cases = 0..cases.len();
                    self.to_before
                        .extend(cases.map(|case| (axes.case(title, case), times(case))));
                }
            }
            let title = format!("{title}: {name}, {unit}, lower quartile of {rounds} rounds");
            let figure = |case: usize| (contest.figure)(&cases[case], nanoseconds(case));
            self.figures
                .push(axes.table(&title, |case| number(figure(case))));
        }
    }
}

/// A ratio with two places, more where it is small.
pub fn ratio(value: f64) -> String {
    let places = match value {
        0.1.. => 2,
        0.01.. => 3,
        _ => 4,
    };
    format!("{value:.places$}")
}

/// A number with three digits or more.
pub fn number(value: f64) -> String {
    let places = match value {
        100.0.. => 0,
        10.0.. => 1,
        1.0.. => 2,
        _ => 3,
    };
    format!("{value:.places$}")
}

/// Bytes in a turn of some nanoseconds, in MB/s.
pub fn megabytes_per_second(bytes: usize, nanoseconds: f64) -> f64 {
    bytes as f64 * 1000.0 / nanoseconds
}
