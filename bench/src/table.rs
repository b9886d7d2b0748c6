//! The lines that are measured, as a table to read.

/// One line: what was done, and the MB/s of each program, in their order; nothing for one that does
/// not do it.
pub struct Line {
    pub label: String,
    pub speeds: Vec<Option<f64>>,
}

impl Line {
    /// Our own speed.
    pub fn ours(&self) -> f64 {
        self.speeds[0].expect("ours")
    }
}

/// The head of the table: a column for each program.
pub fn head(names: &[&str]) -> String {
    let columns: String = names.iter().map(|name| format!(" {name} |")).collect();
    let rule = "---:|".repeat(names.len());
    format!("| MB/s (and as a part of ours) |{columns}\n|---|{rule}")
}

/// A line of it: each speed, and behind the first its ratio to ours.
pub fn row(line: &Line) -> String {
    let cell = |(i, speed): (usize, &Option<f64>)| match speed {
        None => " |".to_string(),
        Some(speed) if i == 0 => format!(" {speed:.1} |"),
        Some(speed) => format!(" {speed:.1} ({:.2}) |", speed / line.ours()),
    };
    let cells: String = line.speeds.iter().enumerate().map(cell).collect();
    format!("| {} |{cells}", line.label)
}
