//! The printed table.

/// What was found of a job.
pub struct Row {
    pub job: String,
    pub gates: usize,
    /// Nanoseconds a call.
    pub plain: f64,
    /// Of the library under test, if it is linked.
    pub library: Option<Measured>,
}

pub struct Measured {
    /// Nanoseconds a call.
    pub time: f64,
    /// Whether result and buffers are those of the plain program.
    pub agrees: bool,
}

/// The times of each job and size; a group is one job's.
pub fn times(groups: &[Vec<Row>]) -> String {
    let head = line(["job", "gates", "library ns", "plain ns", "ratio", ""]);
    let body = groups.iter().flatten().map(|row| {
        let library = row.library.as_ref();
        line([
            &row.job,
            &row.gates.to_string(),
            &cell(library.map(|library| library.time), 0),
            &cell(Some(row.plain), 0),
            &cell(library.map(|library| library.time / row.plain), 2),
            remark(row),
        ])
    });
    head + &body.collect::<String>()
}

fn remark(row: &Row) -> &'static str {
    match &row.library {
        Some(library) if !library.agrees => "DIFFERS",
        _ => "",
    }
}

/// By how much each job's size and costs grow from its first row to its last.
pub fn growth(groups: &[Vec<Row>]) -> String {
    let head = line(["growth", "gates", "library", "plain", "", ""]);
    let ends = groups
        .iter()
        .filter_map(|rows| rows.first().zip(rows.last()));
    let body = ends.map(|(small, large)| {
        let library = small.library.as_ref().zip(large.library.as_ref());
        line([
            &small.job,
            &cell(Some(large.gates as f64 / small.gates as f64), 1),
            &cell(library.map(|(small, large)| large.time / small.time), 1),
            &cell(Some(large.plain / small.plain), 1),
            "",
            "",
        ])
    });
    head + &body.collect::<String>()
}

/// A number, or a dash for one that there isn't.
fn cell(number: Option<f64>, decimals: usize) -> String {
    number.map_or("-".to_string(), |number| format!("{number:.decimals$}"))
}

fn line([job, gates, library, plain, ratio, remark]: [&str; 6]) -> String {
    let columns = format!("{job:<18}{gates:>6}{library:>12}{plain:>12}{ratio:>8}  {remark}");
    columns.trim_end().to_string() + "\n"
}
