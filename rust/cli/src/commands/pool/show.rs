//! Showing a pool, to people, to spreadsheets and to scripts.

use std::fmt::Write as _;
use std::io::Write;

use pevghazo::{Pool, Run, Size};

use crate::arguments::Arguments;
use crate::failure::Failure;
use crate::output::print;
use crate::state_file::Used;

/// What is shown of a pool.
struct Shown {
    /// All runs, by size and first number.
    runs: Vec<Run>,
    /// How many rings they have together, by the proved library.
    rings: u64,
    /// The number of the commit that the state file is of.
    commit: u64,
}

/// Shows the runs and rings of each size, and the runs.
pub fn show(arguments: &Arguments, out: &mut dyn Write) -> Result<(), Failure> {
    let [csv, json, runs] = ["csv", "json", "runs"].map(|name| arguments.has(name));
    if json && (csv || runs) {
        return Err(Failure::Usage(
            "With --json neither --csv nor --runs may be given: it has everything.".to_string(),
        ));
    }
    let used = Used::<Pool>::open(arguments)?;
    let shown = Shown { runs: used.state.runs(), rings: used.state.rings(), commit: used.generation() };
    // Whoever reads the output may be slow, and needs the state file no more.
    drop(used);
    print(
        out,
        &match (csv, runs) {
            _ if json => shown.json(),
            (true, true) => shown.csv_of_runs(),
            (true, false) => shown.csv_of_sizes(),
            (false, true) => shown.table_of_runs(),
            (false, false) => format!("{}\n{}", shown.table_of_sizes(), shown.table_of_runs()),
        },
    )
}

impl Shown {
    /// Each size with its runs and rings, also one that has none.
    fn sizes(&self) -> impl Iterator<Item = (Size, usize, u64)> {
        Size::ALL.into_iter().map(|size| {
            let runs = || self.runs.iter().filter(|run| run.size == size);
            (size, runs().count(), runs().map(|run| run.rings()).sum())
        })
    }

    /// For people: a line for each size, and one for all together.
    fn table_of_sizes(&self) -> String {
        let mut text = format!("{:5} {:>5} {:>10}\n", "size", "runs", "rings");
        for (size, runs, rings) in self.sizes() {
            let _ = writeln!(text, "{size:5} {runs:5} {rings:10}");
        }
        let _ = writeln!(text, "{:5} {:5} {:10}", "total", self.runs.len(), self.rings);
        text
    }

    /// For people: a line for each run.
    fn table_of_runs(&self) -> String {
        let mut text = format!("{:5} {:>9} {:>9} {:>9}\n", "size", "first", "last", "rings");
        for run @ Run { size, first, last } in &self.runs {
            let _ = writeln!(text, "{size:5} {first:9} {last:9} {:9}", run.rings());
        }
        text
    }

    /// The sizes as a table with commas. No field needs quotes, and lines end with a line feed alone. It has no line for all together,
    /// which a sum over a column would count twice.
    fn csv_of_sizes(&self) -> String {
        let rows = self.sizes().map(|(size, runs, rings)| format!("{size},{runs},{rings}\n"));
        String::from("size,runs,rings\n") + &rows.collect::<String>()
    }

    /// The runs as a table with commas.
    fn csv_of_runs(&self) -> String {
        let row = |run: &Run| format!("{},{},{},{}\n", run.size, run.first, run.last, run.rings());
        String::from("size,first,last,rings\n") + &self.runs.iter().map(row).collect::<String>()
    }

    /// For scripts: a JSON object.
    fn json(&self) -> String {
        let size = |(size, runs, rings)| format!(r#"{{"size":"{size}","runs":{runs},"rings":{rings}}}"#);
        let run = |run: &Run| {
            let Run { size, first, last } = run;
            format!(r#"{{"size":"{size}","first":{first},"last":{last},"rings":{}}}"#, run.rings())
        };
        let sizes: Vec<String> = self.sizes().map(size).collect();
        let list: Vec<String> = self.runs.iter().map(run).collect();
        format!(
            "{{\"commit\":{},\"runs\":{},\"rings\":{},\"sizes\":[{}],\"list\":[{}]}}\n",
            self.commit,
            self.runs.len(),
            self.rings,
            sizes.join(","),
            list.join(",")
        )
    }
}
