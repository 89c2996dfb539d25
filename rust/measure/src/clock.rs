//! Two sides timed in turn, and a line for what came of it.

use std::time::Instant;

/// A batch of calls on one side.
pub type Side = Box<dyn FnMut()>;

/// What is measured: the same batch of calls on both sides.
pub struct Row {
    name: String,
    bar: Option<f64>,
    calls: u32,
    ours: Side,
    rust: Side,
    /// Nanoseconds a call, of neighbouring batches.
    pairs: Vec<(f64, f64)>,
}

impl Row {
    /// A batch of either side makes `calls` calls.
    pub fn new(name: &str, bar: Option<f64>, calls: usize, ours: Side, rust: Side) -> Row {
        Row { name: name.to_string(), bar, calls: calls as u32, ours, rust, pairs: Vec::new() }
    }

    /// The two sides take turns, so that whatever else the machine does falls on both. The first pair fills the caches and
    /// is not counted.
    fn measure(&mut self, batches: usize) {
        time(&mut self.ours, self.calls);
        time(&mut self.rust, self.calls);
        for _ in 0..batches {
            self.pairs.push((time(&mut self.ours, self.calls), time(&mut self.rust, self.calls)));
        }
    }

    /// The ratio is that of the least times, which other work on the machine disturbs least; beside it stands the median of
    /// the ratios of neighbouring batches. The bar is held to the first.
    fn show(&self) {
        let ours = self.pairs.iter().map(|pair| pair.0).fold(f64::MAX, f64::min);
        let rust = self.pairs.iter().map(|pair| pair.1).fold(f64::MAX, f64::min);
        let ratio = ours / rust;
        let middle = median(self.pairs.iter().map(|pair| pair.0 / pair.1).collect());
        print!("{:<44}{ours:>12.1}{rust:>12.1}{ratio:>8.2}{middle:>8.2}", self.name);
        match self.bar {
            None => println!("{:>6}", "-"),
            Some(bar) => println!("{bar:>6.1}  {}", if ratio <= bar { "met" } else { "missed" }),
        }
    }
}

fn time(side: &mut Side, calls: u32) -> f64 {
    let start = Instant::now();
    side();
    start.elapsed().as_nanos() as f64 / f64::from(calls)
}

fn median(mut list: Vec<f64>) -> f64 {
    list.sort_by(f64::total_cmp);
    list[list.len() / 2]
}

/// Goes round all rows several times, so that no row has to make do with one busy moment of the machine, and shows them.
pub fn measure(mut rows: Vec<Row>, rounds: usize, batches: usize) {
    for _ in 0..rounds {
        rows.iter_mut().for_each(|row| row.measure(batches));
    }
    println!("{:<44}{:>12}{:>12}{:>8}{:>8}{:>6}", "nanoseconds a call, and their ratio", "ours", "Rust", "ratio", "median", "bar");
    rows.iter().for_each(Row::show);
}
