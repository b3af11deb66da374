//! The tables: for each call and shape the library's times, how they grow, and their ratios to the other versions' times.
use crate::inputs::{Ask, Shape};
use crate::timing::{measure, Measured, Version};

pub struct Call {
    pub name: &'static str,
    pub sizes: Sizes,
    pub shapes: Vec<Shape>,
    /// The library's, the plain one of the same algorithm and, where there are any, others.
    pub versions: Vec<Version>,
    /// What is said of the others.
    pub columns: Vec<Column>,
}

/// The sizes of the inputs, each twice the one before, and what they count.
pub type Sizes = (&'static [usize], &'static str);

pub const PART: Sizes = (&[512, 1024, 2048, 4096], "words");
pub const SHOWN: Sizes = (&[128, 256, 512, 1024], "words");
pub const BUNDLE: Sizes = (&[512, 1024, 2048, 4096, 8192], "words");
pub const PLANT: Sizes = (&[16, 32, 64, 128, 256], "nodes");
pub const TRIPLES: Sizes = (&[1534, 3070, 6142, 12_286], "words");
pub const MOST_TRIPLES: Sizes = (&[12_286], "words");

/// A column behind the ratios to plain: its title, and what stands there.
pub type Column = (&'static str, fn(&[Measured]) -> String);

/// A better algorithm, at the last size.
pub const BEST: Column = ("times best known", |sizes| {
    let ratio = sizes[sizes.len() - 1].ratios.get(2);
    ratio.map_or("-".to_string(), |r| format!("{r:.1}"))
});

/// The library's call without groups, which is the last version, at all sizes.
pub const UNGROUPED: Column = ("times without groups", |sizes| by_least(sizes, 0, sizes[0].least.len() - 1));

/// Single calls for the paths of a visit or of desks, the library's and the plain version's.
pub const SINGLE: Column = ("times single calls", |sizes| by_least(sizes, 0, 2));
pub const PLAIN_SINGLE: Column = ("times single calls, both plain", |sizes| by_least(sizes, 1, 3));

/// The times of one version over another's that shares code with it. The least are compared, as the ratio within a round hangs on which comes
/// first.
fn by_least(sizes: &[Measured], over: usize, under: usize) -> String {
    list(sizes.iter().map(|m| m.least[over] / m.least[under]), 2)
}

impl Call {
    fn measured(&self, shape: &Shape) -> Vec<Measured> {
        let asks: Vec<Ask> = self.sizes.0.iter().copied().map(shape.make).collect();
        measure(&self.versions, &asks, &format!("{}, {}", self.name, shape.name))
    }
}

fn list(values: impl Iterator<Item = f64>, places: usize) -> String {
    values.map(|v| format!("{v:.places$}")).collect::<Vec<_>>().join(" ")
}

/// Microseconds. Times that stay below ten have a digit more.
fn times(seconds: impl Iterator<Item = f64> + Clone) -> String {
    let micros = seconds.map(|time| time * 1e6);
    list(micros.clone(), usize::from(micros.clone().all(|time| time < 10.0)))
}

fn row(shape: &Shape, sizes: &[Measured], columns: &[Column]) {
    let library = times(sizes.iter().map(|m| m.least[0]));
    let growth = list(sizes.windows(2).map(|m| m[1].least[0] / m[0].least[0]), 1);
    let ratio = list(sizes.iter().map(|m| m.ratios[1]), 2);
    let more: String = columns.iter().map(|(_, cell)| format!(" {} |", cell(sizes))).collect();
    println!("| {} | {library} | {growth} | {ratio} |{more}", shape.name);
}

/// What is said of a call at the end.
struct Worst {
    ratio: f64,
    seconds: f64,
    shape: &'static str,
}

fn table(call: &Call) -> Worst {
    let (sizes, unit) = call.sizes;
    let sizes = list(sizes.iter().map(|&n| n as f64), 0);
    let more: String = call.columns.iter().map(|(title, _)| format!(" {title} |")).collect();
    println!("\n### {}\n", call.name);
    println!(
        "| input | us at {sizes} {unit} | growth per doubling | times plain |{more}\n|---|---|---|---|{}",
        "---|".repeat(call.columns.len())
    );
    let mut worst = Worst { ratio: 0.0, seconds: 0.0, shape: "" };
    for shape in &call.shapes {
        let sizes = call.measured(shape);
        row(shape, &sizes, &call.columns);
        worst.ratio = sizes.iter().map(|m| m.ratios[1]).fold(worst.ratio, f64::max);
        let seconds = sizes[sizes.len() - 1].least[0];
        if seconds > worst.seconds {
            (worst.seconds, worst.shape) = (seconds, shape.name);
        }
    }
    worst
}

/// At one size the times of three versions, of which the third is named, and those of the first two over its own.
fn beside(call: &Call, third: &str) {
    let (sizes, unit) = call.sizes;
    println!("\n### {}, {} {unit}, beside {third}\n", call.name, sizes[0]);
    println!("| input | us | us, plain | us, {third} | times {third} | plain, times {third} |\n|---|---|---|---|---|---|");
    for shape in &call.shapes {
        let sizes = call.measured(shape);
        let [library, plain, other] = [0, 1, 2].map(|v| times(sizes.iter().map(|m| m.least[v])));
        let (ratio, plain_ratio) = (by_least(&sizes, 0, 2), by_least(&sizes, 1, 2));
        println!("| {} | {library} | {plain} | {other} | {ratio} | {plain_ratio} |", shape.name);
    }
}

/// The tables of all calls, that of a call beside Rust's sort, and what is said of all.
pub fn print(calls: &[Call], sorting: &Call) {
    let worst: Vec<Worst> = calls.iter().map(table).collect();
    beside(sorting, "Rust's sort");
    println!("\n### In all\n\n| call | highest ratio to plain | dearest input | seconds |\n|---|---|---|---|");
    for (call, w) in calls.iter().zip(worst) {
        println!("| {} | {:.2} | {} | {:.6} |", call.name, w.ratio, w.shape, w.seconds);
    }
}
