//! The tables, a line for each plan and stream, one for each kind of masking, one for each task on sets and one for each kind of
//! window file, and whether they meet the targets.

use crate::contender::{Call, EQUATIONS, LIBRARY, PLAIN, TUNED};
use crate::masks::Masking;
use crate::sets::{self, Task};
use crate::stream::{Kind, SEASON};
use independent::Code;
use traymark_tests::plans::Shape;

/// A plan and a stream, with the median microseconds of each contender.
pub struct Line {
    pub season: u16,
    pub shape: Shape,
    pub call: Call,
    pub kind: Kind,
    pub library: f64,
    pub plain: f64,
    pub tuned: f64,
    pub equations: f64,
    /// the library's slowest mark
    pub slowest: f64,
    /// the library's median of the plan's clean marks
    pub clean: f64,
}

/// The head of a column with ratios to the library's times.
fn over(name: &str) -> String {
    format!("{name}/lib")
}

/// A plan of that shape.
fn described(shape: Shape) -> String {
    match shape {
        (p, rows, columns, d) if rows == columns => format!("p {p} n {rows} d {d}"),
        (p, rows, columns, d) => format!("p {p} {rows} by {columns} d {d}"),
    }
}

/// A plan of that season and shape. The season is said where it is another than that of most lines.
fn planned(season: u16, shape: Shape) -> String {
    let shape = described(shape);
    match season {
        SEASON => shape,
        season => format!("{shape} season {season}"),
    }
}

pub fn print_head() {
    println!(
        "{:<24} {:<35} {:>9} {:>9} {:>9} {:>9} {:>9} {:>9} {:>13} {:>9} {:>13}",
        "plan",
        "call and marks",
        LIBRARY.name,
        PLAIN.name,
        TUNED.name,
        EQUATIONS.name,
        over(PLAIN.name),
        over(TUNED.name),
        over(EQUATIONS.name),
        "slowest",
        "slowest/clean"
    );
}

impl Line {
    pub fn print(&self) {
        let Line { library, plain, tuned, equations, slowest, .. } = self;
        print!("{:<24} {:<35} {library:>9.2} {plain:>9.2} {tuned:>9.2} {equations:>9.2}", self.plan(), self.what());
        print!(" {:>9.2} {:>9.2} {:>13.1}", self.plain_ratio(), tuned / library, self.equations_ratio());
        match self.is_reading() {
            true => println!(" {slowest:>9.2} {:>13.1}", self.slowest_ratio()),
            false => println!(),
        }
    }

    fn plan(&self) -> String {
        planned(self.season, self.shape)
    }

    fn what(&self) -> String {
        match self.call {
            Call::Read => format!("read {}", self.kind.described()),
            Call::Write => "write".into(),
            Call::Measure => "measure".into(),
            Call::Explain => "explain".into(),
        }
    }

    fn is_reading(&self) -> bool {
        self.call == Call::Read
    }

    /// Clean marks of a degree that matters.
    fn is_clean_reading(&self) -> bool {
        self.is_reading() && self.kind == Kind::Clean && [7, 15].contains(&self.shape.3)
    }

    fn plain_ratio(&self) -> f64 {
        self.plain / self.library
    }

    fn equations_ratio(&self) -> f64 {
        self.equations / self.library
    }

    fn slowest_ratio(&self) -> f64 {
        self.slowest / self.clean
    }
}

/// What every line that it concerns has to reach.
struct Target {
    says: &'static str,
    concerns: fn(&Line) -> bool,
    ratio: fn(&Line) -> f64,
    is_met: fn(f64) -> bool,
}

const NO_LONGER: &str = "the library takes no longer than the plain port";

const TARGETS: [Target; 4] = [
    Target { says: NO_LONGER, concerns: |_| true, ratio: Line::plain_ratio, is_met: |ratio| ratio >= 1.0 },
    Target {
        says: "clean marks with d 7 and 15 are read 100 times as fast as by equations",
        concerns: Line::is_clean_reading,
        ratio: Line::equations_ratio,
        is_met: |ratio| ratio >= 100.0,
    },
    Target {
        says: "all others are read 30 times as fast as by equations",
        concerns: |line| line.is_reading() && !line.is_clean_reading(),
        ratio: Line::equations_ratio,
        is_met: |ratio| ratio >= 30.0,
    },
    Target {
        says: "no mark takes longer than 40 clean marks of its plan",
        concerns: Line::is_reading,
        ratio: Line::slowest_ratio,
        is_met: |ratio| ratio <= 40.0,
    },
];

/// For each target that it is met, or the lines that miss it.
pub fn print_targets(lines: &[Line]) {
    for target in &TARGETS {
        let is_missed = |line: &&Line| (target.concerns)(line) && !(target.is_met)((target.ratio)(line));
        let missed = lines.iter().filter(is_missed);
        let named = missed.map(|line| (format!("{} {}", line.plan(), line.what()), (target.ratio)(line)));
        print_target(target.says, named.collect());
    }
}

fn print_target(says: &str, missed: Vec<(String, f64)>) {
    match missed.is_empty() {
        true => println!("met: {says}"),
        false => println!("MISSED: {says}:"),
    }
    for (line, ratio) in missed {
        println!("    {line}: {ratio:.2}");
    }
}

/// A kind of masking, with the median microseconds of each contender.
pub struct MaskLine {
    pub masking: Masking,
    pub library: f64,
    pub plain: f64,
    pub tuned: f64,
}

pub fn print_mask_head() {
    println!(
        "{:<34} {:>9} {:>9} {:>9} {:>9} {:>9}",
        "masking",
        LIBRARY.name,
        PLAIN.name,
        TUNED.name,
        over(PLAIN.name),
        over(TUNED.name)
    );
}

impl MaskLine {
    pub fn print(&self) {
        let MaskLine { library, plain, tuned, .. } = self;
        print!("{:<34} {library:>9.3} {plain:>9.3} {tuned:>9.3}", self.what());
        println!(" {:>9.2} {:>9.2}", self.plain_ratio(), tuned / library);
    }

    fn what(&self) -> String {
        let Masking { code, shape, way } = self.masking;
        let what = match code {
            Code::Mark => "a mark",
            Code::Strip => "a strip",
        };
        format!("{} {} {what}", described(shape), way.name())
    }

    fn plain_ratio(&self) -> f64 {
        self.plain / self.library
    }
}

pub fn print_mask_target(lines: &[MaskLine]) {
    let missed = lines.iter().filter(|line| line.plain_ratio() < 1.0);
    print_target(NO_LONGER, missed.map(|line| (line.what(), line.plain_ratio())).collect());
}

/// What is held against the plain port alone, with the median microseconds of each.
pub struct PlainLine {
    pub what: String,
    pub library: f64,
    pub plain: f64,
}

pub fn print_plain_head(title: &str) {
    println!("{title:<46} {:>9} {:>9} {:>9}", LIBRARY.name, PLAIN.name, over(PLAIN.name));
}

impl PlainLine {
    pub fn print(&self) {
        let PlainLine { what, library, plain } = self;
        println!("{what:<46} {library:>9.3} {plain:>9.3} {:>9.2}", self.plain_ratio());
    }

    fn plain_ratio(&self) -> f64 {
        self.plain / self.library
    }
}

pub fn print_plain_target(lines: &[PlainLine]) {
    let missed = lines.iter().filter(|line| line.plain_ratio() < 1.0);
    print_target(NO_LONGER, missed.map(|line| (line.what.clone(), line.plain_ratio())).collect());
}

/// That the library takes no longer than the limit, in microseconds, on any of these lines.
pub fn print_limit<'a>(says: &str, limit: f64, lines: impl Iterator<Item = &'a PlainLine>) {
    print_target(
        says,
        lines.filter(|line| line.library > limit).map(|line| (line.what.clone(), line.library)).collect(),
    );
}

/// What is timed of sets.
pub fn set_described(kind: sets::Kind) -> String {
    let plan = planned(kind.season, kind.shape);
    match kind.task {
        Task::Combine => format!("{plan} combine {}", kind.photographs),
        Task::Read => format!("{plan} read a set of {}", kind.photographs),
        Task::ReadCombined => format!("{plan} read its combination"),
        Task::Exchange => format!("{plan} withdraw and add"),
        Task::Start => format!("{plan} start"),
    }
}
