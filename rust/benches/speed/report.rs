//! What is printed.

use crate::timing::{FEW_ROUNDS, ROUNDS};
use std::fs;
use std::process::Command;

/// The least that the project wants of a ratio, if it wants something.
pub type Goal = Option<f64>;

/// A row of two versions: its name, and the speed now over the one before.
pub type Change = (String, f64);

/// The machine, and how all is measured.
pub fn head(size: usize) {
    let cpuinfo = fs::read_to_string("/proc/cpuinfo").unwrap_or_default();
    let processor = cpuinfo.lines().find_map(|line| line.strip_prefix("model name")).unwrap_or(": unknown");
    let rustc = Command::new("rustc").arg("--version").output();
    let rustc =
        rustc.map_or("rustc does not run".into(), |output| String::from_utf8_lossy(&output.stdout).into_owned());
    println!("processor{}; {}", processor.trim_start(), rustc.trim());
    println!("Speeds are in MB/s, millions of bytes a second; a ratio is the library's speed over the other's.");
    println!(
        "Medians of {ROUNDS} rounds in which the tasks take turns, of {FEW_ROUNDS} where a round takes over a second;"
    );
    println!("of processor time, but of the sheet program and `cat` by the clock on the wall. Buffers are touched");
    println!("before the first round and never cleared: the output stays in the caches, and so does a line of 1 MB;");
    println!("a longer one streams through them. A line has {} MB.", size as f64 / 1e6);
}

pub fn readers_head(prefix: usize) {
    let prefix = prefix as f64 / 1e6;
    println!();
    println!("Readers. In pieces of 1 byte, and of the worst lines, {prefix} MB is read. The reader by hand has");
    println!("CRC-32 by slicing by 8, and Fletcher's sums reduced at each byte.");
    print!("{:<17}{:>5}{:>9}{:>9}", "line", "piece", "library", "by hand");
    println!("{:>9}{:>8}{:>8}", "memcpy", "/hand", "/memcpy");
}

/// A row: bytes a second of the library, the hand-written reader and copying; and what a worst line repeats.
pub fn readers_row(line: &str, piece: usize, speeds: &[f64], goal: Goal, unit: &str) {
    let [library, hand, copying] = [0, 1, 2].map(|i| speeds[i] / 1e6);
    let (to_hand, to_copying) = (library / hand, library / copying);
    let numbers = format!("{library:>9.1}{hand:>9.1}{copying:>9.0}{to_hand:>8.2}{to_copying:>8.3}");
    println!("{}", format!("{line:<17}{piece:>5}{numbers}  {}{unit}", judged(to_hand, goal)).trim_end());
}

pub fn checksums_head<'a>(name: &str, columns: impl Iterator<Item = &'a str>) {
    println!();
    print!("{name:<9}{:>6}", "bytes");
    for (i, column) in columns.enumerate() {
        print!("{column:>14}{:>7}", if i == 0 { "" } else { "ratio" });
    }
    println!();
}

/// A row: bytes a second of the library and of others. The goal is about the first of these.
pub fn checksums_row(name: &str, len: usize, speeds: impl Iterator<Item = f64>, goal: Goal) {
    let speeds: Vec<f64> = speeds.collect();
    let ratio = |speed: &f64| speeds[0] / speed;
    let mut row = format!("{name:<9}{len:>6}{:>14.0}{:>7}", speeds[0] / 1e6, "");
    for speed in &speeds[1..] {
        row += &format!("{:>14.0}{:>7.2}", speed / 1e6, ratio(speed));
    }
    println!("{}", format!("{row}  {}", judged(ratio(&speeds[1]), goal)).trim_end());
}

pub fn fields_head(frames: usize) {
    println!();
    println!("Field functions: nanoseconds for a frame by all functions of a row, over {frames} good frames.");
    println!("Each function judges its frame anew. By hand MGL has CRC-32 by slicing by 8, and NMEA one vector pass.");
    println!("OnFlight by hand reduces Fletcher's sums at each byte, as the reader by hand does: sums of another kind");
    println!("are faster, and beside them these ratios are lower. `exported` are the functions by hand in the form of");
    println!("the library's: through a C function that returns 21 values, MGL frames judged by a function apart.");
    print!("{:<38}{:>9}{:>9}{:>8}", "field functions", "library", "by hand", "/hand");
    println!("{:>10}{:>11}", "exported", "/exported");
}

/// A row: seconds for a frame by the library, by hand, and by hand through the library's interface if that is measured.
pub fn fields_row(name: &str, times: [f64; 2], exported: Option<f64>, goal: Goal) {
    let [library, hand] = times.map(|time| time * 1e9);
    let ratio = hand / library;
    let exported = match exported.map(|time| time * 1e9) {
        Some(exported) => format!("{exported:>10.1}{:>11.2}", exported / library),
        None => format!("{:>21}", ""),
    };
    println!("{name:<38}{library:>9.1}{hand:>9.1}{ratio:>8.2}{exported}  {}", judged(ratio, goal));
}

pub fn steps_head() {
    println!();
    println!("Two MGL functions by hand, in steps from inlined code to the library's form: nanoseconds.");
    println!("{:<38}{:>9}{:>9}", "step", "header", "tank 0");
}

/// Seconds of each step, of the header and of a tank.
pub fn steps(header: &[f64], tank: &[f64]) {
    let names = ["inlined", "called", "called, the frame judged apart", "exported", "the library"];
    for (name, (header, tank)) in names.iter().zip(header.iter().zip(tank)) {
        println!("{name:<38}{:>9.1}{:>9.1}", header * 1e9, tank * 1e9);
    }
}

pub fn versions_head(prefix: usize) {
    let prefix = prefix as f64 / 1e6;
    println!();
    println!("Two versions of the library, and the reader by hand: MB/s. In pieces of 1 byte, {prefix} MB is read.");
    print!("{:<17}{:>5}{:>9}{:>9}{:>9}", "line", "piece", "before", "now", "by hand");
    println!("{:>13}{:>10}{:>12}", "before/hand", "now/hand", "now/before");
}

/// A row: bytes a second of the version before, the one now, and the reader by hand.
pub fn versions_row(line: &str, piece: usize, speeds: [f64; 3]) -> Change {
    let [before, now, hand] = speeds.map(|speed| speed / 1e6);
    let ratios = format!("{:>13.2}{:>10.2}{:>12.2}", before / hand, now / hand, now / before);
    println!("{line:<17}{piece:>5}{before:>9.1}{now:>9.1}{hand:>9.1}{ratios}");
    (format!("{line} {piece}"), now / before)
}

pub fn version_fields_head(frames: usize) {
    println!();
    println!("Field functions of both: nanoseconds of a call of `capture_read`, over {frames} good frames.");
    println!("{:<22}{:>9}{:>9}{:>12}", "field function", "before", "now", "now/before");
}

/// A row: seconds of a call of the version before and of the one now. The ratio is of speeds.
pub fn version_fields_row(name: &str, times: [f64; 2]) -> Change {
    let [before, now] = times.map(|time| time * 1e9);
    println!("{name:<22}{before:>9.1}{now:>9.1}{:>12.2}", before / now);
    (name.to_string(), before / now)
}

/// The row that gained least, or lost most.
pub fn least(changes: &[Change]) {
    if let Some((name, ratio)) = changes.iter().min_by(|(_, one), (_, other)| one.total_cmp(other)) {
        println!("\nleast: {name}, {ratio:.2}");
    }
}

/// Seconds of the sheet program and of `cat` on a long file, and the program's peak memory on this and on a short one.
pub fn sheet(sizes: [usize; 2], times: &[f64], peaks: [i64; 2]) {
    let [long, short] = sizes.map(|size| size as f64 / 1e6);
    let [sheet, cat] = [times[0], times[1]].map(|time| long / time);
    println!();
    println!("The sheet program on clean bench files of all formats, in the page cache; `cat` writes to /dev/null.");
    println!("{:>7}{:>9}{:>9}{:>8}  peak memory of the sheet program, at most", "MB", "sheet", "cat", "/cat");
    println!("{long:>7.0}{sheet:>9.0}{cat:>9.0}{:>8.3}  {} kB", sheet / cat, peaks[0]);
    println!("{short:>7.0}{:>9}{:>9}{:>8}  {} kB", "", "", "", peaks[1]);
}

fn judged(ratio: f64, goal: Goal) -> String {
    match goal {
        Some(goal) if ratio < goal => format!("goal {goal:.1} MISSED"),
        Some(goal) => format!("goal {goal:.1}"),
        None => String::new(),
    }
}
