//! The sheet program beside `cat`, and its peak memory.

use crate::captures;
use crate::report;
use crate::timing::wall_medians;
use blossomaxle::Format;
use std::env;
use std::ffi::{c_int, c_long};
use std::fs::{self, File};
use std::io::{self, Write};
use std::os::unix::process::CommandExt;
use std::path::{Path, PathBuf};
use std::process::{self, Child, Command, Stdio};

/// The captures of each format in the long file.
const CAPTURES: usize = 21;

/// The captures of the short file, which has one of each format.
const SHORT: usize = 1_000_000 / 3;

extern "C" {
    fn wait4(pid: c_int, status: *mut c_int, options: c_int, usage: *mut Usage) -> c_int;
}

/// glibc's `struct rusage`.
#[repr(C)]
#[derive(Default)]
struct Usage {
    user_and_system: [c_long; 4],
    peak_kilobytes: c_long,
    others: [c_long; 13],
}

/// A folder that is removed when it goes out of scope, after a panic too.
struct Folder(PathBuf);

impl Folder {
    fn fresh() -> io::Result<Folder> {
        let folder = env::temp_dir().join(format!("blossomaxle-speed-{}", process::id()));
        fs::create_dir(&folder).map(|()| Folder(folder))
    }
}

impl Drop for Folder {
    fn drop(&mut self) {
        if let Err(error) = fs::remove_dir_all(&self.0) {
            eprintln!("speed: {} is not removed: {error}", self.0.display());
        }
    }
}

/// A bench file of clean captures.
struct Bench {
    path: PathBuf,
    size: usize,
    /// What its sheets must have: every byte framed.
    lines: Vec<String>,
}

/// Measures a file with captures of so many bytes.
pub fn measure(size: usize) {
    if !program().is_file() {
        return println!("\nNo sheet program is measured: `scripts/program sheet` makes target/bin/sheet.");
    }
    let folder = Folder::fresh().expect("a temporary folder can be made");
    let long = write(folder.0.join("long"), size, CAPTURES).expect("the long file can be written");
    let short = write(folder.0.join("short"), SHORT, 1).expect("the short file can be written");
    run_cat(&long.path);
    let times = wall_medians(2, |task| if task == 0 { run_sheet(&long) } else { run_cat(&long.path) });
    report::sheet([long.size, short.size], &times, [peak(&long.path), peak(&short.path)]);
}

fn program() -> PathBuf {
    Path::new(env!("CARGO_MANIFEST_DIR")).join("../target/bin/sheet")
}

/// Writes a bench file with an entry for each format, of so many captures one behind the other.
fn write(path: PathBuf, size: usize, times: usize) -> io::Result<Bench> {
    let captures = Format::ALL.map(|format| captures::clean(format, size));
    let lengths = captures.each_ref().map(|capture| capture.len() * times);
    let mut toc = vec![Format::ALL.len() as u8];
    for (format, length) in Format::ALL.into_iter().zip(lengths) {
        let length = u32::try_from(length).expect("an entry's length has four bytes");
        toc.extend([format.number() as u8, 0]);
        toc.extend(length.to_le_bytes());
    }
    let mut file = File::create(&path)?;
    file.write_all(&toc)?;
    for capture in captures {
        for _ in 0..times {
            file.write_all(&capture)?;
        }
    }
    // No writing to the disk goes on while the rounds do.
    file.sync_all()?;
    let lines = lengths.iter().map(|length| format!("framed {length}\nskipped 0\npending 0\n")).collect();
    Ok(Bench { path, size: toc.len() + lengths.iter().sum::<usize>(), lines })
}

fn run_sheet(bench: &Bench) {
    let output = Command::new(program()).arg(&bench.path).output().expect("the sheet program runs");
    let text = String::from_utf8_lossy(&output.stdout);
    let right = output.status.success() && bench.lines.iter().all(|lines| text.contains(lines));
    assert!(right, "the sheet program gave {}, and not every byte framed:\n{text}", output.status);
}

fn run_cat(path: &Path) {
    let status = Command::new("cat").arg(path).stdout(Stdio::null()).status().expect("`cat` runs");
    assert!(status.success(), "`cat` gave {status}");
}

/// The peak memory of the sheet program on a file, in kB.
fn peak(path: &Path) -> c_long {
    let mut command = Command::new(program());
    command.arg(path).stdout(Stdio::null());
    // The peak begins with that of the process that calls exec. With something to call before, this process is forked,
    // and the copy has little; otherwise it would be the peak of all that was measured before.
    // SAFETY: what is called does nothing.
    unsafe { command.pre_exec(|| Ok(())) };
    wait(command.spawn().expect("the sheet program runs")).peak_kilobytes
}

/// Waits for a program that must end well, and says what it used.
fn wait(child: Child) -> Usage {
    let pid = child.id() as c_int;
    let (mut status, mut usage) = (0, Usage::default());
    // SAFETY: both places are ours, and nobody else waits for the child.
    let waited = unsafe { wait4(pid, &mut status, 0, &mut usage) };
    assert!(waited == pid && status == 0, "the sheet program ended with status {status}");
    usage
}
