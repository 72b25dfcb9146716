//! compare: runs two programs on every file of records in a directory and compares what they print.
//!
//!     compare PROGRAM REFERENCE DIR KEEP     both programs; exit status 1 if anything differs
//!     compare --stats REFERENCE DIR          the reference alone
//!
//! Both get a file on standard input. Their lines are compared one by one. The first file at which
//! they differ is copied to KEEP. At the end it tells how often each kind of line came up in what
//! the reference printed. Exit statuses are not compared, but a program that dies of a signal differs.

use std::collections::BTreeMap;
use std::fs::{self, File};
use std::io;
use std::path::{Path, PathBuf};
use std::process::{Command, ExitStatus, Stdio, exit};

const STATES: [&str; 5] = ["deny", "suspend", "taint", "grant", "unassign"];

struct Run {
    status: ExitStatus,
    output: Vec<u8>,
}

impl Run {
    fn new(program: &str, file: &Path) -> io::Result<Run> {
        let run = Command::new(program)
            .stdin(File::open(file)?)
            .stderr(Stdio::inherit())
            .output()?;
        Ok(Run { status: run.status, output: run.stdout })
    }

    /// The lines; what stands behind the last line feed counts as a line if there is anything.
    fn lines(&self) -> Vec<&[u8]> {
        self.output.split_inclusive(|byte| *byte == b'\n').collect()
    }
}

/// How often each kind of line came up, and in how many files.
struct Counts {
    kinds: BTreeMap<(usize, String), (usize, usize)>,
}

impl Counts {
    /// Every kind that there is, at 0.
    fn new() -> Counts {
        let mut known: Vec<String> = ["done", "done by u1", "done by r1"].map(String::from).to_vec();
        known.extend(STATES.map(String::from));
        known.extend((1..=17).map(|number| format!("no {number}")));
        let kinds = known.iter().map(|line| (kind(line.as_bytes()), (0, 0))).collect();
        Counts { kinds }
    }

    fn add(&mut self, lines: &[&[u8]]) {
        let mut here: BTreeMap<(usize, String), usize> = BTreeMap::new();
        for line in lines {
            *here.entry(kind(line)).or_default() += 1;
        }
        for (kind, times) in here {
            let count = self.kinds.entry(kind).or_default();
            count.0 += times;
            count.1 += 1;
        }
    }

    fn print(&self) {
        println!("{:<12} {:>9} {:>9}", "line", "lines", "sessions");
        for ((_, name), (lines, sessions)) in &self.kinds {
            println!("{name:<12} {lines:>9} {sessions:>9}");
        }
    }
}

/// The kind of a line: refusals by their number, and whether a user or a role was the granter. The
/// number in front is for the order.
fn kind(line: &[u8]) -> (usize, String) {
    let line = String::from_utf8_lossy(line);
    let words: Vec<&str> = line.split_whitespace().collect();
    match words.as_slice() {
        ["no", number, ..] => (100 + number.parse().unwrap_or(0), format!("no {number}")),
        ["done"] => (0, "done".to_string()),
        ["done", "by", granter] if granter.starts_with('u') => (1, "done by u".to_string()),
        ["done", "by", granter] if granter.starts_with('r') => (2, "done by r".to_string()),
        [word] => match STATES.iter().position(|state| state == word) {
            Some(place) => (10 + place, word.to_string()),
            None => (1000, "other".to_string()),
        },
        _ => (1000, "other".to_string()),
    }
}

fn show(line: Option<&&[u8]>) -> String {
    match line {
        Some(line) => format!("`{}`", line.escape_ascii()),
        None => "no line".to_string(),
    }
}

fn files(directory: &str) -> io::Result<Vec<PathBuf>> {
    let mut files = Vec::new();
    for entry in fs::read_dir(directory)? {
        let path = entry?.path();
        if path.extension().is_some_and(|extension| extension == "records") {
            files.push(path);
        }
    }
    files.sort();
    Ok(files)
}

fn statistics(reference: &str, directory: &str) -> io::Result<()> {
    let mut counts = Counts::new();
    let mut all_lines = 0;
    let files = files(directory)?;
    for file in &files {
        let run = Run::new(reference, file)?;
        let lines = run.lines();
        all_lines += lines.len();
        counts.add(&lines);
    }
    println!("{} sessions, {all_lines} lines, nothing compared", files.len());
    counts.print();
    Ok(())
}

/// Whether nothing differs.
fn compare(program: &str, reference: &str, directory: &str, keep: &str) -> io::Result<bool> {
    let mut counts = Counts::new();
    let mut all_lines = 0;
    let mut different_lines = 0;
    let mut different_sessions = 0;
    let files = files(directory)?;
    for file in &files {
        let ours = Run::new(program, file)?;
        let theirs = Run::new(reference, file)?;
        let our_lines = ours.lines();
        let their_lines = theirs.lines();
        counts.add(&their_lines);

        let count = our_lines.len().max(their_lines.len());
        let different: Vec<usize> =
            (0..count).filter(|place| our_lines.get(*place) != their_lines.get(*place)).collect();
        all_lines += count;
        different_lines += different.len();
        let died = ours.status.code().is_none() || theirs.status.code().is_none();
        if different.is_empty() && !died {
            continue;
        }
        different_sessions += 1;
        if different_sessions == 1 {
            fs::copy(file, keep)?;
            println!("first difference: {} (kept as {keep})", file.display());
            if let Some(place) = different.first() {
                println!("  line {}", place + 1);
                println!("  {program}: {}", show(our_lines.get(*place)));
                println!("  {reference}: {}", show(their_lines.get(*place)));
            }
            if died {
                println!("  {program}: {}", ours.status);
                println!("  {reference}: {}", theirs.status);
            }
        }
    }
    println!("{} sessions and {all_lines} lines compared", files.len());
    println!("{different_sessions} sessions and {different_lines} lines differ");
    counts.print();
    Ok(different_sessions == 0 && !files.is_empty())
}

fn main() {
    let arguments: Vec<String> = std::env::args().skip(1).collect();
    let words: Vec<&str> = arguments.iter().map(String::as_str).collect();
    let result = match words.as_slice() {
        ["--stats", reference, directory] => statistics(reference, directory).map(|()| true),
        [program, reference, directory, keep] => compare(program, reference, directory, keep),
        _ => {
            eprintln!("usage: compare PROGRAM REFERENCE DIR KEEP | compare --stats REFERENCE DIR");
            exit(2);
        }
    };
    match result {
        Ok(true) => {}
        Ok(false) => exit(1),
        Err(error) => {
            eprintln!("compare: {error}");
            exit(2);
        }
    }
}
