//! `explain TRACE OURS THEIRS`: the first line in which two outputs for a trace differ, and the record that it answers.

use std::fs;
use std::process::ExitCode;

/// The bytes of a record that begins `rest`: as many as its map asks for and the trace has, or the map alone.
fn record(rest: &[u8]) -> &[u8] {
    let length = match rest.first() {
        Some(0x03) => 5,
        Some(0x07) => 7,
        Some(0x08 | 0x41) => 3,
        Some(0x11) => 4,
        Some(0x21 | 0x83) => 6,
        _ => 1,
    };
    &rest[..length.min(rest.len())]
}

fn shown(line: Option<&&[u8]>) -> String {
    line.map_or("no line".into(), |line| line.escape_ascii().to_string())
}

fn main() -> ExitCode {
    let arguments: Vec<String> = std::env::args().skip(1).collect();
    let [trace, ours, theirs] = arguments.as_slice() else {
        eprintln!("usage: explain TRACE OURS THEIRS");
        return ExitCode::from(2);
    };
    let read = |path: &String| fs::read(path).unwrap_or_else(|error| panic!("{path}: {error}"));
    let (trace, ours, theirs) = (read(trace), read(ours), read(theirs));
    let ours: Vec<&[u8]> = ours.split_inclusive(|&byte| byte == b'\n').collect();
    let theirs: Vec<&[u8]> = theirs.split_inclusive(|&byte| byte == b'\n').collect();
    let Some(place) = (0..ours.len().max(theirs.len())).find(|&place| ours.get(place) != theirs.get(place)) else {
        println!("no difference");
        return ExitCode::SUCCESS;
    };
    let mut rest = trace.as_slice();
    for _ in 0..place {
        rest = &rest[record(rest).len()..];
    }
    let bytes: Vec<String> = record(rest).iter().map(|byte| format!("{byte:02x}")).collect();
    let bytes = if bytes.is_empty() { "none, the trace is at its end".into() } else { bytes.join(" ") };
    println!("line {} differs", place + 1);
    println!("  record:  {bytes} (at byte {} of {})", trace.len() - rest.len(), trace.len());
    println!("  replay:  {}", shown(ours.get(place)));
    println!("  proved:  {}", shown(theirs.get(place)));
    ExitCode::FAILURE
}
