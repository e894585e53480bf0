//! How the programs here are started and end: status 0 where all is as it should be, 1 at a difference, 2 where the output failed or the
//! command line is unknown.
use std::io::Write;
use std::process::exit;
use std::thread::Builder;

/// The words of the command line, if they are `known`. `--help` prints the usage and ends the program.
pub fn words(usage: &str, known: impl Fn(&[String]) -> bool) -> Vec<String> {
    let words: Vec<String> = std::env::args().skip(1).collect();
    if words == ["--help"] {
        exit(match writeln!(std::io::stdout(), "{usage}") {
            Ok(()) => 0,
            Err(why) => failed(&format!("standard output: {why}")),
        });
    }
    if !known(&words) {
        exit(failed(usage));
    }
    words
}

/// Runs a program on a stack that is large enough for expressions nested 65,536 deep. A panic, which says why on standard error, is a failure.
pub fn run(program: impl FnOnce() + Send + 'static) {
    let ended = Builder::new().stack_size(1 << 30).spawn(program).map(|thread| thread.join());
    if !matches!(ended, Ok(Ok(()))) {
        exit(2);
    }
}

/// A line on standard error, and its status.
fn failed(line: &str) -> i32 {
    eprintln!("{line}");
    2
}
