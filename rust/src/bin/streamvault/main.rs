//! Sums the popularimeters of sound files by user, lists the frames of a tag, raises counters in place, and puts files back
//! whose raise did not end.

mod args;
mod files;
#[cfg(test)]
mod folder;
mod journal;
mod left;
mod list;
mod parts;
mod progress;
mod raise;
mod recover;
mod report;
mod show;
mod song;
mod sum;

use args::{Command, Format};
use files::Files;
use progress::Progress;
use raise::{Order, Raiser};
use recover::Recoverer;
use std::ffi::OsString;
use std::fs::File;
use std::io::{self, BufWriter, ErrorKind, IsTerminal, Write};
use std::num::NonZero;
use std::os::fd::AsFd;
use std::path::{Path, PathBuf};
use std::process::ExitCode;
use std::thread;
use sum::{Lack, Sum, TooLarge};

/// Everything was read, raised or put back, and printed.
const ALL_READ: u8 = 0;
/// Something was refused or cut, may be missing from the sum, was not raised, or was not printed.
const NOT_ALL: u8 = 1;
/// The words given make no command.
const BAD_USAGE: u8 = 2;
/// A file or a folder could not be read or written, whatever else holds.
const UNREADABLE: u8 = 3;

fn main() -> ExitCode {
    let words: Vec<OsString> = std::env::args_os().skip(1).collect();
    let status = run_printing(&words).unwrap_or_else(|error| {
        // what reads the output may have gone away: nobody is left to tell
        if error.kind() != ErrorKind::BrokenPipe {
            tell(&mut io::stderr(), &format!("standard output: {error}"));
        }
        NOT_ALL
    });
    ExitCode::from(status)
}

/// Runs the program on standard output and standard error.
fn run_printing(words: &[OsString]) -> io::Result<u8> {
    let standard = io::stdout();
    let terminal = standard.is_terminal();
    // as a file, since Stdout takes what cannot be written to for written
    let mut out = BufWriter::new(File::from(standard.as_fd().try_clone_to_owned()?));
    let mut outputs = Outputs { out: &mut out, terminal, err: &mut io::stderr() };
    let status = run(words, &mut outputs, Progress::new(io::stderr().is_terminal()))?;
    out.flush()?;
    Ok(status)
}

/// Where the program prints.
struct Outputs<'a> {
    out: &'a mut dyn Write,
    /// Whether that is a terminal.
    terminal: bool,
    err: &'a mut dyn Write,
}

/// Says something on standard error. Where that takes nothing the status still tells.
fn tell(err: &mut dyn Write, message: &str) {
    let _ = writeln!(err, "streamvault: {message}");
}

/// Does what the words say and gives the exit status. An error is one of writing to standard output.
fn run(words: &[OsString], to: &mut Outputs<'_>, progress: Progress) -> io::Result<u8> {
    match args::parse(words) {
        Ok(Command::Help) => write!(to.out, "{}", args::HELP).map(|()| ALL_READ),
        Ok(Command::Version) => writeln!(to.out, "streamvault {}", env!("CARGO_PKG_VERSION")).map(|()| ALL_READ),
        Ok(Command::Sum { format, jobs, paths }) => {
            let sum = Sum::over(Files::below(paths), jobs.unwrap_or_else(cores), progress);
            show_sum(format, sum, to)
        }
        Ok(Command::List { file }) => run_list(&file, to),
        Ok(Command::Raise { order, files }) => run_raise(&order, &files, to, progress),
        Ok(Command::Recover { files }) => run_recover(&files, to),
        Err(message) => {
            tell(to.err, &format!("{message}\n\n{}", args::USAGE));
            Ok(BAD_USAGE)
        }
    }
}

/// How many threads the machine runs at once, as far as it says so.
fn cores() -> usize {
    thread::available_parallelism().map_or(1, NonZero::get)
}

/// Prints a sum.
fn show_sum(format: Format, sum: Result<Sum, TooLarge>, to: &mut Outputs<'_>) -> io::Result<u8> {
    let sum = match sum {
        Ok(sum) => sum,
        Err(too_large) => {
            tell(to.err, &too_large.to_string());
            return Ok(NOT_ALL);
        }
    };
    match format {
        Format::Table => report::table(&sum, to.out)?,
        Format::Json => report::json(&sum, to.out)?,
        Format::Csv => {
            report::csv(&sum, to.out)?;
            // where standard error takes nothing the status still tells
            let _ = report::problems(&sum, to.err);
        }
    }
    Ok(status(&sum))
}

/// The exit status of a sum. What could not be read wins: it has to be made readable, and all to be summed again.
fn status(sum: &Sum) -> u8 {
    if sum.any_unreadable() {
        UNREADABLE
    } else if sum.all_read() {
        ALL_READ
    } else {
        NOT_ALL
    }
}

/// The listing of one file, or of standard input. What it has no lines for is told.
fn run_list(file: &Path, to: &mut Outputs<'_>) -> io::Result<u8> {
    let mut tag = Vec::new();
    let interrupted = match read_tag(file, &mut tag) {
        Ok(interrupted) => interrupted,
        Err(error) => {
            tell(to.err, &format!("{}: {error}", show::path(file)));
            return Ok(UNREADABLE);
        }
    };
    let ended = list::list(&tag, to.terminal, to.out)?;
    to.out.flush()?;
    let mut lacks = sum::lacks_of(&tag);
    lacks.extend(interrupted.then_some(Lack::Interrupted));
    for lack in lacks.iter().filter(|lack| !matches!(lack, Lack::Refused { .. })) {
        tell(to.err, &format!("{}: {}", show::path(file), report::what(lack)));
    }
    Ok(if ended && lacks.is_empty() { ALL_READ } else { NOT_ALL })
}

/// Reads the tag of a file, or of standard input. Gives whether a journal stands beside the file then.
fn read_tag(file: &Path, tag: &mut Vec<u8>) -> io::Result<bool> {
    if file == Path::new("-") {
        return parts::read_front(io::stdin().lock(), 0, tag).map(|_| false);
    }
    parts::read_front(File::open(file)?, 0, tag)?;
    journal::stands(file)
}

/// Raises a counter in each file. A line is printed before the next file is looked at: where it cannot be, it is told, and
/// no further file is raised.
fn run_raise(order: &Order, files: &[PathBuf], to: &mut Outputs<'_>, mut progress: Progress) -> io::Result<u8> {
    let mut raiser = Raiser::new(order);
    for path in files {
        let line = raiser.file(path);
        writeln!(to.out, "{line}").and_then(|()| to.out.flush()).inspect_err(|_| {
            tell(to.err, &line);
            tell(to.err, "no further file was raised");
        })?;
        if !to.terminal {
            progress.file();
        }
    }
    writeln!(to.out, "{}", raiser.counts())?;
    Ok(match (raiser.any_failed(), raiser.all_raised()) {
        (true, _) => UNREADABLE,
        (false, true) => ALL_READ,
        (false, false) => NOT_ALL,
    })
}

/// Puts each file back as it was before a raise that did not end.
fn run_recover(files: &[PathBuf], to: &mut Outputs<'_>) -> io::Result<u8> {
    let mut recoverer = Recoverer::default();
    for path in files {
        let line = recoverer.file(path);
        writeln!(to.out, "{line}").and_then(|()| to.out.flush()).inspect_err(|_| tell(to.err, &line))?;
    }
    writeln!(to.out, "{}", recoverer.counts())?;
    Ok(if recoverer.any_failed() { UNREADABLE } else { ALL_READ })
}

#[cfg(test)]
mod tests {
    use super::*;

    /// Runs the program within the test: its status, standard output and standard error.
    fn said(words: &[&str]) -> (u8, String, String) {
        let words: Vec<OsString> = words.iter().map(OsString::from).collect();
        let (mut out, mut err) = (Vec::new(), Vec::new());
        let mut outputs = Outputs { out: &mut out, terminal: false, err: &mut err };
        let status = run(&words, &mut outputs, Progress::new(false)).unwrap();
        (status, String::from_utf8(out).unwrap(), String::from_utf8(err).unwrap())
    }

    #[test]
    fn help_names_every_command_and_every_status() {
        let (status, out, err) = said(&["--help"]);
        assert_eq!((status, err.as_str()), (ALL_READ, ""));
        let parts = ["streamvault sum", "streamvault list", "--csv", "--json", "--jobs N", "inside chapters", "hex:"];
        let raise =
            ["streamvault raise", "--user U", "--user-hex U", "--by N", "--keep-size", "--dry-run", "named twice"];
        let recover = ["streamvault recover", journal::SUFFIX];
        for part in
            parts.into_iter().chain(raise).chain(recover).chain(["\n    0  ", "\n    1  ", "\n    2  ", "\n    3  "])
        {
            assert!(out.contains(part), "{part}");
        }
    }

    #[test]
    fn help_says_which_counters_are_refused() {
        let (_, out, _) = said(&["--help"]);
        for part in ["however many bytes it has", "64 bits", "the number 35", "before it count"] {
            assert!(out.contains(part), "{part}");
        }
    }

    #[test]
    fn bad_usage_is_status_2_and_prints_nothing() {
        let raises = [&["raise"][..], &["raise", "a"], &["raise", "--user", "u", "a"], &["raise", "--by", "1", "a"]];
        let others = [&[][..], &["sum"], &["list"], &["list", "a", "b"], &["sum", "--xml", "a"], &["drop", "a"]];
        let recovers = [&["recover"][..], &["recover", "-"], &["recover", "--all", "a"]];
        for words in others.into_iter().chain(raises).chain(recovers) {
            let (status, out, err) = said(words);
            assert_eq!((status, out.as_str()), (BAD_USAGE, ""), "{words:?}");
            assert!(err.starts_with("streamvault: "), "{words:?}");
        }
    }

    #[test]
    fn what_is_not_there_is_status_3() {
        let missing = "no such folder/at all";
        let (status, out, _) = said(&["sum", missing]);
        assert_eq!(status, UNREADABLE);
        assert!(out.contains(missing));
        let (status, out, err) = said(&["list", missing]);
        assert_eq!((status, out.as_str()), (UNREADABLE, ""));
        assert!(err.contains(missing));
        let (status, out, err) = said(&["raise", "--user", "u", "--by", "1", missing]);
        assert_eq!((status, err.as_str()), (UNREADABLE, ""));
        assert!(out.contains(missing));
        assert!(out.ends_with("\n0 files raised, 0 refused, 1 not read or written\n"), "{out}");
        let (status, out, err) = said(&["recover", missing]);
        assert_eq!((status, err.as_str()), (UNREADABLE, ""));
        assert!(out.ends_with("\n0 files put back, 0 with nothing to put back, 1 not read or written\n"), "{out}");
    }

    #[test]
    fn the_status_of_a_sum() {
        let mut sum = Sum::default();
        assert_eq!(status(&sum), ALL_READ);
        sum.list("a", Lack::Compressed);
        assert_eq!(status(&sum), NOT_ALL);
        sum.list("b", Lack::Unreadable(io::Error::other("gone")));
        sum.list("c", Lack::Compressed);
        assert_eq!(status(&sum), UNREADABLE);
    }

    /// Takes nothing.
    struct Full;

    impl Write for Full {
        fn write(&mut self, _: &[u8]) -> io::Result<usize> {
            Err(ErrorKind::StorageFull.into())
        }

        fn flush(&mut self) -> io::Result<()> {
            Ok(())
        }
    }

    #[test]
    fn what_cannot_be_told_leaves_the_status() {
        for (words, want) in
            [(&["sum", "--csv", "no such"][..], UNREADABLE), (&["list", "no such"], UNREADABLE), (&["sum"], BAD_USAGE)]
        {
            let words: Vec<OsString> = words.iter().map(OsString::from).collect();
            let mut outputs = Outputs { out: &mut Vec::new(), terminal: false, err: &mut Full };
            assert_eq!(run(&words, &mut outputs, Progress::new(false)).unwrap(), want);
        }
    }

    #[test]
    fn what_cannot_be_printed_is_an_error() {
        let sums = [&["sum", "no such"][..], &["sum", "--csv", "no such"], &["sum", "--json", "no such"]];
        for words in sums.into_iter().chain([
            &["--help"][..],
            &["raise", "--user", "u", "--by", "1", "no such"],
            &["recover", "no such"],
        ]) {
            let words: Vec<OsString> = words.iter().map(OsString::from).collect();
            let mut outputs = Outputs { out: &mut Full, terminal: false, err: &mut Vec::new() };
            assert!(run(&words, &mut outputs, Progress::new(false)).is_err());
        }
    }
}
