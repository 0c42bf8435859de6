//! The words of the command line.

use crate::raise::Order;
use crate::show;
use std::ffi::{OsStr, OsString};
use std::os::unix::ffi::OsStrExt;
use std::path::PathBuf;

/// What is printed where the words make no command.
pub const USAGE: &str = "\
usage: streamvault sum [--csv | --json] [--jobs N] PATH...
       streamvault list FILE
       streamvault raise (--user U | --user-hex U) --by N [--keep-size] [--dry-run]
                         FILE...
       streamvault recover FILE...
       streamvault --help | --version";

/// What `--help` prints.
pub const HELP: &str = "\
streamvault sum [--csv | --json] [--jobs N] PATH...

    Sums the counters of popularimeters by user, over every file at or below the
    paths. Of each file only the ID3v2 tag at its front is summed. A file that does
    not begin with ID3 has no tag.

    - Each whole popularimeter of the top level counts, also several in one file.
      Those inside chapters do not.
    - A counter is one number, however many bytes it has. One that does not fit
      64 bits, also inside a chapter, refuses its tag with the number 35. The
      popularimeters before it count, and what comes after it in that tag does not.
    - A file that is reached by two names counts once. Links to files are
      followed, links to folders below the paths are not. What is neither a file
      nor a folder, as a pipe, is passed over there.

    All that may be missing from the sum is listed, and the exit status is not 0:

    - A refused tag, with the number and its meaning.
    - A cut tag: one with fewer bytes than its header says, or with a frame that
      its end cuts short. The list says how many bytes there should be and are.
    - A tag with a compressed popularimeter.
    - What stands after the frames of a tag, which end at the first padding byte
      or where no whole frame header is left: a frame header that the end of the
      tag cuts, and the first id of a popularimeter (POPM, in 2.2 POP) up to there.
    - A further tag, which is not summed: directly after the first one, or at the
      end of the file, where the footer of a 2.4 tag stands last or before an
      ID3v1 tag. Nothing is looked for elsewhere.
    - A file beside which a journal stands: a raise of it did not end, or has not
      ended yet (see recover). Nothing of it is counted, since its bytes may be half
      changed. A journal whose file is not there is listed too.
    - A link to a folder that is not summed under another name. It can be named as
      one of the paths.
    - A file or a folder that cannot be read, or that became shorter meanwhile.

    What was whole before a refusal or a cut counts, and the list says how many
    popularimeters that were. An empty file, and one that ends within the letters
    ID3, is listed as a refused tag.

    A user is printed as it is where its bytes are printable ASCII. Any other user,
    an empty one, and one that begins with hex: are printed as hex: and the bytes
    in hexadecimal. In the list of what may be missing a path has escapes: \\xE9 for
    a byte that is not UTF-8, \\u{1b} and the like for characters that do not show,
    \\\\ for a backslash.

    --csv     one line for each user; all that may be missing goes to standard
              error. A user that a spreadsheet would take for a formula (the first
              character other than a space is = + - or @) is printed as hex: too.
    --json    one object with everything; sums are strings, since they can be too
              large for a number. A path that is not UTF-8, or begins with hex:, is
              hex: and its bytes in hexadecimal.
    --jobs N  N threads read the files, 1 to 1024; as many as there are cores if it
              is not given. What is printed is the same with any number.

streamvault list FILE

    Lists the header and the frames of the top level of the tag at the front of the
    file, of any length. FILE may be - for standard input. Users are in hexadecimal,
    - for an empty one. An id is printed as its bytes; on a terminal it has escapes,
    as paths have.

    A refusal is the last line. What else sum would list of this tag, or of a
    journal beside the file, is said on standard error. Further tags are not looked
    for.

streamvault raise (--user U | --user-hex U) --by N [--keep-size] [--dry-run]
                  FILE...

    Adds N to the counter of the user U in the tag at the front of each file, in
    place: the file keeps its length, and nothing of the sound is read or changed.

    - One popularimeter of the top level has that user. The tag is plain: whole,
      without extended header, unsynchronisation and compression, and with zeros
      alone after its frames. Else the file is refused, with the number and its
      meaning, and stays as it was.
    - Where the sum fits the bytes of the counter, these change and nothing else, by
      one write.
    - Where it does not, the popularimeter gets a new frame with the same user and
      rating, later frames are moved, and the padding makes up for it; without room
      the file is refused with the number 20. The line then says: in a new frame.
      From the first changed byte to the last the file is written anew. Before that
      a journal is put beside it, with the bytes as they were, and removed when the
      disk has all: see recover.
    - A file is written only if it still has its length and the tag that was read.
      A file with several names (hard links) gets no new frame.
    - What a raise that did not end left is put back first, and the line says so.
    - A file that is named twice, by whatever name, is raised once. The second name
      counts as not raised.
    - Links to files are followed. Folders are not entered.

    A line for each file says the old and the new counter, or why it was not raised.
    The last line counts. A raise adds each time: run again only what was not raised.

    --user U      the bytes of the user as they are given, which may be none
    --user-hex U  the same in hexadecimal, as list prints it, or sum after hex:
    --by N        0 to 18446744073709551615
    --keep-size   no new frame: a counter that has too few bytes is refused with
                  the number 44
    --dry-run     opens the files for reading only, changes nothing, and says what
                  would be

streamvault recover FILE...

    Puts each file back as it was before a raise that did not end, because the
    program or the machine stopped. The sign of that is a journal beside the file,
    named as the file with .streamvault-journal after it: the raise did not happen,
    and until the file is put back it is not summed. A raise of the file does the
    same first.

    - A whole journal has the bytes that were. They are put back where the file has
      its length and, where they go, only bytes that were or were to be; else
      neither is touched. Then the journal is removed.
    - An incomplete journal is removed: the file was not changed yet.
    - Whatever else has such a name is not touched.

Exit status:

    0  all was read to its end, and printed; every file that was named was raised,
       or has nothing more to be put back
    1  something was refused or cut, or may be missing from the sum or the list; a
       file was named twice to be raised; or not all could be printed
    2  bad usage
    3  a file or a folder could not be read or written, whatever else was listed:
       make it so and run again, a raise only for the files that were not raised
";

/// How a sum is printed.
#[derive(Clone, Copy, Debug, PartialEq, Eq)]
pub enum Format {
    /// For people.
    Table,
    /// Comma-separated values.
    Csv,
    /// One JSON object.
    Json,
}

/// The most threads that can be asked for.
const MOST_JOBS: usize = 1024;

/// What is to be done.
#[derive(Debug, PartialEq, Eq)]
pub enum Command {
    /// Print the help.
    Help,
    /// Print the version.
    Version,
    /// Sum all files below the paths, by so many threads, or by one for each core.
    Sum { format: Format, jobs: Option<usize>, paths: Vec<PathBuf> },
    /// List one file.
    List { file: PathBuf },
    /// Raise a counter in each file.
    Raise { order: Order, files: Vec<PathBuf> },
    /// Put each file back whose raise did not end.
    Recover { files: Vec<PathBuf> },
}

/// The command that the words make, or why they make none.
pub fn parse(words: &[OsString]) -> Result<Command, String> {
    let first = words.first().ok_or("a command is missing")?;
    let rest = &words[1..];
    match first.to_str() {
        Some("--help" | "-h" | "help") => Ok(Command::Help),
        Some("--version" | "-V") => Ok(Command::Version),
        Some("sum") => sum(rest),
        Some("list") => list(rest),
        Some("raise") => raise(rest),
        Some("recover") => recover(rest),
        _ => Err(format!("unknown command: {}", shown(first))),
    }
}

/// A word of a command.
enum Word<'a> {
    /// It begins with a dash, and stands before any `--`.
    Option(&'a OsString),
    /// Any other; a dash alone is a path.
    Path(&'a OsString),
}

/// The words of a command, one after another.
struct Words<'a> {
    rest: std::slice::Iter<'a, OsString>,
    only_paths: bool,
}

impl<'a> Words<'a> {
    fn of(words: &'a [OsString]) -> Words<'a> {
        Words { rest: words.iter(), only_paths: false }
    }

    /// What follows an option.
    fn value(&mut self) -> Option<&'a OsString> {
        self.rest.next()
    }
}

impl<'a> Iterator for Words<'a> {
    type Item = Word<'a>;

    fn next(&mut self) -> Option<Word<'a>> {
        let word = self.rest.next()?;
        if self.only_paths || word == "-" || !word.as_encoded_bytes().starts_with(b"-") {
            return Some(Word::Path(word));
        }
        if word == "--" {
            self.only_paths = true;
            return self.next();
        }
        Some(Word::Option(word))
    }
}

fn sum(words: &[OsString]) -> Result<Command, String> {
    let (mut format, mut jobs, mut paths) = (Format::Table, None, Vec::new());
    let mut words = Words::of(words);
    while let Some(word) = words.next() {
        match word {
            Word::Path(path) => paths.push(PathBuf::from(path)),
            Word::Option(option) => match option.to_str() {
                Some("--csv") => format = only(format, Format::Csv)?,
                Some("--json") => format = only(format, Format::Json)?,
                Some("--jobs") => jobs = Some(threads(words.value())?),
                Some("--help" | "-h") => return Ok(Command::Help),
                _ => return Err(no_option(option)),
            },
        }
    }
    if paths.is_empty() {
        return Err("sum needs a path".to_string());
    }
    Ok(Command::Sum { format, jobs, paths })
}

/// The format that is named, if no other was.
fn only(before: Format, named: Format) -> Result<Format, String> {
    if before != Format::Table && before != named {
        return Err("--csv and --json exclude each other".to_string());
    }
    Ok(named)
}

/// The number of threads that a word says.
fn threads(word: Option<&OsString>) -> Result<usize, String> {
    let number = word.and_then(|word| word.to_str()?.parse().ok());
    let number = number.filter(|number| (1..=MOST_JOBS).contains(number));
    number.ok_or_else(|| format!("--jobs needs a number from 1 to {MOST_JOBS}"))
}

fn list(words: &[OsString]) -> Result<Command, String> {
    let mut files = Vec::new();
    for word in Words::of(words) {
        match word {
            Word::Path(file) => files.push(PathBuf::from(file)),
            Word::Option(option) if option == "--help" || option == "-h" => return Ok(Command::Help),
            Word::Option(option) => return Err(no_option(option)),
        }
    }
    match <[PathBuf; 1]>::try_from(files) {
        Ok([file]) => Ok(Command::List { file }),
        Err(_) => Err("list needs one file".to_string()),
    }
}

/// A raise: the user and the amount are given once, the files as often as wanted.
fn raise(words: &[OsString]) -> Result<Command, String> {
    let (mut user, mut amount, mut files) = (None, None, Vec::new());
    let (mut keep_size, mut dry_run) = (false, false);
    let mut words = Words::of(words);
    while let Some(word) = words.next() {
        match word {
            Word::Path(file) if file == "-" => return Err("raise changes files, not standard input".to_string()),
            Word::Path(file) => files.push(PathBuf::from(file)),
            Word::Option(option) => match option.to_str() {
                Some("--user") => once(&mut user, bytes(words.value())?, "a user")?,
                Some("--user-hex") => once(&mut user, from_hex(words.value())?, "a user")?,
                Some("--by") => once(&mut amount, whole_number(words.value())?, "--by")?,
                Some("--keep-size") => keep_size = true,
                Some("--dry-run") => dry_run = true,
                Some("--help" | "-h") => return Ok(Command::Help),
                _ => return Err(no_option(option)),
            },
        }
    }
    let user = user.ok_or("raise needs --user or --user-hex")?;
    let amount = amount.ok_or("raise needs --by")?;
    if files.is_empty() {
        return Err("raise needs a file".to_string());
    }
    Ok(Command::Raise { order: Order { user, amount, keep_size, dry_run }, files })
}

fn recover(words: &[OsString]) -> Result<Command, String> {
    let mut files = Vec::new();
    for word in Words::of(words) {
        match word {
            Word::Path(file) if file == "-" => return Err("recover changes files, not standard input".to_string()),
            Word::Path(file) => files.push(PathBuf::from(file)),
            Word::Option(option) if option == "--help" || option == "-h" => return Ok(Command::Help),
            Word::Option(option) => return Err(no_option(option)),
        }
    }
    if files.is_empty() {
        return Err("recover needs a file".to_string());
    }
    Ok(Command::Recover { files })
}

/// Takes what may be given once.
fn once<T>(place: &mut Option<T>, given: T, what: &str) -> Result<(), String> {
    match place.replace(given) {
        None => Ok(()),
        Some(_) => Err(format!("{what} is given twice")),
    }
}

/// The bytes of a word.
fn bytes(word: Option<&OsString>) -> Result<Vec<u8>, String> {
    word.map(|word| word.as_bytes().to_vec()).ok_or_else(|| "--user needs a user".to_string())
}

/// The bytes that a word has in hexadecimal, two digits each, as `list` prints them or `sum` after `hex:`.
fn from_hex(word: Option<&OsString>) -> Result<Vec<u8>, String> {
    word.and_then(|word| show::unhex(word.to_str()?))
        .ok_or_else(|| "--user-hex needs pairs of hexadecimal digits".to_string())
}

/// The number that digits say.
fn whole_number(word: Option<&OsString>) -> Result<u64, String> {
    let digits = word.and_then(|word| word.to_str()).filter(|word| word.bytes().all(|byte| byte.is_ascii_digit()));
    let number = digits.and_then(|digits| digits.parse().ok());
    number.ok_or_else(|| format!("--by needs a number from 0 to {}", u64::MAX))
}

fn no_option(option: &OsStr) -> String {
    format!("unknown option: {}", shown(option))
}

/// A word for people: it may be the name of a file.
fn shown(word: &OsStr) -> String {
    show::escaped(word.as_encoded_bytes())
}

#[cfg(test)]
mod tests {
    use super::*;

    fn parsed(words: &[&str]) -> Result<Command, String> {
        parse(&words.iter().map(OsString::from).collect::<Vec<_>>())
    }

    #[test]
    fn paths_and_options_in_any_order() {
        let paths = vec![PathBuf::from("a"), PathBuf::from("b")];
        let want = Ok(Command::Sum { format: Format::Csv, jobs: None, paths });
        assert_eq!(parsed(&["sum", "a", "--csv", "b"]), want);
        assert_eq!(parsed(&["sum", "--csv", "--csv", "a", "b"]), want);
    }

    #[test]
    fn what_follows_two_dashes_is_a_path() {
        let want = Ok(Command::List { file: PathBuf::from("--csv") });
        assert_eq!(parsed(&["list", "--", "--csv"]), want);
        assert_eq!(parsed(&["list", "-"]), Ok(Command::List { file: PathBuf::from("-") }));
    }

    #[test]
    fn the_number_of_threads() {
        let want = |jobs| Ok(Command::Sum { format: Format::Table, jobs, paths: vec![PathBuf::from("a")] });
        assert_eq!(parsed(&["sum", "--jobs", "3", "a"]), want(Some(3)));
        assert_eq!(parsed(&["sum", "a", "--jobs", "1024"]), want(Some(1024)));
        assert_eq!(parsed(&["sum", "a"]), want(None));
        for words in [&["sum", "a", "--jobs"][..], &["sum", "--jobs", "0", "a"], &["sum", "--jobs", "1025", "a"]] {
            assert_eq!(parsed(words), Err("--jobs needs a number from 1 to 1024".to_string()));
        }
        assert_eq!(parsed(&["sum", "--jobs", "a"]), Err("--jobs needs a number from 1 to 1024".to_string()));
    }

    #[test]
    fn a_raise_has_a_user_an_amount_and_files() {
        let want = |user: &[u8], amount, dry_run| {
            let files = vec![PathBuf::from("a"), PathBuf::from("b")];
            Ok(Command::Raise { order: Order { user: user.to_vec(), amount, keep_size: false, dry_run }, files })
        };
        assert_eq!(parsed(&["raise", "--user", "room 7", "--by", "3", "a", "b"]), want(b"room 7", 3, false));
        assert_eq!(parsed(&["raise", "a", "--dry-run", "--by", "0", "b", "--user", ""]), want(b"", 0, true));
        assert_eq!(parsed(&["raise", "--user", "--by", "--by", "1", "a", "b"]), want(b"--by", 1, false));
        for hex in ["636166E9", "hex:636166E9", "636166e9"] {
            assert_eq!(parsed(&["raise", "--user-hex", hex, "--by", "1", "a", "b"]), want(b"caf\xE9", 1, false));
        }
        let most = u64::MAX.to_string();
        assert_eq!(parsed(&["raise", "--user-hex", "", "--by", &most, "a", "b"]), want(b"", u64::MAX, false));
    }

    #[test]
    fn a_user_is_any_bytes() {
        let user = OsStr::from_bytes(b"caf\xE9").to_os_string();
        let words = ["raise".into(), "--user".into(), user, "--by".into(), "1".into(), "a".into()];
        let order = Order { user: b"caf\xE9".to_vec(), amount: 1, keep_size: false, dry_run: false };
        assert_eq!(parse(&words), Ok(Command::Raise { order, files: vec![PathBuf::from("a")] }));
    }

    #[test]
    fn a_raise_may_keep_the_size() {
        let order = Order { user: b"a".to_vec(), amount: 1, keep_size: true, dry_run: false };
        let want = Ok(Command::Raise { order, files: vec![PathBuf::from("f")] });
        assert_eq!(parsed(&["raise", "--keep-size", "--user", "a", "--by", "1", "f"]), want);
        assert_eq!(parsed(&["raise", "f", "--user", "a", "--by", "1", "--keep-size", "--keep-size"]), want);
    }

    #[test]
    fn files_are_named_to_be_put_back() {
        let files = vec![PathBuf::from("a"), PathBuf::from("-b")];
        assert_eq!(parsed(&["recover", "a", "--", "-b"]), Ok(Command::Recover { files }));
        assert_eq!(parsed(&["recover", "--help"]), Ok(Command::Help));
        for (words, why) in [
            (&["recover"][..], "recover needs a file"),
            (&["recover", "-"], "recover changes files, not standard input"),
            (&["recover", "--by", "1"], "unknown option: --by"),
        ] {
            assert_eq!(parsed(words), Err(why.to_string()));
        }
    }

    #[test]
    fn what_makes_no_raise_says_why() {
        let by = "--by needs a number from 0 to 18446744073709551615";
        for (words, why) in [
            (&["raise", "--by", "1", "a"][..], "raise needs --user or --user-hex"),
            (&["raise", "--user", "u", "a"], "raise needs --by"),
            (&["raise", "--user", "u", "--by", "1"], "raise needs a file"),
            (&["raise", "--user", "u", "--by", "1", "-"], "raise changes files, not standard input"),
            (&["raise", "--user", "u", "--user", "u", "--by", "1", "a"], "a user is given twice"),
            (&["raise", "--user", "u", "--user-hex", "75", "--by", "1", "a"], "a user is given twice"),
            (&["raise", "--user", "u", "--by", "1", "--by", "1", "a"], "--by is given twice"),
            (&["raise", "--by", "1", "a", "--user"], "--user needs a user"),
            (&["raise", "--user-hex", "7", "--by", "1", "a"], "--user-hex needs pairs of hexadecimal digits"),
            (&["raise", "--user-hex", "+7", "--by", "1", "a"], "--user-hex needs pairs of hexadecimal digits"),
            (&["raise", "--user-hex", "u\u{308}", "--by", "1", "a"], "--user-hex needs pairs of hexadecimal digits"),
            (&["raise", "--user", "u", "--by", "", "a"], by),
            (&["raise", "--user", "u", "--by", "+1", "a"], by),
            (&["raise", "--user", "u", "--by", "-1", "a"], by),
            (&["raise", "--user", "u", "--by", "1.5", "a"], by),
            (&["raise", "--user", "u", "--by", "18446744073709551616", "a"], by),
            (&["raise", "--user", "u", "--by"], by),
            (&["raise", "--users", "u"], "unknown option: --users"),
        ] {
            assert_eq!(parsed(words), Err(why.to_string()), "{words:?}");
        }
    }

    #[test]
    fn help_is_found_after_a_command() {
        assert_eq!(parsed(&["sum", "--help"]), Ok(Command::Help));
        assert_eq!(parsed(&["list", "-h"]), Ok(Command::Help));
        assert_eq!(parsed(&["raise", "--help"]), Ok(Command::Help));
    }

    #[test]
    fn what_makes_no_command_says_why() {
        assert_eq!(parsed(&["sum", "--csv", "--json", "a"]), Err("--csv and --json exclude each other".to_string()));
        assert_eq!(parsed(&["list", "--all", "a"]), Err("unknown option: --all".to_string()));
        assert_eq!(parsed(&["sum", "--csv"]), Err("sum needs a path".to_string()));
        assert_eq!(parsed(&["sum", "-\x1b[2J"]), Err("unknown option: -\\u{1b}[2J".to_string()));
    }
}
