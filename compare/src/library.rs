//! The new library, linked or in another process.
//!
//! In another process it is asked in batches. A question whose answer is not at hand is noted and answered with nothing; whoever asked has to
//! ask again after the next batch, and `take_waiting` tells so.
use compare::answers::{Changed, Edit, Entry, Order, Raise, Seen, Stop, Written};
use compare::ids::{wrapped, Kind};
use compare::wire;
use std::collections::HashMap;
use std::io;
use std::process::{Child, ChildStdin, ChildStdout, Command, Stdio};

/// The command of the other process, its words with spaces between them.
pub const OTHER: &str = "COMPARE_ANSWERS";

/// The library.
pub enum Library {
    /// In this process, with its work buffer.
    #[cfg(feature = "library")]
    Linked(Vec<u8>),
    /// In another one.
    Other(Other),
}

/// The other process, the answers at hand and the questions to be sent.
pub struct Other {
    process: Child,
    input: ChildStdin,
    output: ChildStdout,
    known: HashMap<Vec<u8>, Vec<u8>>,
    wanted: Vec<Vec<u8>>,
    waiting: bool,
}

impl Library {
    /// The other process where one is named, else the linked library.
    pub fn new() -> Library {
        match std::env::var(OTHER) {
            Ok(command) => Library::Other(Other::start(&command).expect("the other process can be started")),
            Err(_) => Library::linked(),
        }
    }

    #[cfg(feature = "library")]
    fn linked() -> Library {
        Library::Linked(Vec::new())
    }

    #[cfg(not(feature = "library"))]
    fn linked() -> Library {
        panic!("the library is not linked, and {OTHER} names no process that has it");
    }

    /// What the library takes a tag for.
    pub fn read(&mut self, tag: &[u8]) -> Seen {
        match self {
            #[cfg(feature = "library")]
            Library::Linked(work) => compare::linked::read(tag, work),
            Library::Other(other) => match other.ask(wire::put_tag(tag)) {
                Some(answer) => wire::seen(answer),
                None => Seen { header: Err(0), frames: Vec::new(), stop: Stop::End { at: 0 } },
            },
        }
    }

    /// What the library makes of an order.
    pub fn write(&mut self, order: &Order) -> Written {
        match self {
            #[cfg(feature = "library")]
            Library::Linked(_) => compare::linked::write(order),
            Library::Other(other) => match other.ask(wire::put_order(order)) {
                Some(answer) => wire::written(answer),
                None => Written::default(),
            },
        }
    }

    /// What comes of a raise.
    pub fn raise(&mut self, raise: &Raise) -> Changed {
        match self {
            #[cfg(feature = "library")]
            Library::Linked(_) => compare::linked::raise(raise),
            Library::Other(other) => match other.ask(wire::put_raise(raise)) {
                Some(answer) => wire::changed(answer),
                None => Changed::default(),
            },
        }
    }

    /// What comes of an edit.
    pub fn edit(&mut self, edit: &Edit<Entry>) -> Changed {
        match self {
            #[cfg(feature = "library")]
            Library::Linked(_) => compare::linked::edit(edit),
            Library::Other(other) => match other.ask(wire::put_edit(edit)) {
                Some(answer) => wire::changed(answer),
                None => Changed::default(),
            },
        }
    }

    fn other(&mut self) -> Option<&mut Other> {
        match self {
            #[cfg(feature = "library")]
            Library::Linked(_) => None,
            Library::Other(other) => Some(other),
        }
    }

    /// Whether an answer is missing.
    pub fn is_waiting(&mut self) -> bool {
        self.other().is_some_and(|other| other.waiting)
    }

    /// Whether an answer was missing since this was asked before.
    pub fn take_waiting(&mut self) -> bool {
        self.other().is_some_and(|other| std::mem::take(&mut other.waiting))
    }

    /// Gets the answers that were missing.
    pub fn fetch(&mut self) {
        if let Some(other) = self.other() {
            other.fetch().expect("the other process answers");
        }
    }

    /// Leaves all answers that are at hand.
    pub fn forget(&mut self) {
        if let Some(other) = self.other() {
            other.known.clear();
        }
    }
}

impl Drop for Other {
    fn drop(&mut self) {
        // it has nothing to lose
        let _ = self.process.kill();
        let _ = self.process.wait();
    }
}

impl Other {
    fn start(command: &str) -> io::Result<Other> {
        let mut words = command.split(' ');
        let mut process = Command::new(words.next().unwrap_or_default())
            .args(words)
            .stdin(Stdio::piped())
            .stdout(Stdio::piped())
            .spawn()?;
        let input = process.stdin.take().expect("it was piped");
        let output = process.stdout.take().expect("it was piped");
        Ok(Other { process, input, output, known: HashMap::new(), wanted: Vec::new(), waiting: false })
    }

    fn ask(&mut self, question: Vec<u8>) -> Option<&[u8]> {
        if !self.known.contains_key(&question) {
            self.waiting = true;
            self.wanted.push(question);
            return None;
        }
        self.known.get(&question).map(Vec::as_slice)
    }

    // the wanted answers, and those for the runs of the chapters in them
    fn fetch(&mut self) -> io::Result<()> {
        while !self.wanted.is_empty() {
            let questions = std::mem::take(&mut self.wanted);
            wire::send(&mut self.input, &questions)?;
            let answers = wire::receive(&mut self.output)?.unwrap_or_default();
            assert_eq!(questions.len(), answers.len(), "the other process did not answer all");
            for (question, answer) in questions.into_iter().zip(answers) {
                self.want_runs(&question, &answer);
                self.known.insert(question, answer);
            }
        }
        Ok(())
    }

    fn want_runs(&mut self, question: &[u8], answer: &[u8]) {
        if !wire::is_tag(question) {
            return;
        }
        let seen = wire::seen(answer);
        let Ok(header) = seen.header else { return };
        for frame in seen.frames {
            if frame.kind == Kind::Chapter as u64 || frame.kind == Kind::Contents as u64 {
                let question = wire::put_tag(&wrapped(header.edition as u8, &frame.rest));
                if !self.known.contains_key(&question) {
                    self.wanted.push(question);
                }
            }
        }
    }
}
