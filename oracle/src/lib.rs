//! Asks the crate id3 1.17.2 what it reads and what it writes.
//!
//! Reading goes as document 01's domain says: the slice is cut at the tag's end, and each frame is looked at before `Tag::add_frame`
//! sees it. Writing goes through the crate's own `Encoder`. Every decision is the crate's: where the harness has to say more than the
//! crate hands out (the body's bytes, the undecoded text), it asks the crate a second time and checks the answer against the first.

mod ask;
mod form;
mod put;
mod selfcheck;

pub use ask::{
    big_stack, levels, read, read_past, read_uncut, run_of, text_end, Failure, Header, Item, Kind, Reading, Stop, BIG_STACK, MOST_LEVELS,
};
pub use form::{failure_line, hex, lines, parse_list, unhex, written_line};
pub use put::{write, Fields, List, Record, Subs, Unwritten};
pub use id3::Version;
pub use selfcheck::{agrees, sample, Sample};

use std::any::Any;
use std::panic::{catch_unwind, AssertUnwindSafe};

/// Keeps panics from printing: they are reported as answers.
pub fn quiet() {
    std::panic::set_hook(Box::new(|_| {}));
}

/// What was computed, or the message of the panic that stopped it.
fn caught<T>(work: impl FnOnce() -> T) -> Result<T, String> {
    catch_unwind(AssertUnwindSafe(work)).map_err(|payload| message(&*payload))
}

fn message(payload: &(dyn Any + Send)) -> String {
    if let Some(text) = payload.downcast_ref::<&str>() {
        (*text).to_string()
    } else if let Some(text) = payload.downcast_ref::<String>() {
        text.clone()
    } else {
        "a panic without a message".to_string()
    }
}
