//! Answers questions to the new library, batch by batch, from standard input to standard output: for a comparison that runs outside the emulator.
use compare::linked;
use compare::wire::{self, Question};
use std::io;

fn main() -> io::Result<()> {
    let (mut input, mut output) = (io::stdin().lock(), io::stdout().lock());
    let mut work = Vec::new();
    while let Some(questions) = wire::receive(&mut input)? {
        let answers: Vec<Vec<u8>> = questions.iter().map(|question| answer(question, &mut work)).collect();
        wire::send(&mut output, &answers)?;
    }
    Ok(())
}

fn answer(question: &[u8], work: &mut Vec<u8>) -> Vec<u8> {
    match wire::question(question) {
        Question::Tag(tag) => wire::put_seen(&linked::read(&tag, work)),
        Question::Order(order) => wire::put_written(&linked::write(&order)),
        Question::Raise(raise) => wire::put_changed(&linked::raise(&raise)),
        Question::Edit(edit) => wire::put_changed(&linked::edit(&edit)),
    }
}
