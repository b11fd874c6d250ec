//! What a word is given: a job, code or a formula, and what the library accepts of it.

use crate::args::{Call, Source, Word};
use crate::failure::Failure;
use crate::telling;

pub struct Input {
    name: String,
    bytes: Vec<u8>,
    form: Form,
}

enum Form {
    Job,
    Code,
    Formula,
}

/// A job that the library accepted, and its code.
pub struct Accepted {
    pub job: Vec<u8>,
    pub code: Vec<u8>,
}

impl Input {
    pub fn read(call: &Call) -> Result<Input, Failure> {
        let bytes = match &call.source {
            Source::File(file) => crate::read(file)?,
            Source::Text(text) => text.clone(),
        };
        Ok(Input { name: call.source.name(), form: Form::of(call, &bytes), bytes })
    }

    pub fn accepted(self) -> Result<Accepted, Failure> {
        let Input { name, bytes, form } = self;
        let made = match form {
            Form::Job => kuspigo::compile(&bytes),
            Form::Code => kuspigo::read_back(&bytes),
            Form::Formula => kuspigo::formula(&bytes),
        };
        match (form, made) {
            (Form::Job, Ok(code)) => Ok(Accepted { job: bytes, code }),
            (Form::Code, Ok(job)) => Ok(Accepted { job, code: bytes }),
            (Form::Formula, Ok(job)) => {
                let code = kuspigo::compile(&job).expect("a formula's job is accepted");
                Ok(Accepted { job, code })
            }
            (Form::Formula, Err(refusal)) => Err(Failure::RefusedFormula { name, text: bytes, refusal }),
            (_, Err(refusal)) => Err(Failure::refused(name, &bytes, refusal)),
        }
    }
}

impl Form {
    /// No formula begins with `W`, so that a job or code is never taken for one.
    fn of(call: &Call, bytes: &[u8]) -> Form {
        match (call.word, &call.source) {
            (_, Source::Text(_)) | (Word::Formula, _) => Form::Formula,
            (Word::Back, _) => Form::Code,
            _ if bytes.starts_with(b"WSJ") => Form::Job,
            (Word::Show, _) if bytes.starts_with(b"WSC") => Form::Code,
            _ if call.formula => Form::Formula,
            (Word::Show, _) if begins_formula(bytes) => Form::Formula,
            _ => Form::Job,
        }
    }
}

/// Whether some formula begins with the first byte.
fn begins_formula(bytes: &[u8]) -> bool {
    bytes.first().is_some_and(|&first| telling::fits(&[], first))
}

/// Whether somebody may have typed it as a formula, right or wrong.
pub fn is_text(bytes: &[u8]) -> bool {
    let typed = |&byte: &u8| byte >= b' ' || byte.is_ascii_whitespace();
    bytes.first().is_some_and(|&first| first != b'W') && bytes.iter().all(typed)
}
