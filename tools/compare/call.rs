// A call that was made: what it answered and left, and what the model and the Rust say.

use ffi::lefkanu_data_link_error;

use crate::lent::Memory;
use crate::outcome::{Model, Refusal, Rust, Told};
use crate::written::Written;

pub struct Call<'a> {
    pub answer: u8,
    pub lent: &'a mut [&'a mut dyn Memory],
    pub model: Model,
    pub rust: Rust,
    pub input: &'a dyn Fn() -> String,
}

impl Call<'_> {
    // Whether the model has the same answer and memory.
    pub fn as_model(&self) -> bool {
        match &self.model {
            Ok(written) => self.answer == 0 && self.holds(written),
            Err(answer) => self.answer == *answer && self.untouched(),
        }
    }

    // Whether the Rust has nothing against it.
    pub fn as_rust(&self) -> bool {
        match &self.rust {
            Rust::Silent => true,
            Rust::Whole(told) | Rust::ButChecks(told) => self.as_told(told),
        }
    }

    // Whether this is what the Rust told.
    fn as_told(&self, told: &Told) -> bool {
        match told {
            Ok(written) => self.answer == 0 && self.holds(written),
            Err(Refusal::Error(error)) => {
                let ours = unsafe { lefkanu_data_link_error(self.answer) };
                self.answer != 0 && ours == *error as u8
            }
            Err(Refusal::Answer(answer)) => self.answer == *answer,
        }
    }

    // Whether each lent memory has its numbers in front, and all else is as it was.
    fn holds(&self, written: &Written) -> bool {
        assert_eq!(self.lent.len(), written.len(), "lent memories");
        let mut pairs = self.lent.iter().zip(written);
        pairs.all(|(memory, front)| memory.holds(front))
    }

    // Whether all is as it was.
    fn untouched(&self) -> bool {
        self.lent.iter().all(|memory| memory.holds(&[]))
    }

    // The call in words, with both opinions.
    pub fn text(&self) -> String {
        let memory = |memory: &&mut dyn Memory| format!(" [{}]", memory.changes().trim());
        let lent: String = self.lent.iter().map(memory).collect();
        let model = match &self.model {
            Ok(written) => format!("0 {written:x?}"),
            Err(answer) => format!("{answer}"),
        };
        let rust = match &self.rust {
            Rust::Silent => "silent".to_string(),
            Rust::Whole(told) | Rust::ButChecks(told) => match told {
                Ok(written) => format!("accepts {written:x?}"),
                Err(Refusal::Error(error)) => format!("{error:?}"),
                Err(Refusal::Answer(answer)) => format!("{answer}"),
            },
        };
        let input = (self.input)();
        let ours = self.answer;
        format!("{input}\n  ours: {ours}{lent}\n  model: {model}\n  the Rust: {rust}")
    }
}
