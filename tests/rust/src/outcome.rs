//! What a call answers and leaves behind. The model and the library each give one, and the two are compared whole.

#[derive(Clone, PartialEq, Eq)]
pub struct Outcome {
    /// The number returned: a status, or the length of the block that look hands back.
    pub answer: usize,
    /// The out-parameter's new value, none where it was left alone.
    pub out: Option<usize>,
    /// The final bytes of each buffer that the call may write, in the order of its arguments.
    pub written: Vec<Vec<u8>>,
}

impl Outcome {
    /// The outcome of a call that writes no buffer.
    pub fn reading(answer: usize, out: Option<usize>) -> Outcome {
        Outcome { answer, out, written: Vec::new() }
    }

    /// The outcome of a call that writes one buffer and has no out-parameter.
    pub fn writing(answer: usize, bytes: Vec<u8>) -> Outcome {
        Outcome { answer, out: None, written: vec![bytes] }
    }

    /// In words, how another outcome differs from this one, the expected one.
    pub fn difference(&self, other: &Outcome) -> String {
        let mut said = Vec::new();
        if self.answer != other.answer {
            said.push(format!("answer {} instead of {}", other.answer, self.answer));
        }
        if self.out != other.out {
            said.push(format!("out-parameter {:?} instead of {:?}", other.out, self.out));
        }
        for (number, (expected, found)) in self.written.iter().zip(&other.written).enumerate() {
            if let Some(at) = (0..expected.len()).find(|&i| expected[i] != found[i]) {
                let count = (0..expected.len()).filter(|&i| expected[i] != found[i]).count();
                said.push(format!(
                    "{count} wrong bytes in written buffer {number}, first byte {at}: {} instead of {}",
                    found[at], expected[at]
                ));
            }
        }
        said.join("; ")
    }
}

/// What a call answers that also names a position.
#[derive(Clone, PartialEq, Eq)]
pub struct Placed {
    pub outcome: Outcome,
    /// The position's new value, none where it was left alone.
    pub position: Option<usize>,
}

impl Placed {
    /// The outcome of a call that names no position.
    pub fn nowhere(outcome: Outcome) -> Placed {
        Placed { outcome, position: None }
    }

    /// In words, how another outcome differs from this one, the expected one.
    pub fn difference(&self, other: &Placed) -> String {
        let rest = self.outcome.difference(&other.outcome);
        if self.position == other.position {
            return rest;
        }
        format!("position {:?} instead of {:?}; {rest}", other.position, self.position)
    }
}
