//! Padding in order of arrival.

use crate::raw::{self, PaddingNumbers};

/// What is remembered of octets that come one by one, to know the padding at their end. It is the padding that
/// [`detect_patterns`](super::detect_patterns) finds in the octets so far; more than 65,535 octets may come.
///
/// Padding starts `padding_length` octets before the end of the octets so far, and its value is `last`.
///
/// ```
/// use lefkanu::datalink::validation::{detect_patterns, PaddingState, Pattern};
///
/// let frame = [0x81, 0x0A, 0xFF, 0xFF, 0xFF, 0xFF];
/// let mut state = PaddingState::new();
/// for octet in frame {
///     state = state.step(octet);
/// }
/// let length = state.padding_length();
/// assert_eq!((length, state.last), (4, 0xFF));
/// let padding = Pattern::Padding { start: frame.len() - length, length, value: state.last };
/// assert_eq!(detect_patterns(&frame)?, [padding]);
/// # Ok::<(), lefkanu::datalink::DataLinkError>(())
/// ```
#[derive(Debug, Clone, Copy, PartialEq, Eq, Default)]
pub struct PaddingState {
    /// Whether an octet came yet.
    pub started: bool,
    /// The last octet; 00 before the first.
    pub last: u8,
    /// How many octets at the end, one behind another and without index 0, equal the last one, however few.
    pub run: usize,
}

impl PaddingState {
    /// The state before the first octet.
    pub fn new() -> Self {
        Self::default()
    }

    /// The state with one octet more. A run of `usize::MAX`, which no octets in memory have, stays.
    pub fn step(self, octet: u8) -> Self {
        // Nothing is refused: these numbers are a state.
        let [started, last, run] = raw::padding_step(self.numbers(), octet);
        Self {
            started: started == 1,
            last: last as u8,
            run,
        }
    }

    /// How many octets are padding: the run if it is at least 4, else 0.
    pub fn padding_length(self) -> usize {
        // Nothing is refused: these numbers are a state.
        raw::padding_length(self.numbers())
    }

    /// The state as numbers. They always are one: the first is at most 1, the second at most 255.
    fn numbers(self) -> PaddingNumbers {
        [usize::from(self.started), usize::from(self.last), self.run]
    }
}
