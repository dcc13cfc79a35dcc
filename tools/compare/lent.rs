// Lent memory: filled with a pattern that is another for each call, between guard words on both
// sides, and looked at whole after the call.

use std::fmt::Write;

use shared::random::Random;

// How many guard words stand on each side.
const GUARDS: usize = 4;

// A number as it is lent.
pub trait Word: Copy + PartialEq {
    // The low bits of a number.
    fn of(wide: u64) -> Self;

    // The number in 64 bits.
    fn wide(self) -> u64;
}

macro_rules! words {
    ($($word:ty)*) => {
        $(
            impl Word for $word {
                fn of(wide: u64) -> $word {
                    wide as $word
                }

                fn wide(self) -> u64 {
                    self as u64
                }
            }
        )*
    };
}

words! { u8 u16 u32 usize }

// The memory with its guards, before and after a call.
pub struct Lent<T> {
    before: Vec<T>,
    after: Vec<T>,
}

impl<T: Word> Lent<T> {
    // Memory of so many numbers.
    pub fn new(count: usize, random: &mut Random) -> Lent<T> {
        let any = |_| T::of(random.wide());
        let before: Vec<T> = (0..count + 2 * GUARDS).map(any).collect();
        let after = before.clone();
        Lent { before, after }
    }

    // Memory that holds some numbers before the call.
    pub fn holding(numbers: &[T], random: &mut Random) -> Lent<T> {
        let mut lent = Lent::new(numbers.len(), random);
        lent.before[GUARDS..][..numbers.len()].copy_from_slice(numbers);
        lent.after.copy_from_slice(&lent.before);
        lent
    }

    // What a call gets: a pointer to the numbers between the guards, of which there are len().
    pub fn pointer(&mut self) -> *mut T {
        self.after[GUARDS..].as_mut_ptr()
    }

    // The same, where it points to a fixed count of numbers.
    pub fn array<const COUNT: usize>(&mut self) -> *mut [T; COUNT] {
        assert_eq!(COUNT, self.len(), "the count of a lent array");
        self.pointer().cast()
    }

    // How many numbers there are between the guards.
    pub fn len(&self) -> usize {
        self.before.len() - 2 * GUARDS
    }

    // What stands there.
    pub fn after(&self) -> &[T] {
        &self.after[GUARDS..][..self.len()]
    }

    // What stood there before the call.
    pub fn before(&self) -> &[T] {
        &self.before[GUARDS..][..self.len()]
    }
}

// Lent memory of any numbers, after a call.
pub trait Memory {
    // How many numbers it has.
    fn count(&self) -> usize;

    // Whether it has some numbers in front, and all else is as it was, the guards too.
    fn holds(&self, front: &[u64]) -> bool;

    // Which numbers changed and what they are, place by place.
    fn changes(&self) -> String;

    // Changes a number or, behind the last, a guard word.
    fn spoil(&mut self, place: usize);
}

impl<T: Word> Memory for Lent<T> {
    fn count(&self) -> usize {
        self.len()
    }

    fn holds(&self, front: &[u64]) -> bool {
        let Some(memory) = self.after().get(..front.len()) else {
            return false;
        };
        let rest = GUARDS + front.len();
        let mut pairs = memory.iter().zip(front);
        pairs.all(|(word, number)| word.wide() == *number)
            && self.after[..GUARDS] == self.before[..GUARDS]
            && self.after[rest..] == self.before[rest..]
    }

    fn changes(&self) -> String {
        let mut text = String::new();
        for (place, word) in self.after.iter().enumerate() {
            if *word != self.before[place] {
                let place = place as isize - GUARDS as isize;
                write!(text, " {place}:{:x}", word.wide()).unwrap();
            }
        }
        text
    }

    fn spoil(&mut self, place: usize) {
        let word = &mut self.after[GUARDS + place];
        *word = T::of(word.wide() ^ 1);
    }
}
