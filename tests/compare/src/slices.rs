//! Slices as the library gets them, in memory that is watched.

use std::fmt::Display;
use std::ops::Range;
use std::ptr;

use evaluator::random::Random;

/// The most elements of a margin.
const MARGIN: usize = 16;
/// The most elements of a slice that are shown.
const SHOWN: usize = 300;

/// A byte of a text or a number of a table.
pub trait Element: Copy + PartialEq + Display {
    /// The element of a pattern's word.
    fn of_pattern(word: u64) -> Self;

    fn shown(elements: &[Self]) -> String;
}

impl Element for u8 {
    fn of_pattern(word: u64) -> u8 {
        (word >> 56) as u8
    }

    fn shown(elements: &[u8]) -> String {
        format!("\"{}\"", elements.escape_ascii())
    }
}

impl Element for u32 {
    fn of_pattern(word: u64) -> u32 {
        (word >> 32) as u32
    }

    fn shown(elements: &[u32]) -> String {
        format!("{elements:?}")
    }
}

/// A slice between two margins that belong to nobody.
pub struct Slice<T> {
    name: &'static str,
    memory: Vec<T>,
    /// What the memory must hold after the call.
    expected: Vec<T>,
    place: Range<usize>,
    /// The address that an empty slice comes with: any goes.
    stray: usize,
    lent: bool,
}

/// A random pattern of so many elements.
fn pattern<T: Element>(random: &mut Random, len: usize) -> impl Iterator<Item = T> {
    let start = random.below(usize::MAX) as u64;
    let step = random.below(usize::MAX) as u64 | 1;
    (0..len as u64).map(move |place| T::of_pattern(start.wrapping_add(step.wrapping_mul(place))))
}

impl<T: Element> Slice<T> {
    /// A slice to be read, with such contents.
    pub fn given(random: &mut Random, name: &'static str, contents: &[T]) -> Slice<T> {
        let before = random.between(1, MARGIN);
        let mut memory: Vec<T> = pattern(random, before).collect();
        memory.extend(contents);
        memory.extend(pattern::<T>(random, MARGIN));
        Slice {
            name,
            expected: memory.clone(),
            memory,
            place: before..before + contents.len(),
            stray: random.pick(&[0, 1, 64, usize::MAX]),
            lent: false,
        }
    }

    /// A slice to be written, with a random pattern in it.
    pub fn lent(random: &mut Random, name: &'static str, len: usize) -> Slice<T> {
        let contents: Vec<T> = pattern(random, len).collect();
        Slice {
            lent: true,
            ..Slice::given(random, name, &contents)
        }
    }

    pub fn len(&self) -> usize {
        self.place.len()
    }

    pub fn pointer(&mut self) -> *mut T {
        if self.place.is_empty() {
            ptr::without_provenance_mut(self.stray)
        } else {
            self.memory[self.place.clone()].as_mut_ptr()
        }
    }

    /// What the slice holds.
    pub fn contents(&self) -> &[T] {
        &self.memory[self.place.clone()]
    }

    /// What the slice must hold after the call.
    pub fn expected(&mut self) -> &mut [T] {
        &mut self.expected[self.place.clone()]
    }

    /// Takes what the slice holds as expected, whatever it is.
    pub fn leave_open(&mut self) {
        let open = self.place.clone();
        self.expected[open.clone()].copy_from_slice(&self.memory[open]);
    }
}

/// A slice of any sort, after the call.
pub trait Watched {
    /// Where the memory first differs from what it must hold; a place below 0 or beyond the slice is in a margin.
    fn difference(&self) -> Option<String>;

    /// The slice as part of a call.
    fn shown(&self) -> String;
}

impl<T: Element> Watched for Slice<T> {
    fn difference(&self) -> Option<String> {
        if self.memory == self.expected {
            return None;
        }
        let mut pairs = self.memory.iter().zip(&self.expected);
        let place = pairs.position(|(found, expected)| found != expected)?;
        let (found, expected) = (self.memory[place], self.expected[place]);
        let place = place as isize - self.place.start as isize;
        Some(format!("{}[{place}] is {found}, not {expected}", self.name))
    }

    fn shown(&self) -> String {
        let (name, len) = (self.name, self.len());
        if self.lent || len > SHOWN {
            format!("{name} of {len}")
        } else {
            format!("{name} {}", T::shown(self.contents()))
        }
    }
}
