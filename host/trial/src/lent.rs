//! A lent buffer: a part of a larger one, so that a write before or behind it is seen too.
use crate::random::Random;
use std::fmt;

#[derive(Clone, PartialEq)]
pub struct Lent<T> {
    all: Vec<T>,
    start: usize,
    end: usize,
}

/// A type of which a random word makes an element.
pub trait Element: Copy {
    fn of(word: u64) -> Self;
}

macro_rules! elements {
    ($($element:ty),*) => {
        $(impl Element for $element {
            fn of(word: u64) -> Self {
                word as $element
            }
        })*
    };
}

elements!(u8, i8, i16, u64);

impl<T: Element> Lent<T> {
    pub fn none() -> Lent<T> {
        Lent { all: Vec::new(), start: 0, end: 0 }
    }

    /// So many elements, all random, as what lies around them.
    pub fn random(random: &mut Random, count: usize) -> Lent<T> {
        let (before, behind) = (1 + random.below(8), 1 + random.below(8));
        let all = (0..before + count + behind).map(|_| T::of(random.word())).collect();
        Lent { all, start: before, end: before + count }
    }

    /// These elements, cut or with random ones behind them to make so many.
    pub fn holding(random: &mut Random, elements: &[T], count: usize) -> Lent<T> {
        let mut lent = Lent::random(random, count);
        let common = count.min(elements.len());
        lent.part_mut()[..common].copy_from_slice(&elements[..common]);
        lent
    }

    pub fn part(&self) -> &[T] {
        &self.all[self.start..self.end]
    }

    pub fn part_mut(&mut self) -> &mut [T] {
        &mut self.all[self.start..self.end]
    }
}

impl<T: fmt::Debug> fmt::Debug for Lent<T> {
    fn fmt(&self, to: &mut fmt::Formatter) -> fmt::Result {
        let (before, behind) = (self.start, self.all.len() - self.end);
        write!(to, "{} of {:?}, {before} before and {behind} behind", self.end - self.start, self.all)
    }
}
