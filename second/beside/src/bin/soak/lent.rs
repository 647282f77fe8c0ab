//! What is lent to a call: elements between guard elements.

use std::hint::black_box;

use second::cards::Random;

/// The guard elements on each side.
const GUARD: usize = 64;

/// An element of what is lent.
pub trait Element: Copy + PartialEq {
    /// The lowest part of a number, which fills the element.
    fn lowest(number: u64) -> Self;
}

impl Element for u8 {
    fn lowest(number: u64) -> u8 {
        number as u8
    }
}

impl Element for u16 {
    fn lowest(number: u64) -> u16 {
        number as u16
    }
}

impl Element for u32 {
    fn lowest(number: u64) -> u32 {
        number as u32
    }
}

/// Elements between guard elements, with a copy of what they must all be after the call.
pub struct Lent<T> {
    all: Vec<T>,
    wanted: Vec<T>,
}

impl<T: Element> Lent<T> {
    /// Lends a copy of these; the guard elements are drawn, so that no value is safe to write.
    pub fn new(random: &mut Random, elements: &[T]) -> Lent<T> {
        let mut all = Vec::with_capacity(elements.len() + 2 * GUARD);
        draw(random, &mut all, GUARD);
        all.extend_from_slice(elements);
        draw(random, &mut all, GUARD);
        let wanted = all.clone();
        Lent { all, wanted }
    }

    /// Lends this many elements, all drawn.
    pub fn drawn(random: &mut Random, length: usize) -> Lent<T> {
        let mut all = Vec::with_capacity(length + 2 * GUARD);
        draw(random, &mut all, length + 2 * GUARD);
        let wanted = all.clone();
        Lent { all, wanted }
    }

    /// The elements alone.
    pub fn elements(&self) -> &[T] {
        &self.all[GUARD..self.all.len() - GUARD]
    }

    /// The elements alone, to be written.
    pub fn elements_mut(&mut self) -> &mut [T] {
        let end = self.all.len() - GUARD;
        &mut self.all[GUARD..end]
    }

    /// What the elements alone must be after the call.
    pub fn wanted(&self) -> &[T] {
        &self.wanted[GUARD..self.wanted.len() - GUARD]
    }

    /// The same, to be written, for a call that has something to write.
    pub fn wanted_mut(&mut self) -> &mut [T] {
        let end = self.wanted.len() - GUARD;
        &mut self.wanted[GUARD..end]
    }

    /// The first element that is not what it must be, counted from the first that is no guard.
    pub fn differs(&self) -> Option<isize> {
        // A call may have had only a shared borrow, so that all must be looked at afresh.
        let now = black_box(&self.all);
        // Equal elements are the rule, and comparing them whole is fast.
        if *now == self.wanted {
            return None;
        }
        let mut pairs = now.iter().zip(&self.wanted).enumerate();
        let (at, _) = pairs.find(|(_, (now, wanted))| now != wanted)?;
        Some(at as isize - GUARD as isize)
    }
}

/// Draws this many elements more; one number serves eight of them.
fn draw<T: Element>(random: &mut Random, elements: &mut Vec<T>, count: usize) {
    let end = elements.len() + count;
    while elements.len() < end {
        let drawn = random.draw();
        let left = (end - elements.len()).min(8);
        elements.extend((0..left as u32).map(|k| T::lowest(drawn.rotate_right(8 * k))));
    }
}
