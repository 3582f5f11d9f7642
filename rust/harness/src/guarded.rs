//! Elements with guard bytes on both sides.

use std::marker::PhantomData;
use std::mem::{size_of, size_of_val};
use std::slice;

/// Guard bytes on each side.
const GUARD: usize = 64;

/// Numbers that any bits are.
pub trait Element: Copy + PartialEq {}

impl Element for u8 {}
impl Element for u32 {}
impl Element for u64 {}
impl Element for usize {}

/// The elements begin and end where the guards end and begin, so that a byte
/// written outside changes a guard. Floats are held as their bits.
#[derive(Clone)]
pub struct Guarded<T> {
    /// Guard, elements, guard, as bytes of these words.
    words: Vec<u64>,
    length: usize,
    element: PhantomData<T>,
}

fn guard_byte(at: usize) -> u8 {
    (at as u8).wrapping_mul(29) ^ 0xa5
}

impl<T: Element> Guarded<T> {
    pub fn new(elements: &[T]) -> Guarded<T> {
        let bytes = size_of_val(elements);
        let words = GUARD / 8 + (bytes + 7) / 8 + GUARD / 8;
        let mut guarded = Guarded {
            words: vec![0; words],
            length: elements.len(),
            element: PhantomData,
        };
        for (at, byte) in guarded.bytes_mut().iter_mut().enumerate() {
            *byte = guard_byte(at);
        }
        guarded.elements_mut().copy_from_slice(elements);
        guarded
    }

    fn bytes_mut(&mut self) -> &mut [u8] {
        let length = 8 * self.words.len();
        unsafe { slice::from_raw_parts_mut(self.words.as_mut_ptr().cast(), length) }
    }

    fn bytes(&self) -> &[u8] {
        unsafe { slice::from_raw_parts(self.words.as_ptr().cast(), 8 * self.words.len()) }
    }

    pub fn elements(&self) -> &[T] {
        let first = self.bytes()[GUARD..].as_ptr().cast();
        unsafe { slice::from_raw_parts(first, self.length) }
    }

    pub fn elements_mut(&mut self) -> &mut [T] {
        let length = self.length;
        unsafe { slice::from_raw_parts_mut(self.pointer(), length) }
    }

    /// The first element. Never null.
    pub fn pointer(&mut self) -> *mut T {
        self.bytes_mut()[GUARD..].as_mut_ptr().cast()
    }

    pub fn length(&self) -> usize {
        self.length
    }

    /// Whether every guard byte is as it was made.
    pub fn guards_hold(&self) -> bool {
        let bytes = self.bytes();
        let end = GUARD + size_of::<T>() * self.length;
        let holds = |at: usize| bytes[at] == guard_byte(at);
        (0..GUARD).all(holds) && (end..bytes.len()).all(holds)
    }
}

impl Guarded<u64> {
    /// The first element as a float.
    pub fn floats(&mut self) -> *mut f64 {
        self.pointer().cast()
    }
}
