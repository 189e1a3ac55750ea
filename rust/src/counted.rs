//! Iterators that know how many are left, or how many at most.
#![forbid(unsafe_code)]
use std::iter::FusedIterator;

/// An iterator of which it is known how many it gives.
#[derive(Debug, Clone)]
pub(crate) struct Counted<I> {
    pub(crate) iter: I,
    pub(crate) left: usize,
}

impl<I: Iterator> Iterator for Counted<I> {
    type Item = I::Item;

    fn next(&mut self) -> Option<I::Item> {
        let next = self.iter.next()?;
        self.left -= 1;
        Some(next)
    }

    fn size_hint(&self) -> (usize, Option<usize>) {
        (self.left, Some(self.left))
    }
}

impl<I: DoubleEndedIterator> DoubleEndedIterator for Counted<I> {
    fn next_back(&mut self) -> Option<I::Item> {
        let next = self.iter.next_back()?;
        self.left -= 1;
        Some(next)
    }
}

impl<I: Iterator> ExactSizeIterator for Counted<I> {}
impl<I: FusedIterator> FusedIterator for Counted<I> {}

/// An iterator of which it is known how many it gives at most.
#[derive(Debug, Clone)]
pub(crate) struct AtMost<I> {
    pub(crate) iter: I,
    pub(crate) most: usize,
}

impl<I: Iterator> Iterator for AtMost<I> {
    type Item = I::Item;

    fn next(&mut self) -> Option<I::Item> {
        let next = self.iter.next()?;
        self.most -= 1;
        Some(next)
    }

    fn size_hint(&self) -> (usize, Option<usize>) {
        (self.iter.size_hint().0, Some(self.most))
    }
}

impl<I: FusedIterator> FusedIterator for AtMost<I> {}
