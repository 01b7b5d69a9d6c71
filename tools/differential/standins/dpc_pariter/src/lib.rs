//! Stand-in for `dpc-pariter`: the parallel map of an iterator, on the calling thread and in order.
use std::any::Any;
use std::panic::{catch_unwind, AssertUnwindSafe};

pub struct Scope;

/// A panic inside is an error, as in the crate that this stands in for.
pub fn scope<R>(f: impl FnOnce(&Scope) -> R) -> Result<R, Box<dyn Any + Send>> {
    catch_unwind(AssertUnwindSafe(|| f(&Scope)))
}

pub struct ParallelMap<I, F> {
    items: I,
    f: F,
}

impl<I, F> ParallelMap<I, F> {
    pub fn threads(self, _num_threads: usize) -> Self {
        self
    }
}

impl<I: Iterator, O, F: FnMut(I::Item) -> O> Iterator for ParallelMap<I, F> {
    type Item = O;

    fn next(&mut self) -> Option<O> {
        self.items.next().map(&mut self.f)
    }
}

pub trait IteratorExt: Iterator + Sized {
    fn parallel_map_scoped<O, F: FnMut(Self::Item) -> O>(self, _: &Scope, f: F) -> ParallelMap<Self, F> {
        ParallelMap { items: self, f }
    }
}

impl<I: Iterator> IteratorExt for I {}
