//! Stands in for the kit: its std with allocators and answers, and the crates that the planner uses, on one thread.
#![allow(warnings)]

#[path = "sort.rs"]
pub mod sort;

/// `vec![in alloc; value; count]` and `vec![in alloc; [a, b]]`.
#[macro_export]
macro_rules! kit_vec {
    (in $alloc:expr; $value:expr; $count:expr) => {
        $crate::kit::std::vec::Vec::from_elem($alloc, $value, $count)
    };
    (in $alloc:expr; $($item:expr),* $(,)?) => {
        $crate::kit::std::vec::Vec::from_array($alloc, [$($item),*])
    };
    (in $alloc:expr, $($item:expr),* $(,)?) => {
        $crate::kit::std::vec::Vec::from_array($alloc, [$($item),*])
    };
}

pub mod prelude {
    pub use super::sort::KitSort;
    pub use super::std::boxed::Box;
    pub use super::std::string::String;
    pub use super::std::vec::Vec;
    pub use crate::kit_vec;

    /// In the kit each type has it.
    pub trait Drop {}
    impl<T: ?Sized> Drop for T {}

    /// The kit's `unwrap`, which needn't say what it didn't want.
    pub trait KitUnwrap {
        type Wanted;

        fn kit_unwrap(self) -> Self::Wanted;
    }

    impl<T> KitUnwrap for Option<T> {
        type Wanted = T;

        fn kit_unwrap(self) -> T {
            self.unwrap()
        }
    }

    impl<T, E> KitUnwrap for Result<T, E> {
        type Wanted = T;

        fn kit_unwrap(self) -> T {
            self.ok().unwrap()
        }
    }
}

pub mod std {
    pub use ::std::*;

    pub mod alloc {
        use ::std::marker::PhantomData;

        pub trait Alloc {}
        pub trait Allocator {}

        #[derive(Clone, Copy, Debug)]
        pub struct Global;
        impl Alloc for Global {}
        impl Allocator for Global {}

        #[derive(Clone, Copy, Debug, PartialEq, Eq)]
        pub struct AllocError;

        /// Memory was refused for an item.
        pub struct AllocFailed<T>(PhantomData<T>);

        impl<T> From<AllocFailed<T>> for AllocError {
            fn from(_: AllocFailed<T>) -> Self {
                AllocError
            }
        }
    }

    pub mod boxed {
        use super::alloc::{AllocError, Global};

        pub struct Box<T>(::std::boxed::Box<T>);

        impl<T> Box<T> {
            pub fn new(_: Global, value: T) -> Result<Self, AllocError> {
                Ok(Box(::std::boxed::Box::new(value)))
            }
        }

        impl<T> ::std::ops::Deref for Box<T> {
            type Target = T;

            fn deref(&self) -> &T {
                &self.0
            }
        }

        impl<T> ::std::ops::DerefMut for Box<T> {
            fn deref_mut(&mut self) -> &mut T {
                &mut self.0
            }
        }
    }

    pub mod marker {
        pub use ::std::marker::*;

        pub trait Model {}
        pub struct Brand;
    }

    pub mod snapshot {
        pub struct Snapshot<T>(::std::marker::PhantomData<T>);

        impl<T> Snapshot<T> {
            pub fn of(_: &T) -> Self {
                Snapshot(::std::marker::PhantomData)
            }
        }
    }

    pub mod sync {
        pub use ::std::sync::*;

        use super::alloc::{AllocError, Global};

        #[derive(Clone, Debug)]
        pub struct ArcSlice<T>(Arc<Vec<T>>);

        impl<T: Clone> ArcSlice<T> {
            pub fn from_slice(_: Global, items: &[T]) -> Result<Self, AllocError> {
                Ok(ArcSlice(Arc::new(items.to_vec())))
            }

            pub fn as_slice(&self) -> &[T] {
                self.0.as_slice()
            }
        }

        pub trait Wait {}
        impl Wait for crate::kit::Runtime {}
    }

    pub mod thread {
        pub use ::std::thread::*;

        use ::std::marker::PhantomData;

        pub trait Threads {}
        impl Threads for crate::kit::Runtime {}

        pub trait Promise<R> {}

        pub struct Env;

        /// Where each thread runs to its end as it is started.
        pub struct Scope<'s, E>(PhantomData<(&'s (), E)>);

        pub struct Child<R>(R);

        pub fn scope_env() -> Env {
            Env
        }

        pub fn scope<'s, E: 's, R, T>(_: E, _: &R, f: impl FnOnce(&'s Scope<'s, E>) -> T) -> T {
            f(Box::leak(Box::new(Scope(PhantomData))))
        }

        /// What both give, where the kit runs the first one in another thread.
        pub fn join_mut<T, A, B>(
            _: &T,
            first: &mut impl FnMut() -> A,
            second: &mut impl FnMut() -> B,
        ) -> (A, B) {
            (first(), second())
        }

        impl<'s, E> Scope<'s, E> {
            pub fn spawn_with<P, R>(
                &self,
                _: P,
                f: impl FnOnce() -> R,
            ) -> ::std::result::Result<Child<R>, ()> {
                Ok(Child(f()))
            }
        }

        impl<R> Child<R> {
            pub fn join<T>(self, _: &T) -> R {
                self.0
            }
        }
    }

    pub mod string {
        use super::alloc::{AllocError, Global};

        #[derive(Debug, PartialEq, Eq)]
        pub struct String(::std::string::String);

        impl String {
            pub fn from_str(_: Global, text: &str) -> Result<Self, AllocError> {
                Ok(String(text.into()))
            }

            pub fn as_str(&self) -> &str {
                &self.0
            }

            pub fn as_bytes(&self) -> &[u8] {
                self.0.as_bytes()
            }
        }
    }

    pub mod vec {
        use super::alloc::{AllocError, AllocFailed, Global};
        use ::std::cmp::Ordering;
        use ::std::ops::{Deref, DerefMut};
        use ::std::vec as real;

        #[derive(Debug, PartialEq, Eq)]
        pub struct Vec<T>(pub real::Vec<T>);

        impl<T> Deref for Vec<T> {
            type Target = [T];
            #[inline]
            fn deref(&self) -> &[T] {
                &self.0
            }
        }

        impl<T> DerefMut for Vec<T> {
            #[inline]
            fn deref_mut(&mut self) -> &mut [T] {
                &mut self.0
            }
        }

        impl<T> IntoIterator for Vec<T> {
            type Item = T;
            type IntoIter = real::IntoIter<T>;
            fn into_iter(self) -> Self::IntoIter {
                self.0.into_iter()
            }
        }

        impl<'a, T> IntoIterator for &'a Vec<T> {
            type Item = &'a T;
            type IntoIter = ::std::slice::Iter<'a, T>;
            fn into_iter(self) -> Self::IntoIter {
                self.0.iter()
            }
        }

        impl<'a, T> IntoIterator for &'a mut Vec<T> {
            type Item = &'a mut T;
            type IntoIter = ::std::slice::IterMut<'a, T>;
            fn into_iter(self) -> Self::IntoIter {
                self.0.iter_mut()
            }
        }

        #[inline]
        fn room<T>(v: &mut Vec<T>, more: usize, exact: bool) -> Result<(), AllocError> {
            let made = if exact {
                v.0.try_reserve_exact(more)
            } else {
                v.0.try_reserve(more)
            };
            made.map_err(|_| AllocError)
        }

        impl<T> Vec<T> {
            #[inline]
            pub fn new(_: Global) -> Self {
                Vec(real::Vec::new())
            }

            pub fn with_capacity(alloc: Global, count: usize) -> Result<Self, AllocError> {
                let mut v = Vec::new(alloc);
                room(&mut v, count, true)?;
                Ok(v)
            }

            pub fn from_array<const N: usize>(
                _: Global,
                items: [T; N],
            ) -> Result<Self, AllocError> {
                Ok(Vec(items.into()))
            }

            #[inline]
            pub fn as_slice(&self) -> &[T] {
                &self.0
            }

            #[inline]
            pub fn as_mut_slice(&mut self) -> &mut [T] {
                &mut self.0
            }

            pub fn capacity(&self) -> usize {
                self.0.capacity()
            }

            #[inline]
            pub fn push(&mut self, item: T) -> Result<(), AllocFailed<T>> {
                self.0.push(item);
                Ok(())
            }

            #[inline]
            pub fn push_reserved(&mut self, item: T) {
                self.0.push(item);
            }

            #[inline]
            pub fn pop(&mut self) -> Option<T> {
                self.0.pop()
            }

            #[inline]
            pub fn take_last(&mut self) -> T {
                self.0.pop().expect("a list with a last item")
            }

            pub fn insert(&mut self, at: usize, item: T) -> Result<(), AllocFailed<T>> {
                self.0.insert(at, item);
                Ok(())
            }

            pub fn remove(&mut self, at: usize) -> T {
                self.0.remove(at)
            }

            pub fn swap_remove(&mut self, at: usize) -> T {
                self.0.swap_remove(at)
            }

            #[inline]
            pub fn clear(&mut self) {
                self.0.clear();
            }

            pub fn truncate(&mut self, count: usize) {
                self.0.truncate(count);
            }

            pub fn split_off(&mut self, at: usize) -> Result<Vec<T>, AllocError> {
                Ok(Vec(self.0.split_off(at)))
            }

            pub fn append(&mut self, other: &mut Vec<T>) -> Result<(), AllocError> {
                self.0.append(&mut other.0);
                Ok(())
            }

            pub fn reserve(&mut self, more: usize) -> Result<(), AllocError> {
                room(self, more, false)
            }

            pub fn try_reserve(&mut self, more: usize) -> Result<(), AllocError> {
                room(self, more, false)
            }

            pub fn reserve_exact(&mut self, more: usize) -> Result<(), AllocError> {
                room(self, more, true)
            }

            pub fn shrink_to_fit(&mut self) {
                self.0.shrink_to_fit();
            }

            pub fn drain<R: ::std::ops::RangeBounds<usize>>(
                &mut self,
                range: R,
            ) -> real::Drain<'_, T> {
                self.0.drain(range)
            }

            pub fn retain<F: FnMut(&T) -> bool>(&mut self, f: F) {
                self.0.retain(f);
            }

            pub fn sort(&mut self) -> Result<(), AllocError>
            where
                T: Ord,
            {
                Ok(self.0.sort())
            }

            pub fn sort_by<F: FnMut(&T, &T) -> Ordering>(
                &mut self,
                f: F,
            ) -> Result<(), AllocError> {
                Ok(self.0.sort_by(f))
            }

            pub fn sort_by_key<K: Ord, F: FnMut(&T) -> K>(
                &mut self,
                f: F,
            ) -> Result<(), AllocError> {
                Ok(self.0.sort_by_key(f))
            }
        }

        impl<T: Clone> Vec<T> {
            pub fn from_slice(_: Global, items: &[T]) -> Result<Self, AllocError> {
                Ok(Vec(items.to_vec()))
            }

            pub fn from_clones(_: Global, items: &[T]) -> Result<Self, AllocError> {
                Ok(Vec(items.to_vec()))
            }

            pub fn from_elem(_: Global, item: T, count: usize) -> Result<Self, AllocError> {
                Ok(Vec(real::from_elem(item, count)))
            }

            #[inline]
            pub fn extend_from_slice(&mut self, items: &[T]) -> Result<(), AllocError> {
                self.0.extend_from_slice(items);
                Ok(())
            }

            pub fn resize(&mut self, count: usize, item: T) -> Result<(), AllocError> {
                self.0.resize(count, item);
                Ok(())
            }
        }
    }

    pub mod collections {
        pub use ::std::collections::*;

        use super::alloc::{AllocFailed, Global};
        use ::std::collections as real;
        use ::std::hash::Hash;
        use ::std::ops::{Deref, DerefMut};

        #[derive(Debug)]
        pub struct VecDeque<T>(real::VecDeque<T>);

        impl<T> Deref for VecDeque<T> {
            type Target = real::VecDeque<T>;
            #[inline]
            fn deref(&self) -> &Self::Target {
                &self.0
            }
        }

        impl<T> DerefMut for VecDeque<T> {
            #[inline]
            fn deref_mut(&mut self) -> &mut Self::Target {
                &mut self.0
            }
        }

        impl<T> VecDeque<T> {
            pub fn new(_: Global) -> Self {
                VecDeque(real::VecDeque::new())
            }

            #[inline]
            pub fn push_back(&mut self, item: T) -> Result<(), AllocFailed<T>> {
                self.0.push_back(item);
                Ok(())
            }

            #[inline]
            pub fn push_front(&mut self, item: T) -> Result<(), AllocFailed<T>> {
                self.0.push_front(item);
                Ok(())
            }
        }

        pub struct HashMap<K, V>(real::HashMap<K, V>);

        impl<K: Eq + Hash, V> HashMap<K, V> {
            pub fn new(_: Global) -> Self {
                HashMap(real::HashMap::new())
            }

            pub fn get(&self, key: &K) -> Option<&V> {
                self.0.get(key)
            }

            pub fn contains_key(&self, key: &K) -> bool {
                self.0.contains_key(key)
            }

            pub fn insert(&mut self, key: K, value: V) -> Result<Option<V>, AllocFailed<V>> {
                Ok(self.0.insert(key, value))
            }
        }
    }
}

/// The handle for threads, of which there is one.
pub struct Runtime;

pub mod thiserror {
    pub trait Error {}
}

pub mod itoa {
    pub struct Buffer(String);

    impl Buffer {
        pub fn new() -> Self {
            Buffer(String::new())
        }

        pub fn format(&mut self, number: u64) -> &str {
            self.0 = number.to_string();
            &self.0
        }
    }
}

pub mod rayon {
    use super::std::thread::Threads;

    pub use super::std::thread::join_mut;

    pub fn current_num_threads(_: &impl Threads) -> usize {
        1
    }

    pub mod prelude {
        use super::super::std::alloc::{AllocError, Global};
        use super::super::std::thread::Threads;
        use super::super::std::vec::Vec;
        use ::std::cmp::Ordering;

        /// What rayon deals to threads, here one after the other.
        pub struct InTurn<I>(I);

        impl<I: Iterator> InTurn<I> {
            pub fn with_min_len(self, _: usize) -> Self {
                self
            }

            pub fn with_max_len(self, _: usize) -> Self {
                self
            }

            pub fn map<R, F: FnMut(I::Item) -> R>(self, f: F) -> InTurn<::std::iter::Map<I, F>> {
                InTurn(self.0.map(f))
            }

            pub fn filter<F: FnMut(&I::Item) -> bool>(
                self,
                f: F,
            ) -> InTurn<::std::iter::Filter<I, F>> {
                InTurn(self.0.filter(f))
            }

            pub fn min_by_key<K: Ord, F: FnMut(&I::Item) -> K>(
                self,
                _: &impl Threads,
                f: F,
            ) -> Option<I::Item> {
                self.0.min_by_key(f)
            }

            pub fn max_by_key<K: Ord, F: FnMut(&I::Item) -> K>(
                self,
                _: &impl Threads,
                f: F,
            ) -> Option<I::Item> {
                self.0.max_by_key(f)
            }

            pub fn min_by<F: FnMut(&I::Item, &I::Item) -> Ordering>(
                self,
                _: &impl Threads,
                f: F,
            ) -> Option<I::Item> {
                self.0.min_by(f)
            }

            pub fn max_by<F: FnMut(&I::Item, &I::Item) -> Ordering>(
                self,
                _: &impl Threads,
                f: F,
            ) -> Option<I::Item> {
                self.0.max_by(f)
            }

            pub fn all<F: FnMut(I::Item) -> bool>(mut self, _: &impl Threads, f: F) -> bool {
                self.0.all(f)
            }

            pub fn any<F: FnMut(I::Item) -> bool>(mut self, _: &impl Threads, f: F) -> bool {
                self.0.any(f)
            }

            pub fn sum<S: ::std::iter::Sum<I::Item>>(self, _: &impl Threads) -> S {
                self.0.sum()
            }

            pub fn collect<C: Gathered<I::Item>>(
                self,
                _: &impl Threads,
                _: Global,
            ) -> Result<C, AllocError> {
                Ok(C::gathered(self.0))
            }
        }

        pub trait Gathered<T> {
            fn gathered<I: Iterator<Item = T>>(items: I) -> Self;
        }

        impl<T> Gathered<T> for Vec<T> {
            fn gathered<I: Iterator<Item = T>>(items: I) -> Self {
                Vec(items.collect())
            }
        }

        pub trait ParallelSlice<T> {
            fn par_iter(&self) -> InTurn<::std::slice::Iter<'_, T>>;
            fn par_chunks(&self, length: usize) -> InTurn<::std::slice::Chunks<'_, T>>;
        }

        impl<T> ParallelSlice<T> for [T] {
            fn par_iter(&self) -> InTurn<::std::slice::Iter<'_, T>> {
                InTurn(self.iter())
            }

            fn par_chunks(&self, length: usize) -> InTurn<::std::slice::Chunks<'_, T>> {
                InTurn(self.chunks(length))
            }
        }

        pub trait IntoParallelIterator: IntoIterator + Sized {
            fn into_par_iter(self) -> InTurn<Self::IntoIter> {
                InTurn(self.into_iter())
            }
        }

        impl<I: IntoIterator> IntoParallelIterator for I {}
    }
}

pub mod crossbeam_utils {
    pub struct Backoff;

    impl Backoff {
        pub fn new() -> Self {
            Backoff
        }

        pub fn spin(&self) {}

        pub fn reset(&self) {}
    }
}

pub mod crossbeam_deque {
    use super::std::alloc::{AllocError, Global};
    use std::cell::RefCell;
    use std::collections::VecDeque;
    use std::marker::PhantomData;
    use std::rc::Rc;

    pub mod protocol {
        pub trait Join<V> {}
        pub trait Split<V> {}
        pub trait Lesson<T, V> {}
        pub trait Outcome<T, V> {}
        pub trait Protocol<T, V> {}
    }

    pub struct Pass<T, V>(PhantomData<(T, V)>);

    pub struct Worker<T, A, V, P>(Rc<RefCell<VecDeque<T>>>, PhantomData<(A, V, P)>);

    pub struct Stealer<T, A, V, P>(Rc<RefCell<VecDeque<T>>>, PhantomData<(A, V, P)>);

    pub enum Steal<T> {
        Success(T),
        Empty,
        Retry,
    }

    impl<T, A, V, P> Worker<T, A, V, P> {
        pub fn lifo_as(_: A, _: usize) -> Result<Self, AllocError> {
            Ok(Worker(Rc::default(), PhantomData))
        }

        pub fn stealer(&self) -> Result<Stealer<T, A, V, P>, AllocError> {
            Ok(Stealer(self.0.clone(), PhantomData))
        }

        pub fn another<S>(&mut self) -> Pass<T, V> {
            Pass(PhantomData)
        }

        pub fn absorb<S>(&mut self, _: Pass<T, V>) {}

        pub fn push_as<O>(&mut self, task: T) -> Result<(), T> {
            self.0.borrow_mut().push_back(task);
            Ok(())
        }

        pub fn pop_as<O>(&mut self) -> Option<T> {
            self.0.borrow_mut().pop_back()
        }

        pub fn len_as<O>(&mut self) -> usize {
            self.0.borrow().len()
        }
    }

    impl<T, A, V, P> Stealer<T, A, V, P> {
        pub fn steal_as<O>(&self, _: &mut Pass<T, V>) -> Steal<T> {
            match self.0.borrow_mut().pop_front() {
                Some(task) => Steal::Success(task),
                None => Steal::Empty,
            }
        }
    }
}

pub mod atomic_table {
    use super::std::alloc::AllocError;
    use std::cell::RefCell;
    use std::marker::PhantomData;
    use std::sync::atomic::{AtomicU64, Ordering};

    /// How often a word was read: a worker does so once for each subtree that it works.
    pub static READS: AtomicU64 = AtomicU64::new(0);

    pub trait Join<V> {}
    pub trait Split<V> {}
    pub trait Play<T, V> {}
    pub trait TableRule<T, V, F> {}

    pub struct Seat<T, V>(PhantomData<(T, V)>);

    pub struct Shared<T, V> {
        words: RefCell<Vec<u64>>,
        of: PhantomData<(T, V)>,
    }

    pub struct Table<T, V, F, L, A> {
        pub shared: Shared<T, V>,
        of: PhantomData<(F, L, A)>,
    }

    pub struct Closed(Vec<u64>);

    impl<T, V, F, L, A> Table<T, V, F, L, A> {
        pub fn of_words(_: A, words: &[u64], _: &F) -> Result<(Self, Seat<T, V>), AllocError> {
            let words = RefCell::new(words.to_vec());
            let shared = Shared {
                words,
                of: PhantomData,
            };
            Ok((
                Table {
                    shared,
                    of: PhantomData,
                },
                Seat(PhantomData),
            ))
        }

        pub fn close_with(self, _: Seat<T, V>) -> Closed {
            Closed(self.shared.words.into_inner())
        }
    }

    impl<T, V> Shared<T, V> {
        pub fn load<P>(&self, _: &mut Seat<T, V>, at: usize) -> u64 {
            READS.fetch_add(1, Ordering::Relaxed);
            self.words.borrow()[at]
        }

        pub fn fetch_min<P>(&self, _: &mut Seat<T, V>, at: usize, value: u64) -> u64 {
            let word = &mut self.words.borrow_mut()[at];
            let before = *word;
            *word = before.min(value);
            before
        }

        pub fn split_seat<P>(&self, _: &mut Seat<T, V>) -> Seat<T, V> {
            Seat(PhantomData)
        }

        pub fn join_seat<P>(&self, _: &mut Seat<T, V>, _: Seat<T, V>) {}
    }

    impl Closed {
        pub fn word(&self, at: usize) -> u64 {
            self.0[at]
        }

        pub fn free(self) {}
    }
}
