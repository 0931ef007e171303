//! What alloc's tests ask of their helpers: values that count what is done to them and may panic, orders that are none, and numbers that
//! are drawn.

pub(crate) mod crash_test {
    use std::cmp::Ordering;
    use std::sync::atomic::{AtomicUsize, Ordering::SeqCst};

    /// When a value panics.
    #[derive(Clone, Copy, Debug, PartialEq)]
    pub(crate) enum Panic {
        Never,
        InClone,
        InDrop,
        InQuery,
    }

    /// Counts what is done to its values, which are ordered by its number.
    #[derive(Debug)]
    pub(crate) struct CrashTestDummy {
        pub(crate) id: usize,
        clones: AtomicUsize,
        drops: AtomicUsize,
        queries: AtomicUsize,
    }

    impl CrashTestDummy {
        pub(crate) fn new(id: usize) -> CrashTestDummy {
            CrashTestDummy { id, clones: 0.into(), drops: 0.into(), queries: 0.into() }
        }

        pub(crate) fn spawn(&self, when: Panic) -> Value<'_> {
            Value { of: self, when }
        }

        pub(crate) fn cloned(&self) -> usize {
            self.clones.load(SeqCst)
        }

        pub(crate) fn dropped(&self) -> usize {
            self.drops.load(SeqCst)
        }

        pub(crate) fn queried(&self) -> usize {
            self.queries.load(SeqCst)
        }
    }

    #[derive(Debug)]
    pub(crate) struct Value<'a> {
        of: &'a CrashTestDummy,
        when: Panic,
    }

    impl Value<'_> {
        pub(crate) fn id(&self) -> usize {
            self.of.id
        }

        pub(crate) fn query<R>(&self, answer: R) -> R {
            self.count(&self.of.queries, Panic::InQuery);
            answer
        }

        fn count(&self, counter: &AtomicUsize, what: Panic) {
            counter.fetch_add(1, SeqCst);
            if self.when == what {
                panic!("{what:?}");
            }
        }
    }

    impl Clone for Value<'_> {
        fn clone(&self) -> Self {
            self.count(&self.of.clones, Panic::InClone);
            Value { of: self.of, when: Panic::Never }
        }
    }

    impl Drop for Value<'_> {
        fn drop(&mut self) {
            self.count(&self.of.drops, Panic::InDrop);
        }
    }

    impl Ord for Value<'_> {
        fn cmp(&self, other: &Self) -> Ordering {
            self.id().cmp(&other.id())
        }
    }

    impl PartialOrd for Value<'_> {
        fn partial_cmp(&self, other: &Self) -> Option<Ordering> {
            Some(self.cmp(other))
        }
    }

    impl PartialEq for Value<'_> {
        fn eq(&self, other: &Self) -> bool {
            self.id() == other.id()
        }
    }

    impl Eq for Value<'_> {}
}

pub(crate) mod ord_chaos {
    use std::cell::Cell;
    use std::cmp::Ordering;

    /// Each is less than the next, and the last is less than the first.
    #[derive(Clone, Copy, Debug, Eq, PartialEq)]
    pub(crate) enum Cyclic3 {
        A,
        B,
        C,
    }

    impl Ord for Cyclic3 {
        fn cmp(&self, other: &Self) -> Ordering {
            match (3 + *other as u8 - *self as u8) % 3 {
                0 => Ordering::Equal,
                1 => Ordering::Less,
                _ => Ordering::Greater,
            }
        }
    }

    impl PartialOrd for Cyclic3 {
        fn partial_cmp(&self, other: &Self) -> Option<Ordering> {
            Some(self.cmp(other))
        }
    }

    /// Turns the order of its values round.
    #[derive(Debug)]
    pub(crate) struct Governor(Cell<bool>);

    impl Governor {
        pub(crate) fn new() -> Governor {
            Governor(Cell::new(false))
        }

        pub(crate) fn flip(&self) {
            self.0.set(!self.0.get());
        }
    }

    #[derive(Debug)]
    pub(crate) struct Governed<'a, T>(pub(crate) T, pub(crate) &'a Governor);

    impl<T: Ord> Ord for Governed<'_, T> {
        fn cmp(&self, other: &Self) -> Ordering {
            let order = self.0.cmp(&other.0);
            if self.1.0.get() { order.reverse() } else { order }
        }
    }

    impl<T: Ord> PartialOrd for Governed<'_, T> {
        fn partial_cmp(&self, other: &Self) -> Option<Ordering> {
            Some(self.cmp(other))
        }
    }

    impl<T: PartialEq> PartialEq for Governed<'_, T> {
        fn eq(&self, other: &Self) -> bool {
            self.0 == other.0
        }
    }

    impl<T: Eq> Eq for Governed<'_, T> {}

    /// Ordered by its number alone.
    #[derive(Debug)]
    pub(crate) struct IdBased {
        pub(crate) id: u32,
        #[allow(dead_code)]
        pub(crate) name: std::string::String,
    }

    impl Ord for IdBased {
        fn cmp(&self, other: &Self) -> Ordering {
            self.id.cmp(&other.id)
        }
    }

    impl PartialOrd for IdBased {
        fn partial_cmp(&self, other: &Self) -> Option<Ordering> {
            Some(self.cmp(other))
        }
    }

    impl PartialEq for IdBased {
        fn eq(&self, other: &Self) -> bool {
            self.id == other.id
        }
    }

    impl Eq for IdBased {}
}

pub(crate) mod rng {
    /// Numbers that all differ: multiples of an odd number.
    pub(crate) struct DeterministicRng(u32);

    impl DeterministicRng {
        pub(crate) fn new() -> DeterministicRng {
            DeterministicRng(0)
        }

        pub(crate) fn next(&mut self) -> u32 {
            self.0 = self.0.wrapping_add(0x9E37_79B9);
            self.0
        }
    }
}

pub(crate) mod macros {
    /// A structure that counts how often one of it is dropped, and what else it does then.
    macro_rules! struct_with_counted_drop {
        ($name:ident $(($($field:ty),+))?, $drops:ident $(=> $also:expr)?) => {
            ::std::thread_local! {
                static $drops: ::core::cell::Cell<u32> = const { ::core::cell::Cell::new(0) };
            }

            #[derive(Clone, Debug, PartialEq)]
            struct $name $(($($field),+))?;

            impl ::core::ops::Drop for $name {
                fn drop(&mut self) {
                    $drops.set($drops.get() + 1);
                    $($also(self);)?
                }
            }
        };
    }

    pub(crate) use struct_with_counted_drop;
}
