//! The iterators over byte strings that are made of equal parts: one macro for all of them.

/// Makes an iterator type that reads one item from each part. The item has a
/// constant `SIZE` and a function `read` from that many bytes.
macro_rules! parts {
    ($(#[$doc:meta])* $name:ident of $item:ident) => {
        $(#[$doc])*
        #[derive(Clone)]
        pub struct $name<'a>(core::slice::Iter<'a, [u8; $item::SIZE]>);

        impl<'a> $name<'a> {
            /// Over the whole parts of the bytes.
            pub(crate) fn of(bytes: &'a [u8]) -> $name<'a> {
                $name(bytes.as_chunks().0.iter())
            }
        }

        impl Iterator for $name<'_> {
            type Item = $item;

            fn next(&mut self) -> Option<$item> {
                self.0.next().map($item::read)
            }

            fn nth(&mut self, n: usize) -> Option<$item> {
                self.0.nth(n).map($item::read)
            }

            fn size_hint(&self) -> (usize, Option<usize>) {
                self.0.size_hint()
            }
        }

        impl DoubleEndedIterator for $name<'_> {
            fn next_back(&mut self) -> Option<$item> {
                self.0.next_back().map($item::read)
            }
        }

        impl ExactSizeIterator for $name<'_> {}

        impl core::iter::FusedIterator for $name<'_> {}

        impl core::fmt::Debug for $name<'_> {
            fn fmt(&self, f: &mut core::fmt::Formatter<'_>) -> core::fmt::Result {
                f.debug_list().entries(self.clone()).finish()
            }
        }
    };
}

pub(crate) use parts;
