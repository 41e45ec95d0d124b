use std::fmt;

/// A layout: the scheme and its two numbers.
///
/// Any three numbers can be put together. The calls refuse those that are not allowed, with
/// [`Refusal::BadScheme`](crate::Refusal::BadScheme), [`BadN`](crate::Refusal::BadN) or
/// [`BadF`](crate::Refusal::BadF).
///
/// ```
/// use daybook::Layout;
///
/// assert_eq!(Layout::tile(16, 2), Layout { scheme: 2, n: 16, f: 2 });
/// assert_eq!(Layout::tree(4), Layout { scheme: Layout::TREE, n: 4, f: 1 });
/// ```
#[derive(Clone, Copy, Debug, PartialEq, Eq, Hash)]
pub struct Layout {
    /// 1 black, 2 tile, 3 tree.
    pub scheme: u32,
    /// Days in a notarisation interval: a power of two from 1 to 256.
    pub n: u32,
    /// Intervals per validation: 1 to 64, and 1 under scheme 3.
    pub f: u32,
}

impl Layout {
    /// Scheme 1: every N days one value over all days so far.
    pub const BLACK: u32 = 1;
    /// Scheme 2: every N days the chains of the tile, then black.
    pub const TILE: u32 = 2;
    /// Scheme 3: every day the chains of the tree that end there, every N days also black.
    pub const TREE: u32 = 3;

    /// Scheme 1 with this N and F.
    #[must_use]
    pub const fn black(n: u32, f: u32) -> Layout {
        Layout {
            scheme: Layout::BLACK,
            n,
            f,
        }
    }

    /// Scheme 2 with this N and F.
    #[must_use]
    pub const fn tile(n: u32, f: u32) -> Layout {
        Layout {
            scheme: Layout::TILE,
            n,
            f,
        }
    }

    /// Scheme 3 with this N; F is 1.
    #[must_use]
    pub const fn tree(n: u32) -> Layout {
        Layout {
            scheme: Layout::TREE,
            n,
            f: 1,
        }
    }

    pub(crate) fn setting(self) -> crate::ffi::Setting {
        (self.scheme, self.n, self.f)
    }
}

impl fmt::Display for Layout {
    fn fmt(&self, out: &mut fmt::Formatter<'_>) -> fmt::Result {
        write!(out, "scheme {}, N {}, F {}", self.scheme, self.n, self.f)
    }
}
