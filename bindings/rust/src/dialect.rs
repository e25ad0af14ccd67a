use crate::header;

/// How substitutions without braces are read.
#[derive(Clone, Copy, Debug, PartialEq, Eq)]
pub enum Dialect {
    /// As dotenvy 0.15: a name ends before `_`, and can't be right before a closing double quote.
    V15,
    /// A name may have `_`, and in double quotes it may be right before the closing quote.
    Next,
}

impl Dialect {
    pub(crate) fn option(self) -> u32 {
        match self {
            Dialect::V15 => 0,
            Dialect::Next => header::NEXT_DIALECT,
        }
    }
}

// An attribute would do from Rust 1.62 on.
#[allow(clippy::derivable_impls)]
impl Default for Dialect {
    fn default() -> Dialect {
        Dialect::V15
    }
}
