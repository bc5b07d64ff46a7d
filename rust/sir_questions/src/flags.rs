//! What marked an allocation, by the paper's flags.

use std::fmt::{self, Display, Formatter};

/// What marked an allocation: flags added up, one for each [`MarkCause`] that applies; 0 where the allocation is not marked.
///
/// The word is kept as it is answered, so that a flag which is not among the causes is not lost.
#[derive(Clone, Copy, Debug, PartialEq, Eq, Hash, Default)]
pub struct Flags(pub u32);

impl Flags {
    /// Whether the flag of a cause is set.
    pub const fn has(self, cause: MarkCause) -> bool {
        self.0 & cause.flag() != 0
    }

    /// The causes whose flags are set, by their flags.
    pub fn causes(self) -> impl Iterator<Item = MarkCause> {
        MarkCause::ALL.iter().copied().filter(move |&cause| self.has(cause))
    }
}

macro_rules! causes {
    ($($(#[$doc:meta])* $flag:literal $cause:ident $name:ident $text:literal;)*) => {
        /// A cause for which an allocation is marked.
        #[derive(Clone, Copy, Debug, PartialEq, Eq, Hash, PartialOrd, Ord)]
        pub enum MarkCause {
            $($(#[$doc])* $cause,)*
        }

        impl MarkCause {
            /// Every cause, by its flag.
            pub const ALL: &[MarkCause] = &[$(MarkCause::$cause),*];

            /// Its flag.
            pub const fn flag(self) -> u32 {
                match self {
                    $(MarkCause::$cause => $flag,)*
                }
            }

            /// Its name in the C header, after `SIR_MARKED_BY_`.
            pub const fn name(self) -> &'static str {
                match self {
                    $(MarkCause::$cause => stringify!($name),)*
                }
            }

            /// What it is, in words.
            pub const fn text(self) -> &'static str {
                match self {
                    $(MarkCause::$cause => $text,)*
                }
            }
        }
    };
}

// `include/sir_analyses.h` has the same names and texts in the same sequence; a test holds it to this table.
causes! {
    /// A local at which the allocation was first is in an escaping operand, as a pointer that is stored or is a log's topic.
    1 EscapingOperand ESCAPING_OPERAND "an escaping operand";
    /// A local at which the allocation was first is an output of a block that ends in `InternalReturn`.
    2 Return RETURN "a return";
    /// A local that a pointer of the allocation may come to is one that a pointer of another allocation may come to as well.
    /// The other one has this flag too.
    4 Meeting MEETING "a meeting";
}

impl Display for MarkCause {
    fn fmt(&self, f: &mut Formatter<'_>) -> fmt::Result {
        f.write_str(self.text())
    }
}

#[cfg(test)]
mod tests {
    use super::*;

    /// Every sum of flags has its causes, in their sequence.
    #[test]
    fn every_sum() {
        use MarkCause::{EscapingOperand, Meeting, Return};
        let sums: [&[MarkCause]; 8] = [
            &[],
            &[EscapingOperand],
            &[Return],
            &[EscapingOperand, Return],
            &[Meeting],
            &[EscapingOperand, Meeting],
            &[Return, Meeting],
            &[EscapingOperand, Return, Meeting],
        ];
        for (word, causes) in sums.iter().enumerate() {
            assert_eq!(Flags(word as u32).causes().collect::<Vec<_>>(), *causes);
            assert_eq!(causes.iter().map(|cause| cause.flag()).sum::<u32>(), word as u32);
        }
    }

    /// A flag that is no cause's is kept.
    #[test]
    fn unknown_flags() {
        assert_eq!((Flags(8).causes().count(), Flags(8).0, Flags(12).has(MarkCause::Meeting)), (0, 8, true));
        assert_ne!(Flags(9), Flags(1));
    }

    #[test]
    fn texts() {
        let texts: Vec<String> = Flags(7).causes().map(|cause| cause.to_string()).collect();
        assert_eq!(texts, ["an escaping operand", "a return", "a meeting"]);
    }
}
