//! Operation codes, and the operand counts that each asks for.

macro_rules! codes {
    ($($name:ident)*) => {
        /// The known operation codes, named as in the source and numbered from 0 in the order in which its
        /// `operation_causes_ptr_escape` names them.
        #[allow(missing_docs)]
        #[derive(Clone, Copy, Debug, PartialEq, Eq, Hash)]
        #[repr(u32)]
        pub enum Code { $($name),* }

        impl Code {
            /// Every code, at its own number.
            pub const ALL: [Code; 93] = [$(Code::$name),*];

            /// The logs, by the number of their topics.
            pub const LOGS: [Code; 5] = [Code::Log0, Code::Log1, Code::Log2, Code::Log3, Code::Log4];
        }
    };
}

codes! {
    Keccak256 Balance CallDataLoad CallDataCopy CodeCopy ExtCodeSize ExtCodeCopy ReturnDataCopy ExtCodeHash BlockHash
    BlobHash SLoad SStore TLoad TStore Create Create2 Call CallCode DelegateCall StaticCall DynamicAllocZeroed
    DynamicAllocAnyBytes MemoryCopy MemoryStore InternalCall InternalCallNever
    Add Mul Sub Div SDiv Mod SMod AddMod MulMod Exp SignExtend Lt Gt SLt SGt Eq IsZero And Or Xor Not Byte Shl Shr Sar
    Clz Address Origin Caller CallValue CallDataSize CodeSize GasPrice ReturnDataSize Gas Coinbase Timestamp Number
    Difficulty GasLimit ChainId SelfBalance BaseFee BlobBaseFee Log0 Log1 Log2 Log3 Log4 Return Stop Revert Invalid
    SelfDestruct AcquireFreePointer StaticAllocZeroed StaticAllocAnyBytes MemoryLoad SetCopy SetSmallConst SetLargeConst
    SetDataOffset Noop RuntimeStartOffset InitEndOffset RuntimeLength
}

impl From<Code> for u32 {
    fn from(code: Code) -> u32 {
        code as u32
    }
}

/// How many operands a code takes on one side.
#[derive(Clone, Copy, Debug, PartialEq, Eq)]
pub enum Count {
    /// Just so many.
    Exactly(u32),
    /// Any number.
    Any,
}

impl Code {
    /// The operand counts that the code asks for: inputs, outputs.
    pub const fn operand_counts(self) -> (Count, Count) {
        use Count::{Any, Exactly};
        let (inputs, outputs) = match self as u32 {
            0 | 27..=33 | 36..=42 | 44..=46 | 48..=51 => (2, 1),
            1 | 2 | 5 | 8..=11 | 13 | 21 | 22 | 43 | 47 | 52 | 84 | 85 => (1, 1),
            15 | 34 | 35 => (3, 1),
            16 => (4, 1),
            17 | 18 => (7, 1),
            19 | 20 => (6, 1),
            3 | 4 | 7 | 23 => (3, 0),
            6 => (4, 0),
            12 | 14 | 24 | 76 | 78 => (2, 0),
            log @ 71..=75 => (2 + (log - 71), 0),
            80 => (1, 0),
            77 | 79 | 89 => (0, 0),
            25 => return (Any, Any),
            26 => return (Any, Exactly(0)),
            // 53–70, 81–83, 86–88, 90–92
            _ => (0, 1),
        };
        (Exactly(inputs), Exactly(outputs))
    }
}

#[cfg(test)]
mod tests {
    use super::*;

    #[test]
    fn codes_are_numbered_as_in_the_paper() {
        let named = [
            (Code::Keccak256, 0),
            (Code::Create, 15),
            (Code::InternalCall, 25),
            (Code::Add, 27),
            (Code::Lt, 38),
            (Code::And, 44),
            (Code::Clz, 52),
            (Code::Log0, 71),
            (Code::StaticAllocZeroed, 82),
            (Code::SetCopy, 85),
            (Code::RuntimeLength, 92),
        ];
        for (code, number) in named {
            assert_eq!(u32::from(code), number);
        }
        for (number, code) in Code::ALL.into_iter().enumerate() {
            assert_eq!(code as usize, number);
        }
    }

    #[test]
    fn operand_counts_by_name() {
        use Count::{Any, Exactly};
        let counts = [
            (Code::SetSmallConst, Exactly(0), Exactly(1)),
            (Code::Stop, Exactly(0), Exactly(0)),
            (Code::MemoryStore, Exactly(2), Exactly(0)),
            (Code::MemoryLoad, Exactly(1), Exactly(1)),
            (Code::AddMod, Exactly(3), Exactly(1)),
            (Code::Create2, Exactly(4), Exactly(1)),
            (Code::Call, Exactly(7), Exactly(1)),
            (Code::StaticCall, Exactly(6), Exactly(1)),
            (Code::MemoryCopy, Exactly(3), Exactly(0)),
            (Code::ExtCodeCopy, Exactly(4), Exactly(0)),
            (Code::Log0, Exactly(2), Exactly(0)),
            (Code::Log4, Exactly(6), Exactly(0)),
            (Code::SelfDestruct, Exactly(1), Exactly(0)),
            (Code::InternalCall, Any, Any),
            (Code::InternalCallNever, Any, Exactly(0)),
        ];
        for (code, inputs, outputs) in counts {
            assert_eq!(code.operand_counts(), (inputs, outputs), "{code:?}");
        }
    }

    /// The last arm of the match is the paper's 0→1 list, no more and no less.
    #[test]
    fn codes_from_nothing_to_one() {
        let listed = (53..=70).chain(81..=83).chain(86..=88).chain(90..=92);
        let found =
            Code::ALL.into_iter().filter(|code| code.operand_counts() == (Count::Exactly(0), Count::Exactly(1)));
        assert!(found.map(u32::from).eq(listed));
    }
}
