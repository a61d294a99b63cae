//! The opcodes: the order of `Op` in 000 gives each its number.

/// The one table of opcodes: each at the index that is its number, with its
/// name in a listing.
macro_rules! opcodes {
    ($($op:ident $name:literal,)*) => {
        #[derive(Debug, Clone, Copy, PartialEq, Eq)]
        #[repr(u8)]
        pub enum Op {
            $($op,)*
        }

        /// All opcodes, each at the index that is its number.
        pub const OPS: [Op; 38] = [$(Op::$op,)*];

        impl Op {
            #[allow(clippy::inherent_to_string)]
            pub fn to_string(self) -> &'static str {
                match self {
                    $(Op::$op => $name,)*
                }
            }
        }
    };
}

opcodes! {
    LoadConstant "LoadConstant",
    ApplyPrefix "ApplyPrefix",
    SetUnitConstant "SetUnitConstant",
    GetLocal "GetLocal",
    GetUpvalue "GetUpvalue",
    GetLastResult "GetLastResult",
    Negate "Negate",
    Factorial "Factorial",
    Add "Add",
    Subtract "Subtract",
    Multiply "Multiply",
    Divide "Divide",
    Power "Power",
    ConvertTo "ConvertTo",
    LessThan "LessThan",
    GreaterThan "GreaterThan",
    LessOrEqual "LessOrEqual",
    GreatorOrEqual "GreatorOrEqual",
    Equal "Equal",
    NotEqual "NotEqual",
    LogicalAnd "LogicalAnd",
    LogicalOr "LogicalOr",
    LogicalNeg "LogicalNeg",
    AddToDateTime "AddDateTime",
    SubFromDateTime "SubDateTime",
    DiffDateTime "DiffDateTime",
    JumpIfFalse "JumpIfFalse",
    Jump "Jump",
    Call "Call",
    FFICallFunction "FFICallFunction",
    FFICallProcedure "FFICallProcedure",
    CallCallable "CallCallable",
    PrintString "PrintString",
    JoinString "JoinString",
    BuildStructInstance "BuildStructInstance",
    AccessStructField "AccessStructField",
    BuildList "BuildList",
    Return "Return",
}

impl Op {
    /// The opcode of a byte; none for 38 and above. 000 casts the byte
    /// without looking, which is undefined for those.
    pub fn from_byte(byte: u8) -> Option<Op> {
        OPS.get(byte as usize).copied()
    }

    /// The operand counts of 000, by which its listing goes. They differ from
    /// what the machine reads for CallCallable (two), Factorial (one) and
    /// FFICallFunction (three).
    pub fn num_operands(self) -> usize {
        match self {
            Op::FFICallProcedure => 3,
            Op::SetUnitConstant | Op::Call | Op::FFICallFunction | Op::BuildStructInstance => 2,
            Op::LoadConstant
            | Op::ApplyPrefix
            | Op::GetLocal
            | Op::GetUpvalue
            | Op::PrintString
            | Op::JoinString
            | Op::JumpIfFalse
            | Op::Jump
            | Op::CallCallable
            | Op::AccessStructField
            | Op::BuildList => 1,
            _ => 0,
        }
    }

    /// How many operands the running machine reads, and document 01's listing
    /// shows.
    pub fn operands_read(self) -> usize {
        match self {
            Op::CallCallable => 2,
            Op::Factorial => 1,
            Op::FFICallFunction => 3,
            other => other.num_operands(),
        }
    }

    /// The 26 opcodes that document 01 carries: all but these, which are known
    /// and not carried.
    pub const fn is_carried(self) -> bool {
        !matches!(
            self,
            Op::ApplyPrefix
                | Op::SetUnitConstant
                | Op::Factorial
                | Op::Power
                | Op::ConvertTo
                | Op::AddToDateTime
                | Op::SubFromDateTime
                | Op::DiffDateTime
                | Op::FFICallFunction
                | Op::FFICallProcedure
                | Op::PrintString
                | Op::JoinString
        )
    }
}

#[cfg(test)]
mod tests {
    use super::*;

    #[test]
    fn numbers_follow_the_order_of_op() {
        for (number, op) in OPS.iter().enumerate() {
            assert_eq!(*op as usize, number);
            assert_eq!(Op::from_byte(number as u8), Some(*op));
        }
        assert_eq!(Op::from_byte(38), None);
        assert_eq!(Op::from_byte(255), None);
    }

    #[test]
    fn the_carried_numbers_are_those_of_document_01() {
        let carried: Vec<usize> = (0..38).filter(|n| OPS[*n].is_carried()).collect();
        assert_eq!(
            carried,
            [
                0, 3, 4, 5, 6, 8, 9, 10, 11, 14, 15, 16, 17, 18, 19, 20, 21, 22, 26, 27, 28, 31,
                34, 35, 36, 37
            ]
        );
        assert_eq!(carried.len(), 26);
    }

    #[test]
    fn the_counts_of_000_are_wrong_for_three_opcodes() {
        let disagree: Vec<Op> = OPS
            .iter()
            .copied()
            .filter(|op| op.num_operands() != op.operands_read())
            .collect();
        assert_eq!(
            disagree,
            [Op::Factorial, Op::FFICallFunction, Op::CallCallable]
        );
    }
}
