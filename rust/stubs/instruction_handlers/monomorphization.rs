//! Stub: picks a handler's parameters by the kind of its operand and by its switches.
//!
//! `monomorphize!(f [A B] match_boolean x match_reg_imm y)` is the `f::<A, B, C, D>` whose `C` is
//! the value of `x` and whose `D` is the kind of the operand `y`.

macro_rules! monomorphize {
    ($handler:ident [$($chosen:tt)*]) => {
        parameterize!($handler [$($chosen)*])
    };
    ($handler:ident [$($chosen:tt)*] $choice:ident $value:ident $($rest:tt)*) => {
        $choice!($handler [$($chosen)*] $value $($rest)*)
    };
}

macro_rules! parameterize {
    ($handler:ident [$($chosen:tt)*]) => {
        $handler::<$($chosen),*>
    };
}

macro_rules! match_boolean {
    ($handler:ident [$($chosen:tt)*] $value:ident $($rest:tt)*) => {
        if $value {
            monomorphize!($handler [$($chosen)* true] $($rest)*)
        } else {
            monomorphize!($handler [$($chosen)* false] $($rest)*)
        }
    };
}

macro_rules! match_reg_imm {
    ($handler:ident [$($chosen:tt)*] $value:ident $($rest:tt)*) => {
        match $value {
            RegisterOrImmediate::Register1(_) => {
                monomorphize!($handler [$($chosen)* Register1] $($rest)*)
            }
            RegisterOrImmediate::Immediate1(_) => {
                monomorphize!($handler [$($chosen)* Immediate1] $($rest)*)
            }
        }
    };
}

pub(crate) use {match_boolean, match_reg_imm, monomorphize, parameterize};
