//! Stand-ins for the files of numbat that the published ones name.

pub mod datetime {
    use crate::crates::jiff::Zoned;
    use crate::pretty_print::FormatOptions;

    pub fn to_string(date: &Zoned, _: &FormatOptions) -> String {
        date.to_string()
    }
}

/// Foreign functions: there are none.
pub mod ffi {
    use std::collections::{HashMap, VecDeque};
    use std::ops::ControlFlow;
    use std::sync::LazyLock;

    use crate::interpreter::RuntimeErrorKind;
    use crate::span::Span;
    use crate::typechecker::type_scheme::TypeScheme;
    use crate::value::Value;
    use crate::vm::{Constant, ExecutionContext};

    pub type ArityRange = std::ops::RangeInclusive<usize>;

    #[allow(dead_code)]
    pub struct Arg {
        pub value: Value,
        pub type_: TypeScheme,
        pub span: Span,
    }

    type Function =
        fn(&mut FfiContext, VecDeque<Arg>, &TypeScheme) -> Result<Value, Box<RuntimeErrorKind>>;
    type Procedure = fn(&mut ExecutionContext, VecDeque<Arg>) -> ControlFlow<RuntimeErrorKind>;

    #[allow(dead_code)]
    pub enum Callable {
        Function(Function),
        Procedure(Procedure),
    }

    pub struct ForeignFunction {
        pub arity: ArityRange,
        pub callable: Callable,
    }

    pub struct FfiContext;

    impl FfiContext {
        pub fn new(_: &ExecutionContext, _: &[Constant]) -> FfiContext {
            FfiContext
        }
    }

    pub enum ProcedureKind {}

    impl ProcedureKind {
        pub fn name(&self) -> &'static str {
            match *self {}
        }
    }

    pub fn procedures() -> &'static [(ProcedureKind, ForeignFunction)] {
        &[]
    }

    pub fn functions() -> &'static HashMap<&'static str, ForeignFunction> {
        static NONE: LazyLock<HashMap<&'static str, ForeignFunction>> = LazyLock::new(HashMap::new);
        &NONE
    }
}

pub mod interpreter {
    use crate::markup::Markup;
    use crate::quantity::QuantityError;
    use crate::span::Span;
    use crate::unit_registry::UnitRegistryError;
    use crate::value::Value;

    #[derive(Clone, Debug)]
    pub struct RuntimeError {
        pub kind: RuntimeErrorKind,
        pub backtrace: Vec<(String, Span)>,
    }

    #[derive(Clone, Debug, PartialEq)]
    pub enum RuntimeErrorKind {
        DivisionByZero,
        FactorialOfNegativeNumber,
        FactorialOfNonInteger,
        UnitRegistryError(UnitRegistryError),
        QuantityError(QuantityError),
        UnknownTimezone(String),
        DurationOutOfRange,
        DateTimeOutOfRange,
        InvalidFormatSpecifiers(String),
        InvalidTypeForFormatSpecifiers(String),
        EmptyList,
    }

    #[derive(Debug, PartialEq)]
    pub enum InterpreterResult {
        Value(Value),
        Continue,
    }

    pub type Result<T> = std::result::Result<T, Box<RuntimeError>>;
    pub type PrintFunction = dyn FnMut(&Markup) + Send;
}

/// What a value looks like to a person; nobody looks.
pub mod markup {
    #[derive(Clone)]
    pub struct Markup;

    pub fn empty() -> Markup {
        Markup
    }

    pub fn space() -> Markup {
        Markup
    }

    pub fn string(_: impl Into<String>) -> Markup {
        Markup
    }

    pub fn operator(_: &'static str) -> Markup {
        Markup
    }

    pub fn identifier(_: impl Into<String>) -> Markup {
        Markup
    }

    pub fn type_identifier(_: impl Into<String>) -> Markup {
        Markup
    }

    impl std::ops::Add for Markup {
        type Output = Markup;

        fn add(self, _: Markup) -> Markup {
            Markup
        }
    }

    impl std::iter::Sum for Markup {
        fn sum<I: Iterator<Item = Markup>>(_: I) -> Markup {
            Markup
        }
    }
}

pub mod math {
    /// Factorial is not run: see [`crate::vm::Outside::NotCarried`].
    pub fn factorial(_: f64, _: u16) -> f64 {
        unreachable!("the guard stops before a factorial")
    }
}

pub mod number {
    #[derive(Clone, Copy, Debug, PartialEq, PartialOrd)]
    pub struct Number(pub f64);

    impl Number {
        pub fn from_f64(number: f64) -> Number {
            Number(number)
        }

        pub fn to_f64(self) -> f64 {
            self.0
        }
    }
}

pub mod prefix {
    #[derive(Clone, Copy, PartialEq)]
    pub struct Prefix;
}

pub mod prefix_transformer {
    pub struct Transformer;

    impl Transformer {
        pub fn new() -> Transformer {
            Transformer
        }
    }
}

pub mod pretty_print {
    use crate::markup::Markup;

    #[derive(Default)]
    pub struct FormatOptions;

    pub trait PrettyPrint {
        fn pretty_print(&self) -> Markup;
    }

    impl PrettyPrint for bool {
        fn pretty_print(&self) -> Markup {
            Markup
        }
    }

    impl PrettyPrint for String {
        fn pretty_print(&self) -> Markup {
            Markup
        }
    }
}

/// A quantity is a number without a unit: each operation is the one of `f64`.
/// numbat's looks for zeros before it adds; that is left out, as document 01's
/// oracle is "000 over f64" (difference 1 in docs/DIFFERENCES.md).
pub mod quantity {
    use std::cmp::Ordering;

    use crate::markup::Markup;
    use crate::number::Number;
    use crate::pretty_print::FormatOptions;
    use crate::unit::Unit;
    use crate::unit_registry::UnitRegistry;

    #[derive(Clone, Debug, PartialEq)]
    pub enum QuantityError {
        IncompatibleUnits(Unit, Unit),
    }

    pub type Result<T> = std::result::Result<T, QuantityError>;

    #[derive(Clone, Debug, PartialEq)]
    pub struct Quantity {
        value: Number,
        unit: Unit,
    }

    #[allow(dead_code)]
    pub(crate) enum QuantityOrdering {
        IncompatibleUnits,
        NanOperand,
        Ok(Ordering),
    }

    impl Quantity {
        pub fn new(value: Number, unit: Unit) -> Quantity {
            Quantity { value, unit }
        }

        pub fn from_scalar(value: f64) -> Quantity {
            Quantity::new(Number(value), Unit)
        }

        pub fn from_unit(unit: Unit) -> Quantity {
            Quantity::new(Number(1.0), unit)
        }

        pub fn unit(&self) -> &Unit {
            &self.unit
        }

        pub fn unsafe_value(&self) -> &Number {
            &self.value
        }

        pub fn as_scalar(&self) -> Result<Number> {
            Ok(self.value)
        }

        pub fn to_base_unit_representation(&self) -> Quantity {
            self.clone()
        }

        pub fn convert_to(&self, _: &Unit) -> Result<Quantity> {
            Ok(self.clone())
        }

        pub fn no_simplify(self) -> Quantity {
            self
        }

        pub fn with_conversion_target(self, _: Quantity) -> Quantity {
            self
        }

        pub fn full_simplify_with_registry<F>(&self, _: &UnitRegistry, _: F) -> Quantity
        where
            F: Fn(&str) -> Option<Unit>,
        {
            self.clone()
        }

        pub fn checked_div(self, other: Quantity) -> Option<Quantity> {
            if other.value.0 == 0.0 {
                return None;
            }
            Some(Quantity::from_scalar(self.value.0 / other.value.0))
        }

        /// Power is not run: see [`crate::vm::Outside::NotCarried`].
        pub fn checked_power(self, _: Quantity) -> Result<Option<Quantity>> {
            unreachable!("the guard stops before a power")
        }

        pub(crate) fn partial_cmp_preserve_nan(&self, other: &Quantity) -> QuantityOrdering {
            match self.value.0.partial_cmp(&other.value.0) {
                None => QuantityOrdering::NanOperand,
                Some(ordering) => QuantityOrdering::Ok(ordering),
            }
        }

        pub(crate) fn pretty_print_with(&self, _: &FormatOptions) -> Markup {
            Markup
        }
    }

    impl std::ops::Add for &Quantity {
        type Output = Result<Quantity>;

        fn add(self, other: &Quantity) -> Result<Quantity> {
            Ok(Quantity::from_scalar(self.value.0 + other.value.0))
        }
    }

    impl std::ops::Sub for &Quantity {
        type Output = Result<Quantity>;

        fn sub(self, other: &Quantity) -> Result<Quantity> {
            Ok(Quantity::from_scalar(self.value.0 - other.value.0))
        }
    }

    impl std::ops::Mul for Quantity {
        type Output = Quantity;

        fn mul(self, other: Quantity) -> Quantity {
            Quantity::from_scalar(self.value.0 * other.value.0)
        }
    }

    impl std::ops::Neg for Quantity {
        type Output = Quantity;

        fn neg(self) -> Quantity {
            Quantity::from_scalar(-self.value.0)
        }
    }

    impl std::fmt::Display for Quantity {
        fn fmt(&self, f: &mut std::fmt::Formatter<'_>) -> std::fmt::Result {
            write!(f, "{}", self.value.0)
        }
    }
}

/// Where in the source some code came from: a number is enough here.
pub mod span {
    #[derive(Clone, Copy, Debug, PartialEq, Eq)]
    pub struct Span(pub u32);

    impl Span {
        #[cfg(test)]
        pub(crate) fn dummy() -> Span {
            Span(0)
        }
    }
}

pub mod typechecker {
    #[derive(Default)]
    pub struct TypeChecker;

    pub mod type_scheme {
        #[derive(Clone)]
        pub struct TypeScheme;
    }
}

pub mod typed_ast {
    use crate::crates::indexmap::IndexMap;

    #[derive(Clone, Debug, PartialEq, Eq)]
    pub struct StructInfo {
        pub name: String,
        /// Field names, for printing; what a field is declared as is left out.
        pub fields: IndexMap<String, ()>,
    }
}

pub mod unit {
    use crate::number::Number;
    use crate::prefix::Prefix;

    /// No unit at all.
    #[derive(Clone, Debug, PartialEq)]
    pub struct Unit;

    impl Unit {
        pub fn new_derived(_: String, _: String, _: Number, _: Unit) -> Unit {
            Unit
        }

        pub fn with_prefix(self, _: Prefix) -> Unit {
            self
        }

        pub fn to_base_unit_representation(&self) -> (Unit, Number) {
            (Unit, Number(1.0))
        }
    }

    impl std::fmt::Display for Unit {
        fn fmt(&self, _: &mut std::fmt::Formatter<'_>) -> std::fmt::Result {
            Ok(())
        }
    }
}

pub mod unit_registry {
    use crate::unit::Unit;

    #[derive(Clone, Debug, PartialEq)]
    pub struct UnitRegistryError;

    #[derive(Clone)]
    pub struct UnitMetadata {
        pub canonical_name: String,
    }

    #[derive(Clone)]
    pub struct UnitRegistry;

    impl UnitRegistry {
        pub fn new() -> UnitRegistry {
            UnitRegistry
        }

        pub fn add_derived_unit(
            &mut self,
            _: &str,
            _: &Unit,
            _: UnitMetadata,
        ) -> Result<(), UnitRegistryError> {
            Ok(())
        }
    }
}
