//! Values, shared by both machines.
//!
//! The elements of lists and structs are behind an `Rc` and never change, so
//! that a list holding the same list twice, sixty times over, stays small.

use std::collections::HashSet;
use std::rc::Rc;

#[derive(Clone, Debug)]
pub enum Value {
    Scalar(f64),
    Boolean(bool),
    String(Rc<[u8]>),
    FunctionReference(Rc<[u8]>),
    /// The struct's number, and its fields.
    StructInstance(usize, Rc<Elements>),
    List(Rc<Elements>),
}

/// The elements of a list or the fields of a struct.
#[derive(Debug)]
pub struct Elements {
    items: Vec<Value>,
    depth: usize,
}

impl Elements {
    pub fn new(items: Vec<Value>) -> Rc<Elements> {
        let depth = 1 + items.iter().map(Value::depth).max().unwrap_or(0);
        Rc::new(Elements { items, depth })
    }

    pub fn items(&self) -> &[Value] {
        &self.items
    }
}

/// Equality as document 01 has it: what `derive` would write, element by
/// element, and never by looking whether two values share an allocation.
/// (`NumbatList` does look: see [`Value::equal_if_shared`].)
impl PartialEq for Value {
    fn eq(&self, other: &Self) -> bool {
        match (self, other) {
            (Value::Scalar(l), Value::Scalar(r)) => l == r,
            (Value::Boolean(l), Value::Boolean(r)) => l == r,
            (Value::String(l), Value::String(r)) => l == r,
            (Value::FunctionReference(l), Value::FunctionReference(r)) => l == r,
            (Value::StructInstance(ln, l), Value::StructInstance(rn, r)) => {
                ln == rn && l.items == r.items
            }
            (Value::List(l), Value::List(r)) => l.items == r.items,
            _ => false,
        }
    }
}

impl Value {
    /// A plain value 0, a list or struct one more than its deepest element,
    /// empty ones 1.
    pub fn depth(&self) -> usize {
        match self {
            Value::StructInstance(_, elements) | Value::List(elements) => elements.depth,
            _ => 0,
        }
    }

    /// Equality that counts the pairs of elements visited below the top pair,
    /// from the first, to the first difference; the differing pair counts.
    /// It stops with none as soon as more than `limit` pairs were visited.
    pub fn compare(&self, other: &Value, limit: u64, visited: &mut u64) -> Option<bool> {
        match (self, other) {
            (Value::StructInstance(ln, l), Value::StructInstance(rn, r)) if ln == rn => {
                compare_elements(l, r, limit, visited)
            }
            (Value::List(l), Value::List(r)) => compare_elements(l, r, limit, visited),
            // Different struct numbers, different kinds, or plain values: no
            // pair lies below, and equality itself is one look.
            (Value::StructInstance(..), Value::StructInstance(..)) => Some(false),
            _ => Some(self == other),
        }
    }

    /// Equality as value.rs and list.rs have it: two lists that share their
    /// elements are equal without a look at those. Only a NaN shows it
    /// (difference 2 in docs/DIFFERENCES.md).
    pub fn equal_if_shared(&self, other: &Value) -> bool {
        match (self, other) {
            (Value::List(l), Value::List(r)) => Rc::ptr_eq(l, r) || all_equal_if_shared(l, r),
            (Value::StructInstance(ln, l), Value::StructInstance(rn, r)) => {
                ln == rn && all_equal_if_shared(l, r)
            }
            _ => self == other,
        }
    }

    /// Whether two values are the same thing: bits on scalars, all NaNs
    /// counting as one. Pairs of elements already found the same are not
    /// looked at again, so shared nestings do not take forever.
    pub fn same(&self, other: &Value) -> bool {
        self.same_seen(other, &mut HashSet::new())
    }

    fn same_seen(
        &self,
        other: &Value,
        seen: &mut HashSet<(*const Elements, *const Elements)>,
    ) -> bool {
        match (self, other) {
            (Value::Scalar(l), Value::Scalar(r)) => shown_bits(*l) == shown_bits(*r),
            (Value::StructInstance(ln, l), Value::StructInstance(rn, r)) => {
                ln == rn && same_elements(l, r, seen)
            }
            (Value::List(l), Value::List(r)) => same_elements(l, r, seen),
            _ => self == other,
        }
    }
}

fn compare_elements(l: &Elements, r: &Elements, limit: u64, visited: &mut u64) -> Option<bool> {
    if l.items.len() != r.items.len() {
        return Some(false);
    }
    for (left, right) in l.items.iter().zip(&r.items) {
        *visited += 1;
        if *visited > limit {
            return None;
        }
        if !left.compare(right, limit, visited)? {
            return Some(false);
        }
    }
    Some(true)
}

fn all_equal_if_shared(l: &Elements, r: &Elements) -> bool {
    l.items.len() == r.items.len()
        && l.items
            .iter()
            .zip(&r.items)
            .all(|(left, right)| left.equal_if_shared(right))
}

fn same_elements(
    l: &Rc<Elements>,
    r: &Rc<Elements>,
    seen: &mut HashSet<(*const Elements, *const Elements)>,
) -> bool {
    let pair = (Rc::as_ptr(l), Rc::as_ptr(r));
    if seen.contains(&pair) {
        return true;
    }
    let same = l.items.len() == r.items.len()
        && l.items
            .iter()
            .zip(&r.items)
            .all(|(left, right)| left.same_seen(right, seen));
    if same {
        seen.insert(pair);
    }
    same
}

/// The 64 bits of a scalar as they are shown: every NaN as one.
pub fn shown_bits(scalar: f64) -> u64 {
    if scalar.is_nan() {
        0x7FF8_0000_0000_0000
    } else {
        scalar.to_bits()
    }
}

#[cfg(test)]
mod tests {
    use super::*;

    fn list(items: Vec<Value>) -> Value {
        Value::List(Elements::new(items))
    }

    #[test]
    fn pairs_are_counted_to_the_first_difference() {
        let one = Value::Scalar(1.0);
        let two = Value::Scalar(2.0);
        let l = list(vec![
            one.clone(),
            list(vec![one.clone(), two.clone()]),
            one.clone(),
        ]);
        let r = list(vec![
            one.clone(),
            list(vec![one.clone(), one.clone()]),
            one.clone(),
        ]);
        let mut visited = 0;
        assert_eq!(l.compare(&r, 100, &mut visited), Some(false));
        // first, second, and inside it both: four pairs.
        assert_eq!(visited, 4);
        visited = 0;
        assert_eq!(l.compare(&r, 3, &mut visited), None);
        visited = 0;
        assert_eq!(l.compare(&l, 5, &mut visited), Some(true));
        assert_eq!(visited, 5);
        visited = 0;
        assert_eq!(l.compare(&list(vec![]), 0, &mut visited), Some(false));
        assert_eq!(visited, 0);
    }

    #[test]
    fn a_nan_differs_from_itself_inside_a_shared_list() {
        let l = list(vec![Value::Scalar(f64::NAN)]);
        assert!(l != l.clone());
        assert!(l.same(&l.clone()));
    }
}
