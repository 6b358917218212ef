//! Class numbers, names and supers: the built-in classes and then the bundle's.

use crate::names::TypeText;
use crate::types::{RefType, ValueType, BUILT_IN_CLASSES, INT_BASE};

/// Name and parent's number of each built-in class; Object is its own parent.
const BUILT_INS: [(&[u8], u8); BUILT_IN_CLASSES as usize] = [
    (b"java/lang/Object", 0),
    (b"java/lang/Throwable", 0),
    (b"java/lang/Exception", 1),
    (b"java/lang/RuntimeException", 2),
    (b"java/lang/ArithmeticException", 3),
    (b"java/lang/ArrayStoreException", 3),
    (b"java/lang/ClassCastException", 3),
    (b"java/lang/IndexOutOfBoundsException", 3),
    (b"java/lang/ArrayIndexOutOfBoundsException", 7),
    (b"java/lang/NegativeArraySizeException", 3),
    (b"java/lang/NullPointerException", 3),
];

pub(crate) struct Hierarchy<'a> {
    names: Vec<&'a [u8]>,
    parents: Vec<u8>,
    /// Bit k of entry c: class c is class k or below it.
    lines: Vec<u32>,
}

impl<'a> Hierarchy<'a> {
    /// Only the names, which are enough to find supers.
    pub fn with_names(bundle_names: impl Iterator<Item = &'a [u8]>) -> Hierarchy<'a> {
        let built_in_names = BUILT_INS.iter().map(|&(name, _)| name);
        Hierarchy {
            names: built_in_names.chain(bundle_names).collect(),
            parents: BUILT_INS.iter().map(|&(_, parent)| parent).collect(),
            lines: Vec::new(),
        }
    }

    #[cfg(test)]
    pub fn built_in_only() -> Hierarchy<'a> {
        let mut hierarchy = Hierarchy::with_names(std::iter::empty());
        hierarchy.set_parents(&[]);
        hierarchy
    }

    /// The parents of the bundle's classes. Gives the lowest bundle class whose
    /// chain misses Object.
    pub fn set_parents(&mut self, bundle_parents: &[u8]) -> Option<usize> {
        self.parents.extend_from_slice(bundle_parents);
        let lines: Vec<Option<u32>> = (0..self.parents.len())
            .map(|class| self.line_to_object(class))
            .collect();
        self.lines = lines.iter().map(|line| line.unwrap_or(0)).collect();
        let first_missing = lines.iter().position(Option::is_none)?;
        first_missing.checked_sub(usize::from(BUILT_IN_CLASSES))
    }

    fn line_to_object(&self, class: usize) -> Option<u32> {
        let mut line = 0;
        let mut current = class;
        while current != 0 {
            let bit = 1 << (current & 31);
            if line & bit != 0 {
                return None;
            }
            line |= bit;
            current = usize::from(*self.parents.get(current)?);
        }
        Some(line | 1)
    }

    pub fn number_of(&self, name: &[u8]) -> Option<u8> {
        let position = self.names.iter().position(|known| *known == name)?;
        Some(position as u8)
    }

    pub fn class_count(&self) -> usize {
        self.names.len()
    }

    pub fn is_below(&self, class: u8, above: u8) -> bool {
        let line = self.lines.get(usize::from(class)).copied().unwrap_or(0);
        (line >> (above & 31)) & 1 == 1
    }

    /// None above Object.
    pub fn parent(&self, class: u8) -> Option<u8> {
        let parent = self.parents.get(usize::from(class)).copied();
        parent.filter(|_| class != 0)
    }

    /// The class itself and those above it, Object last.
    pub fn upward(&self, class: u8) -> impl Iterator<Item = u8> + '_ {
        std::iter::successors(Some(class), move |&current| self.parent(current))
    }

    /// None if the text names an unknown class.
    pub fn value_type(&self, text: TypeText<'_>) -> Option<ValueType> {
        let base = match text.class {
            Some(name) => self.number_of(name)? as i8,
            None if text.depth == 0 => return Some(ValueType::Int),
            None => INT_BASE,
        };
        let depth = text.depth;
        Some(ValueType::Reference(RefType { base, depth }))
    }
}

/// Position among the bundle's classes; None for a built-in.
pub(crate) fn bundle_index(class: u8) -> Option<usize> {
    class.checked_sub(BUILT_IN_CLASSES).map(usize::from)
}

pub(crate) fn bundle_number(index: usize) -> u8 {
    (index as u8).saturating_add(BUILT_IN_CLASSES)
}
