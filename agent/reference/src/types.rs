//! Types of values, and which fit where (JVMS 4.10.1.2 without interfaces).

use crate::hierarchy::Hierarchy;

/// Base of an array of int.
pub(crate) const INT_BASE: i8 = -1;

pub(crate) const OBJECT: u8 = 0;
pub(crate) const THROWABLE: u8 = 1;
pub(crate) const ARITHMETIC: u8 = 4;
pub(crate) const ARRAY_STORE: u8 = 5;
pub(crate) const CLASS_CAST: u8 = 6;
pub(crate) const ARRAY_INDEX: u8 = 8;
pub(crate) const NEGATIVE_SIZE: u8 = 9;
pub(crate) const NULL_POINTER: u8 = 10;
pub(crate) const BUILT_IN_CLASSES: u8 = 11;

/// A class (depth 0) or an array of a class or of int.
#[derive(Clone, Copy, Debug, PartialEq, Eq)]
pub(crate) struct RefType {
    /// Class number, or INT_BASE in an array.
    pub base: i8,
    pub depth: u8,
}

impl RefType {
    pub const OBJECT_ARRAY: RefType = RefType {
        base: OBJECT as i8,
        depth: 1,
    };
    pub const INT_ARRAY: RefType = RefType {
        base: INT_BASE,
        depth: 1,
    };

    pub fn class(number: u8) -> RefType {
        RefType {
            base: number as i8,
            depth: 0,
        }
    }

    /// The class number, unless this is an array.
    pub fn as_class(self) -> Option<u8> {
        if self.is_array() || self.base < 0 {
            None
        } else {
            Some(self.base as u8)
        }
    }

    pub fn is_array(self) -> bool {
        self.depth > 0
    }

    pub fn is_array_of_references(self) -> bool {
        self.is_array() && self != RefType::INT_ARRAY
    }

    pub fn array_of(self) -> RefType {
        RefType {
            base: self.base,
            depth: self.depth.saturating_add(1),
        }
    }

    /// Of an array of references.
    pub fn element(self) -> RefType {
        RefType {
            base: self.base,
            depth: self.depth.saturating_sub(1),
        }
    }

    pub fn fits(self, wanted: RefType, hierarchy: &Hierarchy<'_>) -> bool {
        if self.depth != wanted.depth {
            // An array is an Object, so an array of arrays is an array of Objects.
            return self.depth > wanted.depth && wanted.base == OBJECT as i8;
        }
        if self.base < 0 || wanted.base < 0 {
            return self.base == wanted.base;
        }
        hierarchy.is_below(self.base as u8, wanted.base as u8)
    }
}

/// What a descriptor can ask for.
#[derive(Clone, Copy, Debug, PartialEq, Eq)]
pub(crate) enum ValueType {
    Int,
    Reference(RefType),
}

/// What the walk knows of a local or an operand.
#[derive(Clone, Copy, Debug, PartialEq, Eq)]
pub(crate) enum Type {
    Top,
    Int,
    Null,
    Reference(RefType),
    /// Made by the new at this code offset.
    Uninit(u16),
    UninitThis,
}

impl Type {
    pub fn class(number: u8) -> Type {
        Type::Reference(RefType::class(number))
    }

    /// Anything that aload and astore move.
    pub fn is_reference(self) -> bool {
        !matches!(self, Type::Top | Type::Int)
    }

    pub fn fits(self, wanted: Type, hierarchy: &Hierarchy<'_>) -> bool {
        match (self, wanted) {
            (_, Type::Top) => true,
            (_, Type::Reference(wanted)) => self.fits_reference(wanted, hierarchy),
            _ => self == wanted,
        }
    }

    pub fn fits_reference(self, wanted: RefType, hierarchy: &Hierarchy<'_>) -> bool {
        match self {
            Type::Null => true,
            Type::Reference(own) => own.fits(wanted, hierarchy),
            _ => false,
        }
    }
}

impl From<ValueType> for Type {
    fn from(kind: ValueType) -> Type {
        match kind {
            ValueType::Int => Type::Int,
            ValueType::Reference(kind) => Type::Reference(kind),
        }
    }
}

#[cfg(test)]
mod tests {
    use super::*;

    fn array(base: i8, depth: u8) -> RefType {
        RefType { base, depth }
    }

    #[test]
    fn arrays_fit_by_element() {
        let hierarchy = Hierarchy::built_in_only();
        let fits = |own: RefType, wanted: RefType| own.fits(wanted, &hierarchy);
        let object = RefType::class(OBJECT);
        assert!(fits(array(INT_BASE, 1), object));
        assert!(fits(array(INT_BASE, 2), array(0, 1)));
        assert!(!fits(array(INT_BASE, 1), array(0, 1)));
        assert!(!fits(array(0, 1), array(INT_BASE, 1)));
        assert!(!fits(array(INT_BASE, 1), array(0, 2)));
        assert!(fits(array(4, 3), array(1, 3)));
        assert!(!fits(array(1, 3), array(4, 3)));
        assert!(!fits(array(4, 3), array(1, 2)));
        assert!(!fits(object, array(0, 1)));
    }

    #[test]
    fn uninitialised_types_fit_only_themselves_and_top() {
        let hierarchy = Hierarchy::built_in_only();
        for own in [Type::Uninit(3), Type::UninitThis] {
            assert!(own.fits(own, &hierarchy));
            assert!(own.fits(Type::Top, &hierarchy));
            assert!(!own.fits(Type::class(OBJECT), &hierarchy));
            assert!(!Type::Null.fits(own, &hierarchy));
        }
        assert!(!Type::Uninit(3).fits(Type::Uninit(4), &hierarchy));
        assert!(!Type::class(OBJECT).fits(Type::Null, &hierarchy));
    }
}
