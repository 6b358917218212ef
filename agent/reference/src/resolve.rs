//! Pool entries resolved to numbers, once for each class.

use crate::hierarchy::bundle_index;
use crate::link::{Program, Signature};
use crate::names::{class_or_array, CONSTRUCTOR};
use crate::pool::{Entry, MemberName};
use crate::types::{RefType, ValueType};

/// What an instruction, a table entry or a frame can mean by a pool index.
#[derive(Clone, Copy, Debug)]
pub(crate) enum Reference {
    /// Another kind of entry, or a name that resolves to nothing.
    Unusable,
    Integer(i32),
    Class(RefType),
    Field(FieldUse),
    Method(MethodUse),
}

#[derive(Clone, Copy, Debug)]
pub(crate) struct FieldUse {
    /// The class that the reference names, not the one that declares the field.
    pub named: u8,
    /// Position among all fields of an object.
    pub slot: u16,
    pub kind: ValueType,
}

#[derive(Clone, Copy, Debug)]
pub(crate) struct MethodUse {
    /// The class that the reference names, not the one that declares the method.
    pub named: u8,
    /// Position in the program's methods; None is a built-in's constructor.
    pub method: Option<u16>,
}

/// What every built-in constructor takes and gives.
static BUILT_IN_SIGNATURE: Signature = Signature {
    parameters: Vec::new(),
    returns: None,
};

impl MethodUse {
    pub fn signature<'p>(&self, program: &'p Program<'_>) -> &'p Signature {
        self.method
            .and_then(|method| program.methods.get(usize::from(method)))
            .map_or(&BUILT_IN_SIGNATURE, |method| &method.signature)
    }

    pub fn is_static(&self, program: &Program<'_>) -> bool {
        self.method
            .and_then(|method| program.methods.get(usize::from(method)))
            .map_or(false, |method| method.is_static)
    }

    pub fn is_constructor(&self, program: &Program<'_>) -> bool {
        self.method
            .and_then(|method| program.methods.get(usize::from(method)))
            .map_or(true, |method| method.is_constructor())
    }
}

/// The meaning of each entry of one class's pool.
pub(crate) fn resolve_pool(program: &Program<'_>, class: usize) -> Vec<Reference> {
    let pool = match program.classes.get(class) {
        Some(class) => &class.pool,
        None => return Vec::new(),
    };
    let member = |class, member| pool.member_name(class, member);
    let resolve = |entry: &Entry<'_>| match *entry {
        Entry::Integer(value) => Some(Reference::Integer(value)),
        Entry::Class { name } => {
            let named = named_type(program, pool.utf8(name)?)?;
            Some(Reference::Class(named))
        }
        Entry::Fieldref { class, member: m } => find_field(program, member(class, m)?),
        Entry::Methodref { class, member: m } => find_method(program, member(class, m)?),
        Entry::Nothing | Entry::Utf8(_) | Entry::NameAndType { .. } => None,
    };
    let entries = pool.entries().iter();
    entries
        .map(|entry| resolve(entry).unwrap_or(Reference::Unusable))
        .collect()
}

/// The known class or array of a known base that a Class entry names.
fn named_type(program: &Program<'_>, name: &[u8]) -> Option<RefType> {
    match program.hierarchy.value_type(class_or_array(name)?)? {
        ValueType::Reference(named) => Some(named),
        ValueType::Int => None,
    }
}

fn find_field(program: &Program<'_>, member: MemberName<'_>) -> Option<Reference> {
    let named = named_type(program, member.class)?.as_class()?;
    let mut classes = program
        .hierarchy
        .upward(named)
        .filter_map(|number| program.class(number));
    classes.find_map(|class| {
        let mut fields = class.fields.iter().enumerate();
        let (index, field) = fields.find(|(_, field)| {
            field.name == member.name && field.descriptor == member.descriptor
        })?;
        Some(Reference::Field(FieldUse {
            named,
            slot: (class.inherited_fields + index) as u16,
            kind: field.kind,
        }))
    })
}

fn find_method(program: &Program<'_>, member: MemberName<'_>) -> Option<Reference> {
    let named = named_type(program, member.class)?.as_class()?;
    let in_class = |number| program.own_method(number, member.name, member.descriptor);
    let method = if member.name != CONSTRUCTOR {
        Some(program.hierarchy.upward(named).find_map(in_class)? as u16)
    } else if bundle_index(named).is_some() {
        Some(in_class(named)? as u16)
    } else if member.descriptor == b"()V" {
        None
    } else {
        return None;
    };
    Some(Reference::Method(MethodUse { named, method }))
}
