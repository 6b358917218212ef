//! Phase B: linking the classes of a bundle to each other and to the built-ins.

use crate::classfile::{self, ClassFile, Code};
use crate::hierarchy::{bundle_index, bundle_number, Hierarchy};
use crate::names::CONSTRUCTOR;
use crate::pool::Pool;
use crate::types::ValueType;
use crate::verdict::{refusal, Fault, Verdict};

/// A linked bundle.
pub(crate) struct Program<'a> {
    pub hierarchy: Hierarchy<'a>,
    pub classes: Vec<Class<'a>>,
    /// Every class's methods, in bundle order.
    pub methods: Vec<Method<'a>>,
}

pub(crate) struct Class<'a> {
    pub pool: Pool<'a>,
    pub fields: Vec<Field<'a>>,
    /// How many fields of the classes above stand before its own.
    pub inherited_fields: usize,
    pub first_method: usize,
    pub method_count: usize,
}

pub(crate) struct Field<'a> {
    pub name: &'a [u8],
    pub descriptor: &'a [u8],
    pub kind: ValueType,
}

pub(crate) struct Method<'a> {
    /// Index of its class, and its own index there.
    pub class: usize,
    pub index: usize,
    pub is_static: bool,
    pub name: &'a [u8],
    pub descriptor: &'a [u8],
    pub signature: Signature,
    pub codes: Vec<Code<'a>>,
}

pub(crate) struct Signature {
    pub parameters: Vec<ValueType>,
    /// None is V.
    pub returns: Option<ValueType>,
}

impl<'a> Method<'a> {
    pub fn is_constructor(&self) -> bool {
        self.name == CONSTRUCTOR
    }

    pub fn class_number(&self) -> u8 {
        bundle_number(self.class)
    }

    pub fn parameter_slots(&self) -> usize {
        self.signature.parameters.len() + usize::from(!self.is_static)
    }
}

impl<'a> Program<'a> {
    pub fn class(&self, number: u8) -> Option<&Class<'a>> {
        self.classes.get(bundle_index(number)?)
    }

    pub fn field_count(&self, number: u8) -> usize {
        self.class(number)
            .map_or(0, |class| class.inherited_fields + class.fields.len())
    }

    /// Position in `methods` of a method that stands in the class itself.
    pub fn own_method(&self, number: u8, name: &[u8], descriptor: &[u8]) -> Option<usize> {
        let class = self.class(number)?;
        let own = self
            .methods
            .iter()
            .enumerate()
            .skip(class.first_method)
            .take(class.method_count);
        let mut equal =
            own.filter(|(_, method)| method.name == name && method.descriptor == descriptor);
        equal.next().map(|(position, _)| position)
    }
}

pub(crate) fn link(files: Vec<ClassFile<'_>>) -> Result<Program<'_>, Verdict> {
    let mut hierarchy = Hierarchy::with_names(files.iter().map(|file| file.name));
    let refuse = |number, class: usize| {
        let start = files.get(class).map_or(0, |file| file.start);
        Fault::new(number, start).in_class(class)
    };
    if let Some(class) = repeated_class(&files, &hierarchy) {
        return Err(refuse(refusal::TWICE, class));
    }
    let parents = find_parents(&files, &hierarchy).map_err(|class| refuse(refusal::LINK, class))?;
    if let Some(class) = hierarchy.set_parents(&parents) {
        return Err(refuse(refusal::LINK, class));
    }
    let mut members = Vec::new();
    for class in 0..files.len() {
        let linked = link_members(&files, &hierarchy, class);
        members.push(linked.map_err(|fault| fault.in_class(class))?);
    }
    Ok(assemble(files, hierarchy, members))
}

/// The lowest class that has the name of a built-in or an earlier class.
fn repeated_class(files: &[ClassFile<'_>], hierarchy: &Hierarchy<'_>) -> Option<usize> {
    (0..files.len()).find(|&class| {
        let first = files
            .get(class)
            .and_then(|file| hierarchy.number_of(file.name));
        first != Some(bundle_number(class))
    })
}

/// Each class's parent number, or the lowest class whose super is zero or unknown.
fn find_parents(files: &[ClassFile<'_>], hierarchy: &Hierarchy<'_>) -> Result<Vec<u8>, usize> {
    let numbers = files.iter().enumerate().map(|(class, file)| {
        let parent = file.parent.and_then(|name| hierarchy.number_of(name));
        parent.ok_or(class)
    });
    numbers.collect()
}

struct Members<'a> {
    fields: Vec<Field<'a>>,
    signatures: Vec<Signature>,
}

/// Fields then methods; of each member first its 8 and then its 9.
fn link_members<'a>(
    files: &[ClassFile<'a>],
    hierarchy: &Hierarchy<'a>,
    class: usize,
) -> Result<Members<'a>, Fault> {
    let mut members = Members {
        fields: Vec::new(),
        signatures: Vec::new(),
    };
    let file = match files.get(class) {
        Some(file) => file,
        None => return Ok(members),
    };
    for (index, field) in file.fields.iter().enumerate() {
        let earlier = file.fields.iter().take(index);
        let linked = link_field(field, earlier, hierarchy);
        let refuse = |number| Fault::new(number, field.start);
        members.fields.push(linked.map_err(refuse)?);
    }
    for (index, method) in file.methods.iter().enumerate() {
        let refuse = |number| Fault::new(number, method.start);
        let mut earlier = file.methods.iter().take(index);
        if earlier.any(|other| same_method(other, method)) {
            return Err(refuse(refusal::TWICE));
        }
        let signature = link_signature(method, hierarchy)
            .filter(|_| agrees_with_above(files, hierarchy, class, method));
        members
            .signatures
            .push(signature.ok_or_else(|| refuse(refusal::LINK))?);
    }
    Ok(members)
}

fn link_field<'a, 'f>(
    field: &classfile::Field<'a>,
    mut earlier: impl Iterator<Item = &'f classfile::Field<'a>>,
    hierarchy: &Hierarchy<'a>,
) -> Result<Field<'a>, u32>
where
    'a: 'f,
{
    if earlier.any(|other| other.name == field.name && other.descriptor == field.descriptor) {
        return Err(refusal::TWICE);
    }
    let kind = hierarchy.value_type(field.kind).ok_or(refusal::LINK)?;
    Ok(Field {
        name: field.name,
        descriptor: field.descriptor,
        kind,
    })
}

/// None if the descriptor names an unknown class.
fn link_signature(method: &classfile::Method<'_>, hierarchy: &Hierarchy<'_>) -> Option<Signature> {
    let texts = method.signature.parameters.iter();
    let parameters = texts
        .map(|&text| hierarchy.value_type(text))
        .collect::<Option<Vec<_>>>()?;
    let returns = match method.signature.returns {
        Some(text) => Some(hierarchy.value_type(text)?),
        None => None,
    };
    Some(Signature {
        parameters,
        returns,
    })
}

fn same_method(one: &classfile::Method<'_>, other: &classfile::Method<'_>) -> bool {
    one.name == other.name && one.descriptor == other.descriptor
}

/// The first such method above is static exactly if this one is.
fn agrees_with_above(
    files: &[ClassFile<'_>],
    hierarchy: &Hierarchy<'_>,
    class: usize,
    method: &classfile::Method<'_>,
) -> bool {
    let classes_above = hierarchy.upward(bundle_number(class)).skip(1);
    let files_above = classes_above.filter_map(|above| files.get(bundle_index(above)?));
    let mut methods_above = files_above.flat_map(|file| file.methods.iter());
    methods_above
        .find(|above| same_method(above, method))
        .map_or(true, |above| above.is_static == method.is_static)
}

fn assemble<'a>(
    files: Vec<ClassFile<'a>>,
    hierarchy: Hierarchy<'a>,
    members: Vec<Members<'a>>,
) -> Program<'a> {
    let own_counts: Vec<usize> = files.iter().map(|file| file.fields.len()).collect();
    let mut classes = Vec::new();
    let mut methods = Vec::new();
    for (index, (file, members)) in files.into_iter().zip(members).enumerate() {
        let above = hierarchy.upward(bundle_number(index)).skip(1);
        let counts_above = above.filter_map(|class| own_counts.get(bundle_index(class)?));
        classes.push(Class {
            pool: file.pool,
            fields: members.fields,
            inherited_fields: counts_above.sum(),
            first_method: methods.len(),
            method_count: file.methods.len(),
        });
        let pairs = file.methods.into_iter().zip(members.signatures).enumerate();
        methods.extend(pairs.map(|(position, (method, signature))| Method {
            class: index,
            index: position,
            is_static: method.is_static,
            name: method.name,
            descriptor: method.descriptor,
            signature,
            codes: method.codes,
        }));
    }
    Program {
        hierarchy,
        classes,
        methods,
    }
}
