//! Phase A: reading the class files of a bundle in byte order.

use crate::bytes::Cursor;
use crate::limits;
use crate::names::{self, MethodText, TypeText};
use crate::pool::Pool;
use crate::verdict::{refusal, Fault};

const MAGIC: u32 = 0xcafe_babe;
const PUBLIC: u32 = 0x0001;
const PUBLIC_STATIC: u32 = 0x0009;

pub(crate) struct ClassFile<'a> {
    /// First byte in the bundle.
    pub start: usize,
    pub pool: Pool<'a>,
    pub name: &'a [u8],
    /// None if super_class is zero.
    pub parent: Option<&'a [u8]>,
    pub fields: Vec<Field<'a>>,
    pub methods: Vec<Method<'a>>,
}

pub(crate) struct Field<'a> {
    pub start: usize,
    pub name: &'a [u8],
    pub descriptor: &'a [u8],
    pub kind: TypeText<'a>,
}

pub(crate) struct Method<'a> {
    pub start: usize,
    pub is_static: bool,
    pub name: &'a [u8],
    pub descriptor: &'a [u8],
    pub signature: MethodText<'a>,
    /// Every Code attribute; linking lets none and two pass.
    pub codes: Vec<Code<'a>>,
}

pub(crate) struct Code<'a> {
    pub max_stack: usize,
    pub max_locals: usize,
    pub bytes: &'a [u8],
    pub table: Vec<TableEntry>,
    /// The content of every StackMapTable.
    pub frame_tables: Vec<&'a [u8]>,
}

#[derive(Clone, Copy)]
pub(crate) struct TableEntry {
    pub start: usize,
    pub end: usize,
    pub handler: usize,
    pub catch_type: u32,
}

pub(crate) fn read_bundle(bytes: &[u8]) -> Result<Vec<ClassFile<'_>>, Fault> {
    if bytes.is_empty() || bytes.len() > limits::BUNDLE_BYTES {
        return Err(Fault::new(refusal::SIZE, 0));
    }
    let mut cursor = Cursor::new(bytes);
    let mut classes = Vec::new();
    while !cursor.at_end() {
        let start = cursor.position();
        if cursor.u4()? != MAGIC {
            return Err(Fault::new(refusal::MAGIC_OR_VERSION, start));
        }
        if classes.len() == limits::CLASSES {
            return Err(Fault::new(refusal::LARGEST_VALUE, start));
        }
        classes.push(read_class(&mut cursor, start)?);
    }
    Ok(classes)
}

fn read_class<'a>(cursor: &mut Cursor<'a>, start: usize) -> Result<ClassFile<'a>, Fault> {
    expect_u2(cursor, &[0], refusal::MAGIC_OR_VERSION)?;
    expect_u2(cursor, &[51, 52], refusal::MAGIC_OR_VERSION)?;
    let pool = Pool::read(cursor)?;
    expect_u2(cursor, &[0x0020, 0x0021], refusal::ACCESS)?;
    let place = cursor.position();
    let name = own_class_name(&pool, cursor.u2()?, place)?;
    let place = cursor.position();
    let parent = match cursor.u2()? {
        0 => None,
        index => Some(own_class_name(&pool, index, place)?),
    };
    expect_u2(cursor, &[0], refusal::ACCESS)?;
    let field_count = cursor.u2_at_most(limits::FIELDS)?;
    let fields = (0..field_count)
        .map(|_| read_field(cursor, &pool))
        .collect::<Result<_, _>>()?;
    let method_count = cursor.u2_at_most(limits::METHODS)?;
    let methods = (0..method_count)
        .map(|_| read_method(cursor, &pool))
        .collect::<Result<_, _>>()?;
    skip_attributes(cursor, &pool)?;
    Ok(ClassFile {
        start,
        pool,
        name,
        parent,
        fields,
        methods,
    })
}

fn read_field<'a>(cursor: &mut Cursor<'a>, pool: &Pool<'a>) -> Result<Field<'a>, Fault> {
    let start = cursor.position();
    expect_u2(cursor, &[PUBLIC], refusal::ACCESS)?;
    let place = cursor.position();
    let name = read_text(cursor, pool)?;
    if !names::is_plain_name(name) {
        return Err(Fault::new(refusal::NAME, place));
    }
    let place = cursor.position();
    let descriptor = read_text(cursor, pool)?;
    let kind = names::field_type(descriptor).ok_or_else(|| Fault::new(refusal::NAME, place))?;
    skip_attributes(cursor, pool)?;
    Ok(Field {
        start,
        name,
        descriptor,
        kind,
    })
}

fn read_method<'a>(cursor: &mut Cursor<'a>, pool: &Pool<'a>) -> Result<Method<'a>, Fault> {
    let start = cursor.position();
    let access = expect_u2(cursor, &[PUBLIC, PUBLIC_STATIC], refusal::ACCESS)?;
    let is_static = access == PUBLIC_STATIC;
    let place = cursor.position();
    let name = read_text(cursor, pool)?;
    if !names::is_method_name(name) {
        return Err(Fault::new(refusal::NAME, place));
    }
    // The access number is what offends, although only the name shows it.
    if is_static && name == names::CONSTRUCTOR {
        return Err(Fault::new(refusal::ACCESS, start));
    }
    let place = cursor.position();
    let descriptor = read_text(cursor, pool)?;
    let signature =
        read_signature(name, descriptor, is_static).map_err(|number| Fault::new(number, place))?;
    let codes = read_codes(cursor, pool)?;
    Ok(Method {
        start,
        is_static,
        name,
        descriptor,
        signature,
        codes,
    })
}

/// Only a well-formed descriptor has a number of parameters.
fn read_signature<'a>(
    name: &[u8],
    descriptor: &'a [u8],
    is_static: bool,
) -> Result<MethodText<'a>, u32> {
    let signature = names::method_type(descriptor).ok_or(refusal::NAME)?;
    let slots = signature.parameters.len() + usize::from(!is_static);
    if slots > limits::PARAMETER_SLOTS {
        return Err(refusal::LARGEST_VALUE);
    }
    if name == names::CONSTRUCTOR && signature.returns.is_some() {
        return Err(refusal::NAME);
    }
    Ok(signature)
}

/// A method's attributes; each Code is read in its turn, the others skipped.
fn read_codes<'a>(cursor: &mut Cursor<'a>, pool: &Pool<'a>) -> Result<Vec<Code<'a>>, Fault> {
    let mut codes = Vec::new();
    for _ in 0..cursor.u2()? {
        let start = cursor.position();
        let (name, length) = read_attribute_header(cursor, pool)?;
        let content = cursor.part(length, Fault::new(refusal::NAME, start));
        cursor.take(length)?;
        if let (b"Code", Some(content)) = (name, content) {
            codes.push(read_code(content, pool, start)?);
        }
    }
    Ok(codes)
}

fn read_code<'a>(mut cursor: Cursor<'a>, pool: &Pool<'a>, start: usize) -> Result<Code<'a>, Fault> {
    let max_stack = cursor.u2_at_most(limits::MAX_STACK)? as usize;
    let max_locals = cursor.u2_at_most(limits::MAX_LOCALS)? as usize;
    let place = cursor.position();
    let length = cursor.u4()?;
    if length == 0 || length > limits::CODE_BYTES {
        return Err(Fault::new(refusal::LARGEST_VALUE, place));
    }
    let bytes = cursor.take(length as usize)?;
    let table_count = cursor.u2_at_most(limits::TABLE_ENTRIES)?;
    let table = (0..table_count)
        .map(|_| read_table_entry(&mut cursor))
        .collect::<Result<_, _>>()?;
    let mut frame_tables = Vec::new();
    for _ in 0..cursor.u2()? {
        let (name, length) = read_attribute_header(&mut cursor, pool)?;
        let content = cursor.take(length)?;
        if name == b"StackMapTable" {
            frame_tables.push(content);
        }
    }
    if !cursor.at_end() {
        return Err(Fault::new(refusal::NAME, start));
    }
    Ok(Code {
        max_stack,
        max_locals,
        bytes,
        table,
        frame_tables,
    })
}

fn read_table_entry(cursor: &mut Cursor<'_>) -> Result<TableEntry, Fault> {
    Ok(TableEntry {
        start: cursor.u2()? as usize,
        end: cursor.u2()? as usize,
        handler: cursor.u2()? as usize,
        catch_type: cursor.u2()?,
    })
}

fn skip_attributes<'a>(cursor: &mut Cursor<'a>, pool: &Pool<'a>) -> Result<(), Fault> {
    for _ in 0..cursor.u2()? {
        let (_, length) = read_attribute_header(cursor, pool)?;
        cursor.take(length)?;
    }
    Ok(())
}

/// Name and content length.
fn read_attribute_header<'a>(
    cursor: &mut Cursor<'a>,
    pool: &Pool<'a>,
) -> Result<(&'a [u8], usize), Fault> {
    let name = read_text(cursor, pool)?;
    let length = cursor.u4()? as usize;
    Ok((name, length))
}

/// The text behind an index that must lead to a Utf8.
fn read_text<'a>(cursor: &mut Cursor<'a>, pool: &Pool<'a>) -> Result<&'a [u8], Fault> {
    let place = cursor.position();
    let index = cursor.u2()?;
    pool.utf8(index)
        .ok_or_else(|| Fault::new(refusal::POOL, place))
}

/// The name behind this_class or super_class: no array.
fn own_class_name<'a>(pool: &Pool<'a>, index: u32, place: usize) -> Result<&'a [u8], Fault> {
    let name = pool
        .class_name(index)
        .ok_or_else(|| Fault::new(refusal::POOL, place))?;
    if names::is_class_name(name) {
        Ok(name)
    } else {
        Err(Fault::new(refusal::NAME, place))
    }
}

fn expect_u2(cursor: &mut Cursor<'_>, allowed: &[u32], otherwise: u32) -> Result<u32, Fault> {
    let place = cursor.position();
    let value = cursor.u2()?;
    if allowed.contains(&value) {
        Ok(value)
    } else {
        Err(Fault::new(otherwise, place))
    }
}
