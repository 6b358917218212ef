//! Faults of a method's code: verdicts 10 to 18.

use crate::explain::frames::{missing_frame, refused_frame};
use crate::explain::instruction::{
    array_code, branch_target, byte, length, local, mnemonic, pool_index, starts,
};
use crate::explain::linking::{
    base_class, is_built_in, is_known, is_throwable, parameter_count, upward,
};
use crate::explain::{Case, Finding};
use crate::outline::{shown_text, Class, Code, Constant, Member, Pool};

const CONSTRUCTOR_CALLS: &str =
    "invokespecial calls constructors only, and nothing else calls them";
const SUPER_CALL: &str = "`super.m()`; give the overridden body a name of its own and call that";

pub fn in_method(case: &Case<'_, '_>, class: &Class<'_>, method: &Member<'_>) -> Option<Finding> {
    let code = match (case.verdict.number, method.code.as_ref()) {
        (10, code) => return Some(unsound_code(method, code)),
        (_, code) => code?,
    };
    let place = case.place();
    match case.verdict.number {
        11 => refused_instruction(code, place),
        12 => refused_target(code, place),
        13 => refused_reference(case, class, code, place),
        14 => refused_frame(code, place),
        17 if place >= code.bytes.len() => Some(
            Finding::wrong("control runs off the end of the code")
                .because("damaged or hand-made code"),
        ),
        17 => missing_frame(code, place),
        _ => None,
    }
}

fn unsound_code(method: &Member<'_>, code: Option<&Code<'_>>) -> Finding {
    let slots = method.descriptor.map_or(0, parameter_count) + usize::from(!method.is_static());
    match code {
        None => Finding::wrong("the method has no code"),
        Some(code) if (code.max_locals as usize) < slots => Finding::wrong(format!(
            "max_locals is {}, and the parameters take {}",
            code.max_locals, slots
        )),
        Some(_) => Finding::wrong("two Codes, or two StackMapTables"),
    }
}

fn refused_instruction(code: &Code<'_>, place: usize) -> Option<Finding> {
    let opcode = byte(code.bytes, place)?;
    let length = match length(opcode) {
        Some(length) => length,
        None => {
            let name = mnemonic(opcode).unwrap_or("an unknown one");
            let finding = Finding::wrong(format!("an instruction that jobs do not have: {}", name));
            return Some(match instruction_cause(opcode) {
                Some(cause) => finding.because(cause),
                None => finding,
            });
        }
    };
    if place + length > code.bytes.len() {
        return Some(Finding::wrong("an instruction that is cut off").because("damaged code"));
    }
    if let Some(local) = local(code.bytes, place).filter(|&local| local >= code.max_locals) {
        let text = format!("local {} where max_locals is {}", local, code.max_locals);
        return Some(Finding::wrong(text).because("damaged or hand-made code"));
    }
    let element = byte(code.bytes, place + 1).filter(|_| opcode == 0xbc)?;
    let text = format!("an array of {}", array_code(element));
    Some(Finding::wrong(text).because("an array of another primitive type than int"))
}

fn instruction_cause(opcode: u8) -> Option<&'static str> {
    match opcode {
        0x13 => Some("a string or a number whose entry in the pool is numbered above 255: a class with many names and large numbers; part it in two"),
        0x5b..=0x5e => {
            Some("`a[i]++`, `a[i] += 1` or `x = a[0] = n`; write `a[i] = a[i] + 1`, or two statements")
        }
        0x91..=0x93 | 0x33..=0x35 | 0x54..=0x56 => {
            Some("byte, char, short or boolean values; jobs count in int")
        }
        0xaa | 0xab => Some("`switch`; write `if` and `else if`"),
        0xb2 | 0xb3 => Some("a static field, or System.out; keep state in an object"),
        0xb9 | 0xba => Some("an interface call or a lambda; use a class with a method to override"),
        0xc2 | 0xc3 => Some("`synchronized`; leave it out"),
        0xc4 => Some("`x += 200` on a local; write `x = x + 200`"),
        0xc5 => Some("`new int[3][4]`; write `new int[3][]` and a loop"),
        0xca..=0xff => Some("damaged code"),
        0x85..=0x90 | 0x94..=0x98 => Some("long, float or double values; jobs count in int"),
        _ => None,
    }
}

fn refused_target(code: &Code<'_>, place: usize) -> Option<Finding> {
    let starts = starts(code.bytes);
    let is_start = |offset: i64| starts.iter().any(|&start| start as i64 == offset);
    if let Some(target) = branch_target(code.bytes, place).filter(|&target| !is_start(target)) {
        return Some(Finding::wrong(format!(
            "a branch to {}, where no instruction begins",
            target
        )));
    }
    let mut entries = code
        .table
        .iter()
        .filter(|entry| entry.start as usize == place);
    let entry = entries.find(|entry| {
        let end_is_sound = is_start(i64::from(entry.end)) || entry.end as usize == code.bytes.len();
        !(is_start(i64::from(entry.start))
            && end_is_sound
            && is_start(i64::from(entry.handler))
            && entry.start < entry.end)
    })?;
    let text = format!(
        "an exception table entry from {} to {} with its handler at {}",
        entry.start, entry.end, entry.handler
    );
    Some(Finding::wrong(format!("{} does not stand on instructions", text)).in_table())
}

fn refused_reference(
    case: &Case<'_, '_>,
    class: &Class<'_>,
    code: &Code<'_>,
    place: usize,
) -> Option<Finding> {
    let index = pool_index(code.bytes, place);
    let opcode = byte(code.bytes, place);
    let finding = index
        .zip(opcode)
        .and_then(|(index, opcode)| reference_fault(case, class, index, opcode));
    finding.or_else(|| refused_catch(case, &class.pool, code, place))
}

/// The first entry from the place on that catches what is no Throwable.
fn refused_catch(
    case: &Case<'_, '_>,
    pool: &Pool<'_>,
    code: &Code<'_>,
    place: usize,
) -> Option<Finding> {
    let entries = code
        .table
        .iter()
        .filter(|entry| entry.start as usize == place);
    let mut caught = entries
        .map(|entry| entry.catch_type)
        .filter(|&index| index != 0);
    let refused = caught.find(|&index| {
        let name = pool.class_name(index);
        !name.map_or(false, |name| is_throwable(case.outline, name))
    })?;
    let text = format!(
        "a catch of {}, which jobs cannot catch",
        pool.shown(refused)
    );
    let cause = "an exception class that is neither in the bundle nor one of the built-in ones";
    Some(Finding::wrong(text).because(cause).in_table())
}

fn reference_fault(
    case: &Case<'_, '_>,
    class: &Class<'_>,
    index: u32,
    opcode: u8,
) -> Option<Finding> {
    let pool = &class.pool;
    if !is_wanted_kind(opcode, pool.get(index)) {
        let text = format!(
            "the instruction names {}, the wrong kind of thing",
            pool.shown(index)
        );
        return Some(Finding::wrong(text));
    }
    let member = pool.member(index);
    let named = match member {
        Some((named, _, _)) => named,
        None => pool.class_name(index)?,
    };
    if let Some(base) = base_class(named).filter(|base| !is_known(case.outline, base)) {
        let name = shown_text(base);
        return Some(Finding::wrong(format!(
            "class {} is neither in the bundle nor built in",
            name
        )));
    }
    match (opcode, named) {
        (0xbb, [b'[', ..]) => Some(Finding::wrong("`new` of an array")),
        (0xbd, [b'[', b'[', b'[', b'[', b'[', b'[', b'[', ..]) => {
            Some(Finding::wrong("an array over 7 deep").because("arrays of arrays, too deep"))
        }
        _ => member_fault(case, pool, index, opcode),
    }
}

fn is_wanted_kind(opcode: u8, constant: Constant<'_>) -> bool {
    match constant {
        Constant::Integer(_) => opcode == 0x12,
        Constant::Field(..) => matches!(opcode, 0xb4 | 0xb5),
        Constant::Method(..) => matches!(opcode, 0xb6..=0xb8),
        Constant::Class(_) => matches!(opcode, 0xbb | 0xbd | 0xc0 | 0xc1),
        _ => false,
    }
}

/// The class is known, so the member is missing or not used as what it is.
fn member_fault(case: &Case<'_, '_>, pool: &Pool<'_>, index: u32, opcode: u8) -> Option<Finding> {
    let (class, name, descriptor) = pool.member(index)?;
    let is_call = matches!(pool.get(index), Constant::Method(..));
    let is_constructor = name == b"<init>";
    if is_call && (opcode == 0xb7) != is_constructor {
        return Some(Finding::wrong(CONSTRUCTOR_CALLS).because(SUPER_CALL));
    }
    if is_built_in(class) && is_constructor && descriptor == b"()V" {
        return None;
    }
    // A constructor is not looked for above the class.
    let line = upward(case.outline, class);
    let searched = line
        .iter()
        .take(if is_constructor { 1 } else { line.len() });
    let mut members = searched.flat_map(|class| match is_call {
        true => class.methods.iter(),
        false => class.fields.iter(),
    });
    let same =
        |member: &&Member<'_>| member.name == Some(name) && member.descriptor == Some(descriptor);
    let shown = pool.shown(index);
    match members.find(same) {
        None => Some(Finding::wrong(format!("there is no {}", shown))),
        Some(found) if is_call && found.is_static() != (opcode == 0xb8) => Some(Finding::wrong(
            format!("{} is called as static, or the reverse", shown),
        )),
        Some(_) => None,
    }
}
