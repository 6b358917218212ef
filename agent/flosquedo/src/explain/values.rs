//! Values of the layout in words: versions, access flags, largest values.

use crate::outline::{Owner, What};

/// The Java release that a class file's version belongs to.
pub fn java_release(major: u32) -> Option<String> {
    match major {
        45..=48 => Some(format!("Java 1.{}", major - 44)),
        49..=100 => Some(format!("Java {}", major - 44)),
        _ => None,
    }
}

const SHARED_FLAGS: [(u32, &str); 5] = [
    (0x0001, "public"),
    (0x0002, "private"),
    (0x0004, "protected"),
    (0x0008, "static"),
    (0x0010, "final"),
];
const CLASS_FLAGS: [(u32, &str); 6] = [
    (0x0020, "super"),
    (0x0200, "interface"),
    (0x0400, "abstract"),
    (0x1000, "synthetic"),
    (0x2000, "annotation"),
    (0x4000, "enum"),
];
const FIELD_FLAGS: [(u32, &str); 4] = [
    (0x0040, "volatile"),
    (0x0080, "transient"),
    (0x1000, "synthetic"),
    (0x4000, "enum"),
];
const METHOD_FLAGS: [(u32, &str); 7] = [
    (0x0020, "synchronized"),
    (0x0040, "bridge"),
    (0x0080, "varargs"),
    (0x0100, "native"),
    (0x0400, "abstract"),
    (0x0800, "strictfp"),
    (0x1000, "synthetic"),
];

/// Access flags as the words of the source.
pub fn flags(access: u32, owner: Owner) -> String {
    let own: &[(u32, &str)] = match owner {
        Owner::Class => &CLASS_FLAGS,
        Owner::Field(_) => &FIELD_FLAGS,
        Owner::Method(_) => &METHOD_FLAGS,
    };
    let all = SHARED_FLAGS.iter().chain(own);
    let set: Vec<&str> = all
        .filter(|(bit, _)| access & bit != 0)
        .map(|(_, name)| *name)
        .collect();
    match set.is_empty() {
        true => "no flags (package access)".to_string(),
        false => set.join(" "),
    }
}

/// The largest value of a number of the layout.
pub fn largest(what: What) -> Option<u32> {
    match what {
        What::PoolCount => Some(1_024),
        What::FieldCount | What::MaxStack | What::MaxLocals | What::TableCount => Some(32),
        What::MethodCount => Some(64),
        What::CodeLength => Some(4_096),
        _ => None,
    }
}
