//! Which classes and members a bundle knows.

use crate::outline::{Class, Member, Outline};

/// By number.
pub const BUILT_IN_CLASSES: [&str; 11] = [
    "java/lang/Object",
    "java/lang/Throwable",
    "java/lang/Exception",
    "java/lang/RuntimeException",
    "java/lang/ArithmeticException",
    "java/lang/ArrayStoreException",
    "java/lang/ClassCastException",
    "java/lang/IndexOutOfBoundsException",
    "java/lang/ArrayIndexOutOfBoundsException",
    "java/lang/NegativeArraySizeException",
    "java/lang/NullPointerException",
];

pub fn is_built_in(name: &[u8]) -> bool {
    BUILT_IN_CLASSES
        .iter()
        .any(|built_in| built_in.as_bytes() == name)
}

pub fn is_known(outline: &Outline<'_>, name: &[u8]) -> bool {
    is_built_in(name) || outline.class_named(name).is_some()
}

/// The member that begins at a byte of the bundle.
pub fn member_at<'m, 'a>(
    class: &'m Class<'a>,
    place: usize,
) -> Option<(&'static str, &'m Member<'a>)> {
    let fields = class.fields.iter().map(|field| ("field", field));
    let methods = class.methods.iter().map(|method| ("method", method));
    fields
        .chain(methods)
        .find(|(_, member)| member.start == place)
}

/// The class a type text ends in, without brackets; None for int and the like.
pub fn base_class(text: &[u8]) -> Option<&[u8]> {
    let brackets = text.iter().take_while(|&&byte| byte == b'[').count();
    let base = text.get(brackets..)?;
    if brackets == 0 {
        return Some(base);
    }
    base.strip_prefix(b"L")?.strip_suffix(b";")
}

/// Every class name in a descriptor.
pub fn classes_in(descriptor: &[u8]) -> Vec<&[u8]> {
    let mut found = Vec::new();
    let mut rest = descriptor;
    while let Some(start) = rest.iter().position(|&byte| byte == b'L') {
        rest = rest.get(start + 1..).unwrap_or(&[]);
        let length = rest
            .iter()
            .position(|&byte| byte == b';')
            .unwrap_or(rest.len());
        found.extend(rest.get(..length));
        rest = rest.get(length..).unwrap_or(&[]);
    }
    found
}

/// How many parameters a method's descriptor has.
pub fn parameter_count(descriptor: &[u8]) -> usize {
    let end = descriptor
        .iter()
        .position(|&byte| byte == b')')
        .unwrap_or(0);
    let mut rest = descriptor.get(1..end).unwrap_or(&[]);
    let mut count = 0;
    while let Some((kind, after)) = rest.split_first() {
        count += usize::from(*kind != b'[');
        let name_length = after
            .iter()
            .position(|&byte| byte == b';')
            .map_or(after.len(), |at| at + 1);
        rest = match kind {
            b'L' => after.get(name_length..).unwrap_or(&[]),
            _ => after,
        };
    }
    count
}

/// The class and those above it that the bundle holds; a circle ends it.
pub fn upward<'o, 'a>(outline: &'o Outline<'a>, name: &[u8]) -> Vec<&'o Class<'a>> {
    let mut line: Vec<&Class<'a>> = Vec::new();
    let mut next = outline.class_named(name);
    while let Some(class) = next {
        if line.len() > outline.classes.len() {
            break;
        }
        line.push(class);
        next = class.parent.and_then(|parent| outline.class_named(parent));
    }
    line
}

/// A built-in class other than Object, or a class whose line leads to one.
pub fn is_throwable(outline: &Outline<'_>, name: &[u8]) -> bool {
    let top = upward(outline, name).last().and_then(|class| class.parent);
    let top = top.unwrap_or(name);
    is_built_in(top) && top != b"java/lang/Object"
}

#[cfg(test)]
mod tests {
    use super::*;

    #[test]
    fn parameters_are_counted_by_their_ends() {
        for (descriptor, count) in [
            ("()V", 0),
            ("(I[[ILa/b;)V", 3),
            ("([La;)I", 1),
            ("(I", 0),
            ("", 0),
            ("(La)V", 1),
        ] {
            assert_eq!(
                parameter_count(descriptor.as_bytes()),
                count,
                "{}",
                descriptor
            );
        }
    }

    #[test]
    fn classes_of_a_descriptor_are_found() {
        let found = classes_in(b"(ILa/b;[LL;)Lc");
        assert_eq!(found, [&b"a/b"[..], b"L", b"c"]);
    }

    #[test]
    fn only_built_in_exceptions_are_throwable_without_a_bundle() {
        let outline = Outline::default();
        assert!(is_throwable(&outline, b"java/lang/Throwable"));
        assert!(!is_throwable(&outline, b"java/lang/Object"));
        assert!(!is_throwable(&outline, b"java/lang/Error"));
    }
}
