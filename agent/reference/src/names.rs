//! Names and descriptors as texts (JVMS 4.2 and 4.3, as the paper cuts them).

use crate::limits;

pub(crate) const CONSTRUCTOR: &[u8] = b"<init>";

/// A type as written: so many brackets, then a class name, or int.
#[derive(Clone, Copy, Debug, PartialEq, Eq)]
pub(crate) struct TypeText<'a> {
    pub depth: u8,
    pub class: Option<&'a [u8]>,
}

#[derive(Clone, Debug)]
pub(crate) struct MethodText<'a> {
    pub parameters: Vec<TypeText<'a>>,
    /// None is V.
    pub returns: Option<TypeText<'a>>,
}

/// A field's name, a method's other than `<init>`, or one part of a class's.
pub(crate) fn is_plain_name(text: &[u8]) -> bool {
    !text.is_empty() && !text.iter().any(|byte| b".;[/<>".contains(byte))
}

pub(crate) fn is_method_name(text: &[u8]) -> bool {
    text == CONSTRUCTOR || is_plain_name(text)
}

pub(crate) fn is_class_name(text: &[u8]) -> bool {
    text.split(|&byte| byte == b'/').all(is_plain_name)
}

/// What a Class entry names.
pub(crate) fn class_or_array(text: &[u8]) -> Option<TypeText<'_>> {
    if text.first() == Some(&b'[') {
        return field_type(text);
    }
    let class = TypeText {
        depth: 0,
        class: Some(text),
    };
    Some(class).filter(|_| is_class_name(text))
}

pub(crate) fn field_type(text: &[u8]) -> Option<TypeText<'_>> {
    let (found, rest) = leading_type(text)?;
    Some(found).filter(|_| rest.is_empty())
}

pub(crate) fn method_type(text: &[u8]) -> Option<MethodText<'_>> {
    let mut rest = text.strip_prefix(b"(")?;
    let mut parameters = Vec::new();
    while rest.first()? != &b')' {
        let (parameter, after) = leading_type(rest)?;
        parameters.push(parameter);
        rest = after;
    }
    let returned = rest.strip_prefix(b")")?;
    let returns = match returned {
        b"V" => None,
        _ => Some(field_type(returned)?),
    };
    Some(MethodText {
        parameters,
        returns,
    })
}

/// The type at the beginning of a text, and what follows it.
fn leading_type(text: &[u8]) -> Option<(TypeText<'_>, &[u8])> {
    let brackets = text.iter().take_while(|&&byte| byte == b'[').count();
    if brackets > usize::from(limits::ARRAY_DEPTH) {
        return None;
    }
    let depth = brackets as u8;
    let (kind, rest) = text.get(brackets..)?.split_first()?;
    match kind {
        b'I' => Some((TypeText { depth, class: None }, rest)),
        b'L' => {
            let length = rest.iter().position(|&byte| byte == b';')?;
            let class = rest.get(..length).filter(|name| is_class_name(name));
            class?;
            Some((TypeText { depth, class }, rest.get(length + 1..)?))
        }
        _ => None,
    }
}

#[cfg(test)]
mod tests {
    use super::*;

    #[test]
    fn class_names_are_plain_parts_joined_by_single_slashes() {
        for good in ["A", "a/b", "a b", "I", "V", "()", "a/b/c"] {
            assert!(is_class_name(good.as_bytes()), "{}", good);
        }
        for bad in ["", "/", "a/", "/a", "a//b", "a.b", "a;", "[I", "<a>"] {
            assert!(!is_class_name(bad.as_bytes()), "{}", bad);
        }
    }

    #[test]
    fn arrays_go_seven_deep() {
        assert!(field_type(b"[[[[[[[I").is_some());
        assert!(field_type(b"[[[[[[[[I").is_none());
        assert!(class_or_array(b"[[[[[[[La/b;").is_some());
        assert!(class_or_array(b"[a").is_none());
        assert!(class_or_array(b"[I;").is_none());
    }

    #[test]
    fn method_descriptors_end_with_their_result() {
        for good in ["()V", "(I)I", "(ILa/b;[[I)[La;", "()La;"] {
            assert!(method_type(good.as_bytes()).is_some(), "{}", good);
        }
        for bad in [
            "", "(", "()", "()VV", "(V)V", "(I", "(Z)V", "()[V", "I()V", "(L;)V",
        ] {
            assert!(method_type(bad.as_bytes()).is_none(), "{}", bad);
        }
    }
}
