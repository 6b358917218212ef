//! Faults between classes: verdicts 8 and 9.

use crate::explain::linking::{classes_in, is_built_in, is_known, member_at};
use crate::explain::{Case, Finding};
use crate::outline::{shown_text, Class};

pub fn linked(case: &Case<'_, '_>, class: &Class<'_>) -> Option<Finding> {
    let member = member_at(class, case.place());
    match (case.verdict.number, member) {
        (8, Some((kind, member))) => Some(Finding::wrong(format!(
            "the {} {} stands twice in its class",
            kind,
            member.shown()
        ))),
        (8, None) if is_built_in(class.name?) => Some(
            Finding::wrong(format!("class {} is built in", class.shown()?))
                .because("a library class was packaged"),
        ),
        (8, None) => Some(Finding::wrong(format!(
            "class {} stands twice",
            class.shown()?
        ))),
        (_, None) => super_class(case, class),
        (_, Some((kind, member))) => Some(linked_member(case, kind, member.descriptor?)),
    }
}

fn linked_member(case: &Case<'_, '_>, kind: &str, descriptor: &[u8]) -> Finding {
    let mut named = classes_in(descriptor).into_iter();
    if let Some(name) = named.find(|name| !is_known(case.outline, name)) {
        let name = shown_text(name);
        return Finding::wrong(format!(
            "the {} names class {}, which is not in the bundle",
            kind, name
        ));
    }
    Finding::wrong("the method is static here and not above, or the reverse").because(
        "a static method with the name and parameters of one above that is not, or the reverse",
    )
}

fn super_class(case: &Case<'_, '_>, class: &Class<'_>) -> Option<Finding> {
    let parent = match class.parent {
        Some(parent) => parent,
        None => {
            return Some(
                Finding::wrong("the class has no super class")
                    .because("a damaged file, or java/lang/Object itself"),
            )
        }
    };
    let text = match is_known(case.outline, parent) {
        true => format!("the super class {} leads in a circle", shown_text(parent)),
        false => format!(
            "the super class {} is not in the bundle",
            shown_text(parent)
        ),
    };
    Some(Finding::wrong(text))
}
