//! What a bundle shows about its own refusal.

mod code;
mod linked;
mod reading;

use super::place::item_of;
use super::{Case, Finding};

pub fn find(case: &Case<'_, '_>) -> Option<Finding> {
    match case.verdict.number {
        1 => Some(reading::size(case)),
        2..=7 => reading::reading(case, item_of(case)?),
        8 | 9 => linked::linked(case, case.outline.class(case.verdict.class)?),
        10..=18 => {
            let class = case.outline.class(case.verdict.class)?;
            let method = case
                .outline
                .method(case.verdict.class, case.verdict.method)?;
            code::in_method(case, class, method)
        }
        _ => None,
    }
}
