//! A bundle made ready to run: methods by number, virtual calls by table.

use std::collections::BTreeMap;

use crate::hierarchy::bundle_index;
use crate::instruction::Instruction;
use crate::link::{Program, Signature};
use crate::shape::{Handler, Shaped};

/// No method answers to the selector there.
const NO_METHOD: u16 = u16::MAX;

pub(crate) struct Prepared<'p> {
    pub methods: Vec<PreparedMethod<'p>>,
    /// Cells after the header, by class number.
    field_counts: Vec<usize>,
    selector_count: usize,
    /// Class number times selector count plus selector.
    dispatch: Vec<u16>,
}

pub(crate) struct PreparedMethod<'p> {
    pub code: &'p [Instruction],
    pub handlers: &'p [Handler],
    pub max_stack: usize,
    pub max_locals: usize,
    pub signature: &'p Signature,
    /// The same for all methods of equal name and descriptor.
    selector: u16,
}

impl<'p> Prepared<'p> {
    pub fn new(program: &'p Program<'_>, shaped: &'p Shaped<'_>) -> Prepared<'p> {
        let mut selectors: BTreeMap<(&[u8], &[u8]), u16> = BTreeMap::new();
        let pairs = program.methods.iter().zip(&shaped.bodies);
        let methods = pairs.map(|(method, body)| {
            let next = selectors.len() as u16;
            let key = (method.name, method.descriptor);
            PreparedMethod {
                code: &body.instructions,
                handlers: &body.handlers,
                max_stack: body.max_stack,
                max_locals: body.max_locals,
                signature: &method.signature,
                selector: *selectors.entry(key).or_insert(next),
            }
        });
        let methods: Vec<PreparedMethod<'p>> = methods.collect();
        let classes = 0..program.hierarchy.class_count() as u8;
        let field_counts = classes.map(|class| program.field_count(class)).collect();
        let dispatch = build_dispatch(program, &methods, selectors.len());
        Prepared {
            methods,
            field_counts,
            selector_count: selectors.len(),
            dispatch,
        }
    }

    pub fn method(&self, number: u16) -> Option<&PreparedMethod<'p>> {
        self.methods.get(usize::from(number))
    }

    pub fn field_count(&self, class: u8) -> usize {
        let count = self.field_counts.get(usize::from(class));
        count.copied().unwrap_or(0)
    }

    /// The method that an object of `class` runs for a call of `named`.
    pub fn select(&self, named: u16, class: u8) -> Option<u16> {
        let selector = self.method(named)?.selector;
        let index = usize::from(class) * self.selector_count + usize::from(selector);
        let found = self.dispatch.get(index).copied();
        found.filter(|&method| method != NO_METHOD)
    }
}

/// Each class's row begins as its parent's and is overwritten by its own methods.
fn build_dispatch(
    program: &Program<'_>,
    methods: &[PreparedMethod<'_>],
    selector_count: usize,
) -> Vec<u16> {
    let class_count = program.hierarchy.class_count();
    let mut table = Vec::with_capacity(class_count * selector_count);
    for class in 0..class_count as u8 {
        let mut row = vec![NO_METHOD; selector_count];
        let line: Vec<u8> = program.hierarchy.upward(class).collect();
        for above in line.into_iter().rev().filter_map(bundle_index) {
            let own = program.classes.get(above);
            let own = own.map_or(0..0, |c| c.first_method..c.first_method + c.method_count);
            for number in own {
                let selector = methods.get(number).map(|method| method.selector);
                if let Some(entry) = selector.and_then(|s| row.get_mut(usize::from(s))) {
                    *entry = number as u16;
                }
            }
        }
        table.extend(row);
    }
    table
}
