//! Readings of the paper that the vectors leave untried.

mod common;

use common::builder::{numbers, Body, ClassBuilder, PUBLIC, PUBLIC_STATIC};
use flosquedo_reference::{run, verify, End, Verdict, UNNAMED};

const OBJECT: &str = "java/lang/Object";

fn verdict(number: u32, class: u32, method: u32, place: u32) -> Verdict {
    Verdict {
        number,
        class,
        method,
        place,
    }
}

fn empty_class(name: &str, parent: &str) -> Vec<u8> {
    ClassBuilder::new(name, parent).bytes()
}

/// A class with one static method.
fn static_method(descriptor: &str, body: Body<'_>) -> Vec<u8> {
    let mut class = ClassBuilder::new("A", OBJECT);
    class.method(PUBLIC_STATIC, "m", descriptor, body);
    class.bytes()
}

fn position_of(bytes: &[u8], part: &[u8]) -> u32 {
    let mut windows = bytes.windows(part.len());
    windows.position(|window| window == part).expect("a part") as u32
}

#[test]
fn a_place_can_be_just_past_the_largest_bundle() {
    let mut class = ClassBuilder::new("A", OBJECT);
    let name = class.text("x");
    class.attributes = numbers(&[2, name]);
    let length = 65_536 - class.bytes().len() - 4;
    class.attributes.extend((length as u32).to_be_bytes());
    class.attributes.resize(class.attributes.len() + length, 7);
    let bytes = class.bytes();
    assert_eq!(bytes.len(), 65_536);
    assert_eq!(verify(&bytes), verdict(2, UNNAMED, UNNAMED, 65_536));
    class.attributes.push(0);
    assert_eq!(verify(&class.bytes()), verdict(1, UNNAMED, UNNAMED, 0));
}

#[test]
fn parts_of_code_are_judged_before_its_length() {
    let mut class = ClassBuilder::new("A", OBJECT);
    class.raw_method(PUBLIC_STATIC, "m", "()V", &[0x00, 0x63]);
    let bytes = class.bytes();
    let content = position_of(&bytes, &[0, 0, 0, 2, 0x00, 0x63]) + 4;
    assert_eq!(verify(&bytes), verdict(4, UNNAMED, UNNAMED, content));
}

#[test]
fn largest_values_are_good() {
    let parameters = "I".repeat(16);
    for (locals, stack, expected) in [(32, 32, 0), (33, 32, 4), (32, 33, 4), (15, 32, 10)] {
        let body = Body {
            stack,
            locals,
            code: &[0xb1],
            ..Body::default()
        };
        let bytes = static_method(&format!("({})V", parameters), body);
        assert_eq!(verify(&bytes).number, expected);
    }
    for (entries, expected) in [(1_023, 0), (1_024, 4)] {
        let mut class = ClassBuilder::new("A", OBJECT);
        for number in 4..entries {
            class.text(&format!("text {}", number));
        }
        let bytes = class.bytes();
        assert_eq!(verify(&bytes).number, expected);
        assert!(expected == 0 || verify(&bytes).place == 8);
    }
}

#[test]
fn the_second_of_two_equal_classes_is_refused_before_any_super() {
    let mut bytes = empty_class("A", "");
    let mut starts = Vec::new();
    for name in ["B", "B", "A"] {
        starts.push(bytes.len() as u32);
        bytes.extend(empty_class(name, OBJECT));
    }
    assert_eq!(verify(&bytes), verdict(8, 2, UNNAMED, starts[1]));
    let built_in = empty_class("java/lang/Exception", OBJECT);
    assert_eq!(verify(&built_in), verdict(8, 0, UNNAMED, 0));
}

#[test]
fn a_chain_into_a_cycle_misses_object() {
    let mut bytes = empty_class("A", "B");
    bytes.extend(empty_class("B", "C"));
    bytes.extend(empty_class("C", "B"));
    assert_eq!(verify(&bytes), verdict(9, 0, UNNAMED, 0));
}

#[test]
fn members_are_linked_one_by_one() {
    let mut class = ClassBuilder::new("A", OBJECT);
    class.field("x", "I");
    class.field("y", "LNo;");
    class.field("x", "I");
    let bytes = class.bytes();
    let (name, kind) = (class.text("y"), class.text("LNo;"));
    let second = position_of(&bytes, &numbers(&[PUBLIC, name, kind]));
    assert_eq!(verify(&bytes), verdict(9, 0, UNNAMED, second));
}

#[test]
fn arrays_of_seven_deep_classes_cannot_be_made() {
    for (name, expected) in [("[[[[[[I", 0), ("[[[[[[[I", 13)] {
        let mut class = ClassBuilder::new("A", OBJECT);
        let [high, low] = class.class(name).to_be_bytes();
        let body = Body {
            stack: 1,
            code: &[0x03, 0xbd, high, low, 0x57, 0xb1],
            ..Body::default()
        };
        class.method(PUBLIC_STATIC, "m", "()V", body);
        assert_eq!(verify(&class.bytes()).number, expected, "{}", name);
    }
}

#[test]
fn a_flag_can_stand_on_the_stack_alone() {
    let mut class = ClassBuilder::new("A", OBJECT);
    let [high, low] = class.method_reference(OBJECT, "<init>", "()V");
    let body = Body {
        stack: 2,
        locals: 1,
        code: &[0x2a, 0x01, 0x4b, 0xa7, 0, 3, 0xb7, high, low, 0xb1],
        frames: Some(&[0, 1, 255, 0, 6, 0, 0, 0, 1, 6]),
        ..Body::default()
    };
    class.method(PUBLIC, "<init>", "()V", body);
    assert_eq!(verify(&class.bytes()), Verdict::ACCEPTED);
}

#[test]
fn an_object_must_fit_the_class_that_a_field_reference_names() {
    let mut upper = ClassBuilder::new("A", OBJECT);
    upper.field("x", "I");
    for (given, expected) in [("LA;", 16), ("LB;", 0)] {
        let mut lower = ClassBuilder::new("B", "A");
        let [high, low] = lower.field_reference("B", "x", "I");
        let body = Body {
            stack: 1,
            locals: 1,
            code: &[0x2a, 0xb4, high, low, 0xac],
            ..Body::default()
        };
        lower.method(PUBLIC_STATIC, "m", &format!("({})I", given), body);
        let answer = verify(&[upper.bytes(), lower.bytes()].concat());
        assert_eq!(answer.number, expected);
        assert!(expected == 0 || answer == verdict(16, 1, 0, 1));
    }
}

#[test]
fn after_the_super_constructor_this_is_of_the_own_class() {
    let mut class = ClassBuilder::new("A", OBJECT);
    class.field("x", "I");
    let [high, low] = class.method_reference(OBJECT, "<init>", "()V");
    let [field_high, field_low] = class.field_reference("A", "x", "I");
    let body = Body {
        stack: 2,
        locals: 1,
        code: &[
            0x2a, 0xb7, high, low, 0x2a, 0x04, 0xb5, field_high, field_low, 0xb1,
        ],
        ..Body::default()
    };
    class.method(PUBLIC, "<init>", "()V", body);
    assert_eq!(verify(&class.bytes()), Verdict::ACCEPTED);
}

/// Stores an array of int, or of arrays of int, in an array of `element`.
fn store_array(element: &str, value: &str) -> (u32, u32) {
    let mut class = ClassBuilder::new("A", OBJECT);
    let [high, low] = class.class(element).to_be_bytes();
    let [value_high, value_low] = class.class(value).to_be_bytes();
    let [object_high, object_low] = class.class("[Ljava/lang/Object;").to_be_bytes();
    let body = Body {
        stack: 3,
        code: &[
            0x04,
            0xbd,
            high,
            low,
            0xc0,
            object_high,
            object_low,
            0x03,
            0x03,
            0xbd,
            value_high,
            value_low,
            0x53,
            0xb1,
        ],
        ..Body::default()
    };
    class.method(PUBLIC_STATIC, "m", "()V", body);
    let bytes = class.bytes();
    assert_eq!(verify(&bytes), Verdict::ACCEPTED);
    let outcome = run(&bytes, &mut [0; 64], 0, 0, &[], 99);
    (outcome.end, outcome.value)
}

#[test]
fn stored_elements_fit_by_their_run_time_type() {
    let returned = (End::Returned as u32, 0);
    let array_store = (End::Uncaught as u32, 5);
    assert_eq!(store_array(OBJECT, "[I"), returned);
    assert_eq!(store_array("[[I", "[I"), returned);
    assert_eq!(store_array("[Ljava/lang/Object;", "[I"), returned);
    assert_eq!(store_array("[[Ljava/lang/Object;", "[I"), array_store);
    assert_eq!(store_array("[I", "[I"), array_store);
}
