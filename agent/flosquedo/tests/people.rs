//! `check`, `job`, `bundle` and the help: words for people.

mod common;

use common::{
    agent, flosquedo, fresh_directory, sample, sample_classes, sample_text, shown, written,
};
use flosquedo_outside::vectors;
use std::fs;

fn edge(name: &str) -> String {
    shown(&vectors().join("edges").join(name))
}

#[test]
fn check_accepts_the_sample_as_bundle_files_and_directory() {
    let directory = fresh_directory("people-good");
    let (inner, outer) = sample_classes();
    let inner = written(&directory, "Invoices$Invoice.class", &inner);
    let outer = written(&directory, "Invoices.class", &outer);
    let calls = [
        vec![sample_text()],
        vec![outer, inner],
        vec![shown(&directory)],
    ];
    for paths in calls {
        let answer = flosquedo([&["check".to_string()][..], &paths].concat());
        assert!(
            answer
                .output
                .ends_with("accepted (2 classes, 1491 bytes)\n"),
            "{}",
            answer.output
        );
        assert_eq!((answer.errors.as_str(), answer.status), ("", 0));
    }
}

#[test]
fn check_names_class_method_and_instruction() {
    let answer = flosquedo(["check", &edge("M3-super-object")]);
    let place = "class A, method named()I, code offset 7: getfield #16 (field B.x I)";
    assert!(answer.output.contains(place), "{}", answer.output);
    assert_eq!(answer.status, 1);
}

#[test]
fn the_refused_sample_reads_as_the_readme_shows() {
    let answer = flosquedo(["check", &shown(&agent().join("samples/Refused.bundle"))]);
    let lines: Vec<&str> = answer.output.lines().collect();
    assert!(lines[0].ends_with("refused: an instruction that jobs do not have: dup2"));
    let place = "  where:    class Refused, method run(I)I, source line 5, code offset 6: dup2";
    assert_eq!(lines[1], place);
    assert!(lines[2].starts_with("  rule:     code uses only the listed instructions"));
    assert!(lines[3].contains("write `a[i] = a[i] + 1`"));
    assert_eq!(
        lines[4],
        "  numbers:  verdict 11, class 0, method 1, place 6"
    );
    assert_eq!(answer.status, 1);
}

#[test]
fn check_says_what_stands_at_a_byte() {
    let answer = flosquedo(["check", &edge("A13-major")]);
    assert!(answer.output.contains("class file version 53 (Java 9)"));
    assert!(answer.output.contains("byte 6, in class A: the version 53"));
    assert_eq!(answer.status, 1);
}

#[test]
fn check_gives_the_offset_in_the_class_file() {
    let directory = fresh_directory("people-second");
    let (inner, mut outer) = sample_classes();
    written(&directory, "A.class", &inner);
    outer[7] = 61;
    let second = written(&directory, "B.class", &outer);
    let answer = flosquedo(["check", &shown(&directory)]);
    let expected = format!("byte 6 of {}, in class Invoices", second);
    assert!(answer.output.contains(&expected), "{}", answer.output);
    assert!(answer.output.contains("(Java 17)"));
}

#[test]
fn a_missing_class_is_named() {
    let directory = fresh_directory("people-missing-class");
    let (_, outer) = sample_classes();
    let outer = written(&directory, "Invoices.class", &outer);
    let answer = flosquedo(["check", &outer]);
    assert!(
        answer
            .output
            .contains("class Invoices$Invoice, which is not in the bundle"),
        "{}",
        answer.output
    );
    assert_eq!(answer.status, 1);
}

#[test]
fn files_that_cannot_be_used_are_told() {
    let directory = fresh_directory("people-unusable");
    let empty = written(&directory, "empty", &[]);
    let huge = written(&directory, "huge", &vec![1; 70_000]);
    let huge_class = written(&directory, "huge.class", &vec![1; 70_000]);
    let bare = shown(&fresh_directory("people-bare"));
    let missing = "no-such-file".to_string();
    for (path, words, status) in [
        (&empty, "the bundle is empty", 1),
        (&huge, "too large", 2),
        (&huge_class, "too large", 2),
        (&bare, "holds no .class files", 2),
        (&missing, "no-such-file", 2),
    ] {
        for command in [&["check"][..], &["job"][..]] {
            let end: &[&str] = if command == ["job"] { &["A.b"] } else { &[] };
            let answer = flosquedo([command, &[path.as_str()], end].concat());
            let all = answer.output.clone() + &answer.errors;
            assert!(all.contains(words), "{} {}: {}", command[0], path, all);
            assert_eq!(answer.status, status, "{} {}", command[0], path);
        }
    }
    assert_eq!(flosquedo(["check"]).status, 2);
}

#[test]
fn one_refused_path_does_not_hide_the_others() {
    let answer = flosquedo(["check", &edge("A13-major"), "no-such-file", &sample_text()]);
    assert!(answer.output.contains("refused") && answer.output.contains("accepted"));
    assert!(answer.errors.contains("no-such-file"));
    assert_eq!(answer.status, 2);
}

#[test]
fn the_sample_job_is_run_by_name() {
    let answer = flosquedo(["job", &sample_text(), "Invoices.run", "10"]);
    assert!(
        answer.output.contains("Invoices.run(10) returned 92535\n"),
        "{}",
        answer.output
    );
    assert!(answer
        .output
        .contains("used 848 of 1,000,000 steps and 102 of 16,384 heap cells"));
    assert_eq!((answer.errors.as_str(), answer.status), ("", 0));
    let answer = flosquedo(["job", &sample_text(), "Invoices.failures", "10"]);
    assert!(answer.output.contains("returned 3\n"));
}

#[test]
fn a_job_that_does_not_return_is_told_in_words() {
    let answer = flosquedo(["job", &sample_text(), "Invoices.run", "-1"]);
    assert!(answer
        .output
        .contains("threw java.lang.NegativeArraySizeException"));
    assert_eq!(answer.status, 1);
    let answer = flosquedo(["job", &sample_text(), "Invoices.run", "20000"]);
    assert!(answer.output.contains("does not fit the heap"));
    assert_eq!(answer.status, 1);
    let bank = shown(&vectors().join("jobs/bundles/Bank.r8.bundle"));
    let answer = flosquedo(["job", &bank, "Bank.overdraw", "10", "11"]);
    assert!(answer
        .output
        .contains("threw TooMuch, and nothing caught it"));
    assert_eq!(answer.status, 1);
}

#[test]
fn a_job_that_cannot_be_started_says_what_can() {
    let sample = sample_text();
    for (words, message) in [
        (
            &["Invoices.walk"][..],
            "there is no static method Invoices.walk",
        ),
        (&["Invoices.run"][..], "does not take 0 argument(s)"),
        (
            &["Invoices.total"][..],
            "there is no static method Invoices.total",
        ),
        (&["run"][..], "there is no static method run"),
    ] {
        let answer = flosquedo([&["job", &sample][..], words].concat());
        assert!(answer.errors.contains(message), "{}", answer.errors);
        assert!(answer.errors.contains("Invoices.run with 1 argument(s)"));
        assert_eq!(answer.status, 2);
    }
    let answer = flosquedo(["job", &sample, "Invoices.run", "ten"]);
    assert!(answer.errors.contains("'ten' cannot be an argument"));
    assert_eq!(answer.status, 2);
    assert_eq!(flosquedo(["job", &sample]).status, 2);
    assert_eq!(flosquedo(["job", &edge("A13-major"), "A.m"]).status, 1);
}

#[test]
fn bundle_writes_sorted_class_files() {
    let directory = fresh_directory("people-bundle");
    let classes = directory.join("classes/deeper");
    fs::create_dir_all(&classes).unwrap();
    let (inner, outer) = sample_classes();
    written(&classes, "Invoices.class", &outer);
    written(&classes, "Invoices$Invoice.class", &inner);
    written(&classes, "notes.txt", b"not a class");
    let out = shown(&directory.join("out.bundle"));
    let answer = flosquedo(["bundle", &shown(&directory.join("classes")), &out]);
    assert!(answer.output.contains("2 class file(s), 1491 bytes"));
    assert_eq!(answer.status, 0);
    assert_eq!(fs::read(&out).unwrap(), fs::read(sample()).unwrap());
}

#[test]
fn bundle_writes_nothing_over_the_limits() {
    let directory = fresh_directory("people-bundle-limits");
    let out = directory.join("out.bundle");
    let many = fresh_directory("people-bundle-many");
    let large = fresh_directory("people-bundle-large");
    for number in 0..17 {
        written(&many, &format!("C{}.class", number), &[1]);
    }
    written(&large, "A.class", &vec![1; 40_000]);
    written(&large, "B.class", &vec![1; 40_000]);
    for (from, words) in [(&many, "17 class files"), (&large, "over 65,536 bytes")] {
        let answer = flosquedo(["bundle", &shown(from), &shown(&out)]);
        assert!(answer.errors.contains(words), "{}", answer.errors);
        assert_eq!(answer.status, 2);
        assert!(!out.exists());
    }
    assert_eq!(
        flosquedo(["bundle", "no-such-directory", &shown(&out)]).status,
        2
    );
    assert_eq!(flosquedo(["bundle", &shown(&large)]).status, 2);
    let class = written(&directory, "A.class", &[1]);
    assert_eq!(flosquedo(["bundle", &shown(&directory), &class]).status, 2);
    let unwritable = shown(&directory.join("no/such/place"));
    assert_eq!(
        flosquedo(["bundle", &shown(&directory), &unwritable]).status,
        2
    );
}

#[test]
fn help_stands_on_standard_output() {
    let answer = flosquedo(["--help"]);
    for command in ["check", "job", "bundle", "verify", "run"] {
        assert!(answer.output.contains(command));
        let own = flosquedo([command, "--help"]);
        assert!(own.output.starts_with(&format!("flosquedo {}", command)));
        assert_eq!((own.errors.as_str(), own.status), ("", 0));
    }
    assert_eq!((answer.errors.as_str(), answer.status), ("", 0));
    let none: [&str; 0] = [];
    assert_eq!(flosquedo(none).status, 2);
    assert!(flosquedo(["walk"]).errors.contains("no command 'walk'"));
}
