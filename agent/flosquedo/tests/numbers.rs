//! `verify` and `run`: exact lines for tools.

mod common;

use common::{flosquedo, fresh_directory, sample_text, shown, written};
use flosquedo_outside::{rows, vectors};

#[test]
fn verify_prints_the_verdict_of_every_edge_and_example() {
    for (table, directory) in [
        ("edges-verify.tsv", "edges"),
        ("examples-verify.tsv", "examples"),
    ] {
        let rows = rows(table);
        let files: Vec<String> = rows
            .iter()
            .map(|row| shown(&vectors().join(directory).join(&row[0])))
            .collect();
        let expected: String = rows
            .iter()
            .zip(&files)
            .map(|(row, file)| format!("{}\t{}\n", file, row[1..].join("\t")))
            .collect();
        let answer = flosquedo([&["verify".to_string()][..], &files].concat());
        assert_eq!(answer.output, expected);
        assert_eq!((answer.errors.as_str(), answer.status), ("", 1));
    }
}

#[test]
fn run_prints_the_line_of_every_edge() {
    for row in rows("edges-run.tsv") {
        let file = shown(&vectors().join("edges").join(&row[0]));
        let mut words = vec!["run".to_string(), file];
        words.extend_from_slice(&row[1..5]);
        let arguments = row[5].split(',').filter(|word| !word.is_empty());
        words.extend(arguments.map(str::to_string));
        let answer = flosquedo(&words);
        let expected = format!("{}\n", row[6..].join("\t"));
        assert_eq!(answer.output, expected, "{:?}", row);
        assert_eq!(answer.status, i32::from(row[6] == "refused"));
    }
}

#[test]
fn verify_goes_on_after_a_missing_file() {
    let sample = sample_text();
    let answer = flosquedo(["verify", "no-such-file", &sample]);
    assert_eq!(answer.output, format!("{}\t0\t65535\t65535\t0\n", sample));
    assert!(answer.errors.contains("no-such-file"));
    assert_eq!(answer.status, 2);
}

#[test]
fn empty_and_huge_files_have_verdict_one() {
    let directory = fresh_directory("numbers-sizes");
    let empty = written(&directory, "empty", &[]);
    let huge = written(&directory, "huge", &vec![0xca; 70_000]);
    let answer = flosquedo(["verify", &empty]);
    assert_eq!(answer.output, format!("{}\t1\t65535\t65535\t0\n", empty));
    assert_eq!(answer.status, 1);
    let answer = flosquedo(["verify", &huge]);
    assert_eq!(answer.output, format!("{}\t1\t65535\t65535\t0\n", huge));
    assert!(answer.errors.contains("too large"));
    assert_eq!(answer.status, 2);
    let answer = flosquedo(["run", &huge, "0", "0", "1", "1"]);
    assert_eq!(answer.output, "refused\t21\t1\t65535\t65535\t0\n");
    assert_eq!(answer.status, 2);
    let answer = flosquedo(["run", &empty, "0", "0", "1", "1"]);
    assert_eq!(answer.output, "refused\t21\t1\t65535\t65535\t0\n");
    assert_eq!(answer.status, 1);
}

#[test]
fn run_prints_refusals_in_their_order() {
    let sample = sample_text();
    let line = |words: &[&str]| {
        let answer = flosquedo([&["run", &sample][..], words].concat());
        (answer.output, answer.status)
    };
    let refused = |number: u32| (format!("refused\t{}\n", number), 1);
    assert_eq!(line(&["1", "1", "1000001", "16384", "10"]), refused(20));
    assert_eq!(line(&["1", "1", "100", "16385", "10"]), refused(20));
    assert_eq!(line(&["1", "1", "100", "4294967295", "10"]), refused(20));
    assert_eq!(line(&["9", "1", "100", "100", "10"]), refused(22));
    assert_eq!(line(&["1", "0", "100", "100", "10"]), refused(22));
    assert_eq!(line(&["1", "1", "100", "100"]), refused(23));
    let out_of_steps = "steps\t0\t0\t0\tcbf29ce484222325\n".to_string();
    assert_eq!(line(&["1", "1", "0", "0", "-10"]), (out_of_steps, 0));
}

#[test]
fn bad_numbers_and_missing_words_are_told() {
    let sample = sample_text();
    for bad in ["x", "", "-1", "4294967296", "1.5"] {
        let answer = flosquedo(["run", &sample, bad, "0", "1", "1"]);
        assert!(answer.errors.contains("a number from 0"), "{}", bad);
        assert_eq!((answer.output.as_str(), answer.status), ("", 2));
    }
    let answer = flosquedo(["run", &sample, "1", "1", "100", "100", "2147483648"]);
    assert!(answer.errors.contains("an int"));
    assert_eq!(answer.status, 2);
    let answer = flosquedo(["run", &sample, "1"]);
    assert!(answer.errors.contains("run needs"));
    assert_eq!(answer.status, 2);
    assert_eq!(flosquedo(["verify"]).status, 2);
    assert_eq!(
        flosquedo(["run", "no-such-file", "0", "0", "1", "1"]).status,
        2
    );
    assert_eq!(flosquedo(["verify", &shown(&vectors())]).status, 2);
}
