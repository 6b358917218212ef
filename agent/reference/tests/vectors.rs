//! Every vector: edges, the paper's examples, and the jobs.

use flosquedo_outside::{arguments, bundle, fnv1a64, names_in, number, rows, signed};
use flosquedo_reference::{limits, run, verify, End, Outcome, Verdict};

/// What unused cells must still hold after a run.
const UNTOUCHED: u32 = 0xdead_beef;

fn expected_verdict(row: &[String]) -> Verdict {
    Verdict {
        number: number(&row[1]),
        class: number(&row[2]),
        method: number(&row[3]),
        place: number(&row[4]),
    }
}

fn check_verdicts(table: &str, directory: &str, expected_rows: usize) {
    let rows = rows(table);
    assert_eq!(rows.len(), expected_rows);
    for row in &rows {
        let bytes = bundle(&format!("{}/{}", directory, row[0]));
        assert_eq!(verify(&bytes), expected_verdict(row), "{}", row[0]);
    }
}

fn end_number(name: &str) -> u32 {
    let end = match name {
        "returned" => End::Returned,
        "uncaught" => End::Uncaught,
        "steps" => End::OutOfSteps,
        "heap" => End::HeapFull,
        "depth" => End::DepthFull,
        "stuck" => End::Stuck,
        _ => panic!("{:?}", name),
    };
    end as u32
}

fn ended(end: End, value: i32, count: u32, used: u32) -> Outcome {
    Outcome {
        refusal: 0,
        verdict: Verdict::ZEROS,
        end: end as u32,
        value: value as u32,
        count,
        used,
    }
}

fn refused(number: u32) -> Outcome {
    Outcome {
        refusal: number,
        verdict: Verdict::ZEROS,
        end: 0,
        value: 0,
        count: 0,
        used: 0,
    }
}

#[test]
fn edges_verify() {
    check_verdicts("edges-verify.tsv", "edges", 81);
}

#[test]
fn examples_verify() {
    check_verdicts("examples-verify.tsv", "examples", 11);
}

#[test]
fn edges_run() {
    let rows = rows("edges-run.tsv");
    assert_eq!(rows.len(), 32);
    for row in &rows {
        check_edge_run(row);
    }
}

fn check_edge_run(row: &[String]) {
    let bytes = bundle(&format!("edges/{}", row[0]));
    let (class, method, budget) = (number(&row[1]), number(&row[2]), number(&row[3]));
    let mut heap = vec![UNTOUCHED; number(&row[4]) as usize];
    let outcome = run(
        &bytes,
        &mut heap,
        class,
        method,
        &arguments(&row[5]),
        budget,
    );
    if row[6] == "refused" {
        assert_eq!(outcome, refused(number(&row[7])), "{}", row[0]);
        assert!(heap.iter().all(|&cell| cell == UNTOUCHED), "{}", row[0]);
        return;
    }
    let expected = Outcome {
        end: end_number(&row[6]),
        value: signed(&row[7]),
        count: number(&row[8]),
        used: number(&row[9]),
        ..refused(0)
    };
    assert_eq!(outcome, expected, "{}", row[0]);
    let (used, unused) = heap.split_at(outcome.used as usize);
    assert_eq!(
        format!(
            "{:016x}",
            fnv1a64(used.iter().flat_map(|cell| cell.to_le_bytes()))
        ),
        row[10],
        "{}",
        row[0]
    );
    assert!(unused.iter().all(|&cell| cell == UNTOUCHED), "{}", row[0]);
}

#[test]
fn examples_run_as_printed() {
    let run_example = |name: &str, heap: usize, arguments: &[i32], budget| {
        let bytes = bundle(&format!("examples/{}.bundle", name));
        let arguments: Vec<u32> = arguments.iter().map(|&value| value as u32).collect();
        run(&bytes, &mut vec![0; heap], 0, 0, &arguments, budget)
    };
    let returned = |value, count| ended(End::Returned, value, count, 0);
    assert_eq!(run_example("ex01", 0, &[], 1_000), returned(0, 2));
    let out_of_steps = |count| ended(End::OutOfSteps, 0, count, 0);
    assert_eq!(run_example("ex01", 0, &[], 1), out_of_steps(1));
    assert_eq!(run_example("ex06b", 0, &[], 1_000), out_of_steps(1_000));
    assert_eq!(run_example("ex07", 0, &[0], 1_000), returned(2, 4));
    assert_eq!(run_example("ex07", 0, &[5], 1_000), returned(1, 4));
    assert_eq!(run_example("ex11", 0, &[7, -2], 1_000), returned(-3, 4));
    let least = i32::MIN;
    assert_eq!(
        run_example("ex11", 0, &[least, -1], 1_000),
        returned(least, 4)
    );
    let uncaught = ended(End::Uncaught, 4, 3, 4);
    assert_eq!(run_example("ex11", 4, &[1, 0], 1_000), uncaught);
    let heap_full = ended(End::HeapFull, 0, 2, 0);
    assert_eq!(run_example("ex11", 3, &[1, 0], 1_000), heap_full);
}

#[test]
fn all_jobs_are_accepted() {
    let names = names_in("jobs/bundles");
    assert_eq!(names.len(), 72);
    for name in &names {
        assert_eq!(verify(&bundle(name)), Verdict::ACCEPTED, "{}", name);
    }
}

#[test]
fn all_jobs_run_as_on_the_real_machine() {
    let rows = rows("jobs-run.tsv");
    assert_eq!(rows.len(), 675);
    let mut heap = vec![UNTOUCHED; limits::HEAP_CELLS];
    for row in &rows {
        let bytes = bundle(&format!("jobs/bundles/{}", row[0]));
        heap.fill(UNTOUCHED);
        let (class, method) = (number(&row[1]), number(&row[2]));
        let given = arguments(&row[3]);
        let outcome = run(&bytes, &mut heap, class, method, &given, limits::BUDGET);
        let value = match row[5].as_str() {
            "?" => outcome.value,
            text => signed(text),
        };
        let expected = Outcome {
            end: end_number(&row[4]),
            value,
            count: number(&row[6]),
            used: number(&row[7]),
            ..refused(0)
        };
        assert_eq!(outcome, expected, "{:?}", row);
        let mut unused = heap.iter().skip(outcome.used as usize);
        assert!(unused.all(|&cell| cell == UNTOUCHED), "{:?}", row);
    }
}

#[test]
fn refusals_come_in_order_and_leave_the_heap() {
    let example = bundle("examples/ex07.bundle");
    let refused_verdict = bundle("examples/ex02.bundle");
    let one_too_many = limits::HEAP_CELLS + 1;
    let answer = |bytes: &[u8], cells: usize, entry: (u32, u32), given: &[u32], budget| {
        let mut heap = vec![UNTOUCHED; cells];
        let outcome = run(bytes, &mut heap, entry.0, entry.1, given, budget);
        assert!(heap.iter().all(|&cell| cell == UNTOUCHED));
        outcome
    };
    assert_eq!(answer(&[], one_too_many, (9, 9), &[], 0), refused(20));
    assert_eq!(answer(&[], 0, (9, 9), &[], limits::BUDGET + 1), refused(20));
    let bad_bundle = Outcome {
        verdict: verify(&[]),
        ..refused(21)
    };
    assert_eq!(verify(&[]).number, 1);
    assert_eq!(answer(&[], 4, (9, 9), &[], 9), bad_bundle);
    assert_eq!(answer(&example, 4, (1, 0), &[], 9), refused(22));
    assert_eq!(answer(&example, 4, (0, 1), &[], 9), refused(22));
    assert_eq!(
        answer(&example, 4, (u32::MAX, u32::MAX), &[], 9),
        refused(22)
    );
    assert_eq!(answer(&example, 4, (0, 0), &[], 9), refused(23));
    assert_eq!(answer(&example, 4, (0, 0), &[1, 2], 9), refused(23));
    // Typing faults do not refuse a run.
    assert_eq!(answer(&refused_verdict, 4, (0, 0), &[], 9).refusal, 0);
}
