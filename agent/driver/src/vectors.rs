//! The compiled functions against the vectors' tables.

use flosquedo_mutator::Random;
use flosquedo_outside::{arguments, bundle, fnv1a64, names_in, number, rows, signed};
use flosquedo_proved::archive::Entry;
use flosquedo_reference::limits;

use crate::compare::{Tally, ACCEPTED};

/// The verdicts of edges, examples and jobs.
pub fn verdicts(tally: &mut Tally) {
    for table in ["edges", "examples"] {
        for row in rows(&format!("{}-verify.tsv", table)) {
            let bytes = bundle(&format!("{}/{}", table, row[0]));
            let numbers: Vec<u32> = row[1..5].iter().map(|text| number(text)).collect();
            tally.verdict(
                &row[0],
                &bytes,
                [numbers[0], numbers[1], numbers[2], numbers[3]],
            );
        }
    }
    for name in &names_in("jobs/bundles") {
        tally.verdict(name, &bundle(name), ACCEPTED);
    }
}

/// The runs of the edges, on zeros as their table says, with the hash of the used cells.
pub fn edge_runs(tally: &mut Tally, random: &mut Random) {
    for row in rows("edges-run.tsv") {
        let bytes = bundle(&format!("edges/{}", row[0]));
        let given = arguments(&row[5]);
        let entry = Entry {
            class: number(&row[1]),
            method: number(&row[2]),
            arguments: &given,
            budget: number(&row[3]),
        };
        let cells = number(&row[4]) as usize;
        let (numbers, heap) = tally.plain_run(&bytes, entry, cells);
        let agrees = match row[6].as_str() {
            "refused" => numbers[0] == number(&row[7]),
            end => {
                let used = heap.get(..numbers[4] as usize).unwrap_or(&heap);
                let hash = fnv1a64(used.iter().flat_map(|cell| cell.to_le_bytes()));
                let expected = [
                    0,
                    end_number(end),
                    signed(&row[7]),
                    number(&row[8]),
                    number(&row[9]),
                ];
                numbers[..5] == expected && format!("{:016x}", hash) == row[10]
            }
        };
        tally.hold(agrees, || format!("{:?}: {:?}", row, numbers));
        tally.run(&row[0], &bytes, entry, cells, random);
    }
}

/// The runs of the jobs: end, value unless it is a reference, steps, cells.
pub fn job_runs(tally: &mut Tally) {
    for row in rows("jobs-run.tsv") {
        let bytes = bundle(&format!("jobs/bundles/{}", row[0]));
        let given = arguments(&row[3]);
        let entry = Entry {
            class: number(&row[1]),
            method: number(&row[2]),
            arguments: &given,
            budget: limits::BUDGET,
        };
        let (numbers, _) = tally.plain_run(&bytes, entry, limits::HEAP_CELLS);
        let value = match row[5].as_str() {
            "?" => numbers[2],
            text => signed(text),
        };
        let expected = [
            0,
            end_number(&row[4]),
            value,
            number(&row[6]),
            number(&row[7]),
        ];
        tally.hold(numbers[..5] == expected, || {
            format!("{:?}: {:?}", row, numbers)
        });
    }
}

fn end_number(name: &str) -> u32 {
    let names = ["returned", "uncaught", "steps", "heap", "depth", "stuck"];
    let place = names.iter().position(|&known| known == name);
    1 + place.expect("the name of an end") as u32
}
