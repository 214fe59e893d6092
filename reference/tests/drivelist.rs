//! The program drivelist of the verified machine beside ours, on random lists of calls. TARIFF_DRIVELIST names the program; without it, ours
//! alone is run.

mod program;

use std::fs;

use program::play;
use reference::drive::{drivelist, ANSWERS, HEAD, ROW};
use reference::gen::drives::{drive, fixed};
use reference::store::LENGTHS;

const SEEDS: u64 = 300;

fn of_the_crate(name: &str) -> Vec<u8> {
    fs::read(format!("{}/../crates/drivelist/{name}", env!("CARGO_MANIFEST_DIR"))).expect("a file of the crate")
}

#[test]
fn the_crate_has_the_fixed_list_and_what_it_prints() {
    assert!(of_the_crate("stdin") == fixed(), "crates/drivelist/stdin is what `drivelist_ref fixed` prints");
    let printed = drivelist(&fixed());
    assert!(of_the_crate("stdout") == printed.as_bytes(), "crates/drivelist/stdout is what `drivelist_ref` prints for it");
    assert_eq!(printed.lines().count(), 1 + ANSWERS + 8);
}

#[test]
fn the_program_prints_what_the_library_prints() {
    for seed in 0..20 {
        let input = drive(seed);
        assert_eq!(play(env!("CARGO_BIN_EXE_drivelist_ref"), &input), drivelist(&input).as_bytes(), "drive {seed}");
    }
}

#[test]
#[ignore = "needs the verified program, which TARIFF_DRIVELIST names"]
fn the_verified_program_prints_the_same() {
    let program = std::env::var("TARIFF_DRIVELIST").expect("TARIFF_DRIVELIST names the verified program");
    let good = fixed();
    let edges = [vec![], vec![0; 12], good[..good.len() - 1].to_vec(), [good, vec![0; 70_000]].concat(), taking_with(u32::MAX)];
    let differs = |input: &[u8]| play(&program, input) != drivelist(input).as_bytes();
    for (at, input) in edges.iter().enumerate() {
        assert!(!differs(input), "input {at} at an edge");
    }
    for seed in 0..SEEDS {
        assert!(!differs(&drive(seed)), "drive {seed}");
    }
}

/// What each row that has a call was told, with the row.
fn rows_told(seed: u64) -> Vec<([u32; ROW], usize)> {
    let input = drive(seed);
    let cell = |i: usize| u32::from_be_bytes([0, 1, 2, 3].map(|at| input[4 * i + at]));
    let numbers: Vec<usize> = drivelist(&input).lines().map(|line| line.parse().unwrap_or(0)).collect();
    let told = |call: usize| (std::array::from_fn(|place| cell(HEAD + ROW * call + place)), numbers[1 + 3 * call]);
    (0..numbers[0].min(cell(2) as usize / 3)).map(told).collect()
}

/// Tries of both kinds are driven on lists below, at and above 512, and told 0, 9 and 16 where they can be.
#[test]
fn tries_are_driven() {
    let mut told = [[[0; 17]; 3]; 2];
    for (row, number) in (0..SEEDS).flat_map(rows_told) {
        if let kind @ 8..=9 = row[0] {
            told[kind as usize - 8][row[4].cmp(&512) as usize + 1][number] += 1;
        }
    }
    println!("{told:?}");
    for [below, at, above] in told {
        assert!(below[16] > 100 && below[0] + below[9] == 0, "{below:?}");
        for enough in [at, above] {
            assert!(enough[0] > 100 && enough[9] > 5 && enough[16] == 0, "{enough:?}");
        }
    }
}

/// A record and two takings back, whose rows hold this besides.
fn taking_with(rest: u32) -> Vec<u8> {
    let row = [10, rest, rest, rest, rest, rest];
    let cells = [&[LENGTHS[0] as u32, 3 * ROW as u32, 9][..], &[2, 1, 2, 0, 0, 0], &row, &row].concat();
    cells.iter().flat_map(|cell| cell.to_be_bytes()).collect()
}

/// Takings back, rows of kind 10, are driven and told 0 and 19, and nothing else; what the row holds besides is never read.
#[test]
fn takings_back_are_driven() {
    let told: Vec<usize> = (0..SEEDS).flat_map(rows_told).filter(|(row, _)| row[0] == 10).map(|(_, number)| number).collect();
    let times = [0, 19].map(|number| told.iter().filter(|&&told| told == number).count());
    println!("{times:?}");
    assert!(times[0] > 50 && times[1] > 20 && times[0] + times[1] == told.len(), "{times:?}");
    let [plain, other] = [0, u32::MAX].map(|rest| drivelist(&taking_with(rest)));
    assert_eq!(plain.lines().take(10).collect::<Vec<_>>(), ["3", "0", "0", "0", "0", "0", "0", "19", "0", "0"]);
    assert_eq!(plain, other);
}

#[test]
fn lists_are_refused_ended_or_driven_whole() {
    let (mut refused, mut ended, mut whole) = (0, 0, 0);
    for seed in 0..SEEDS {
        let input = drive(seed);
        let cells = u32::from_be_bytes([input[4], input[5], input[6], input[7]]);
        match drivelist(&input).lines().next().expect("the outcome").parse::<u32>() {
            Err(_) => refused += 1,
            Ok(performed) if performed < cells / 6 => ended += 1,
            Ok(_) => whole += 1,
        }
    }
    println!("{refused} lists refused, {ended} ended by a row that has no call, {whole} driven whole");
    assert!(refused > 10 && ended > 50 && whole > 100);
}
