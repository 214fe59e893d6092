//! Scripts for boxscript: the calls of random lists as lines, now and then with one that can't be read.

use super::joins::joins;
use super::list::list;
use super::rng::Rng;
use super::Call;

/// The bytes of a script.
pub fn script(seed: u64) -> Vec<u8> {
    let mut rng = Rng::new(seed ^ 0x73_63_72_69);
    let trial = if seed % 6 == 5 { joins(seed, 25) } else { list(seed, 80) };
    let mut lines: Vec<Vec<u8>> = trial.calls.iter().flat_map(|call| lines(&mut rng, call)).map(String::into_bytes).collect();
    if rng.percent(40) {
        let at = rng.below(lines.len() + 1);
        let odd = odd_line(&mut rng, lines.get(at).cloned().unwrap_or_default());
        lines.insert(at, odd);
    }
    let mut bytes = lines.join(&b'\n');
    if rng.percent(70) {
        bytes.push(b'\n');
    }
    bytes
}

/// A call as lines; a run as some steps, a boot, a sweep, a try and a taking back as none.
fn lines(rng: &mut Rng, call: &Call) -> Vec<String> {
    let zeros = if rng.percent(5) { "00" } else { "" };
    match *call {
        Call::Boot | Call::Sweep | Call::TryDefine { .. } | Call::TryRecord { .. } | Call::TakeBack => vec![],
        Call::Run { n } => vec!["N".into(); n.min(20) as usize],
        Call::Step => vec!["N".into()],
        Call::Drop { task } => vec![format!("X {zeros}{task}")],
        Call::Record { loader, name, class } => vec![format!("R {zeros}{loader} {zeros}{name} {class}")],
        Call::Start { task, loader, name, method, int } => {
            vec![format!("S {task} {loader} {zeros}{name} {method} {}", int as i32)]
        }
        Call::Define { loader, ref file } if !file.is_empty() => vec![format!("D {loader} {}", hex(rng, file))],
        Call::Define { .. } => vec![],
    }
}

fn hex(rng: &mut Rng, file: &[u8]) -> String {
    if rng.percent(30) {
        file.iter().map(|byte| format!("{byte:02x}")).collect()
    } else {
        file.iter().map(|byte| format!("{byte:02X}")).collect()
    }
}

/// A line that mostly can't be read, made of a good one or from nothing.
fn odd_line(rng: &mut Rng, mut line: Vec<u8>) -> Vec<u8> {
    let made: [&[u8]; 12] = [
        b"", b" ", b"N ", b"n", b"X", b"X 65536", b"X -0", b"X +1", b"D 1", b"D 1 ABC", b"S 0 1 10 20 2147483648",
        b"S 0 1 10 20 -2147483648",
    ];
    if line.is_empty() || rng.percent(50) {
        return rng.pick(&made).to_vec();
    }
    let at = rng.below(line.len());
    match rng.below(4) {
        0 => drop(line.remove(at)),
        1 => line[at] = rng.draw() as u8,
        2 => line.insert(at, b' '),
        _ => line.push(rng.pick(b" 0\r-+A")),
    }
    line
}
