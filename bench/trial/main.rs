//! Makes rounds over a circuit in one thread, as docs/method.md says, and times the oracle alone.

#![allow(dead_code, unused_imports, unused_labels, unused_variables)]

mod pq_gate;
mod pq_limits;
mod pq_links;
mod pq_list;
mod pq_match;
mod pq_oracle;
mod pq_rules;
mod shim;

use pq_gate::{Eighths, Gate, GateList};
use pq_match::Seg;
use pq_oracle::Worked;
use pq_rules::Rules;
use shim::Global;
use std::time::{Duration, Instant};

type List<T> = std::vec::Vec<T>;

// What a round did to the segment of a finger.
struct Cut {
    from: usize,
    to: usize,
    improved: bool,
    lost: usize,
}

struct Run {
    gates: List<Gate>,
    rounds: usize,
    calls: usize,
    segment_gates: usize,
    phase: usize,
    oracle: Duration,
}

fn gate_of(line: &str) -> Option<Gate> {
    let (word, rest) = line.trim_end_matches(';').split_once(' ')?;
    let wires: Option<List<u32>> = rest
        .split(',')
        .map(|wire| wire.strip_prefix("q[")?.strip_suffix(']')?.parse().ok())
        .collect();
    let wires = wires?;
    let wire = wires[0];
    let phase = |eighths| Gate::Phase { eighths, wire };
    Some(match word {
        "h" => Gate::H { wire },
        "x" => Gate::X { wire },
        "t" => phase(Eighths::T),
        "s" => phase(Eighths::S),
        "z" => phase(Eighths::Z),
        "sdg" => phase(Eighths::Sdg),
        "tdg" => phase(Eighths::Tdg),
        "cx" => Gate::Cx { control: wire, target: wires[1] },
        _ => return None,
    })
}

// the oracle's answer to a segment
fn work<'r>(rules: &'r Rules, seg: &mut Seg, gates: &[Gate], room: u32) -> Worked<'r> {
    let mut input = GateList::with_room(Global, room).unwrap();
    let spare = GateList::with_room(Global, room).unwrap();
    for gate in gates {
        input.push_kept(*gate);
    }
    seg.extend(input.as_slice());
    Worked::of_lent(rules, 0, input, seg, spare).0
}

fn selected(fingers: &[usize], omega: usize) -> List<usize> {
    let mut chosen: List<usize> = List::new();
    for finger in fingers {
        if chosen.last().map_or(true, |last| last + 2 * omega <= *finger) {
            chosen.push(*finger);
        }
    }
    chosen
}

// the fingers after a round that made these cuts, at their new gaps
fn settled(fingers: &[usize], chosen: &[usize], cuts: &[Cut], len: usize) -> List<usize> {
    let is_inside = |finger: usize| {
        let cut = cuts.get(cuts.partition_point(|cut| cut.to <= finger));
        cut.is_some_and(|cut| cut.improved && cut.from < finger)
    };
    let kept = fingers.iter().copied();
    let mut all: List<usize> =
        kept.filter(|finger| chosen.binary_search(finger).is_err() && !is_inside(*finger)).collect();
    for cut in cuts.iter().filter(|cut| cut.improved) {
        all.extend([cut.from, cut.to].into_iter().filter(|gap| 0 < *gap && *gap < len));
    }
    all.sort_unstable();
    let (mut behind, mut lost) = (0, 0);
    for finger in &mut all {
        while behind < cuts.len() && cuts[behind].to <= *finger {
            lost += cuts[behind].lost;
            behind += 1;
        }
        *finger -= lost;
    }
    all.dedup();
    all
}

fn run(rules: &Rules, gates: &[Gate], omega: usize) -> Run {
    let room = 2 * omega as u32;
    let mut seg = Seg::reserve(Global, room).unwrap();
    let mut made = Run {
        gates: gates.to_vec(),
        rounds: 0,
        calls: 0,
        segment_gates: 0,
        phase: 0,
        oracle: Duration::ZERO,
    };
    let mut fingers: List<usize> = (0..gates.len()).step_by(omega).collect();
    while !fingers.is_empty() {
        made.rounds += 1;
        let chosen = selected(&fingers, omega);
        let (mut left, mut cuts, mut at) = (List::new(), List::new(), 0);
        for finger in &chosen {
            let (from, to) = (finger.saturating_sub(omega), made.gates.len().min(finger + omega));
            left.extend_from_slice(&made.gates[at..from]);
            let start = Instant::now();
            let worked = work(rules, &mut seg, &made.gates[from..to], room);
            made.oracle += start.elapsed();
            made.calls += 1;
            made.segment_gates += to - from;
            made.phase += worked.phase() as usize;
            left.extend_from_slice(worked.output());
            let lost = to - from - worked.output().len();
            cuts.push(Cut { from, to, improved: worked.improved(), lost });
            at = to;
        }
        left.extend_from_slice(&made.gates[at..]);
        fingers = settled(&fingers, &chosen, &cuts, made.gates.len());
        made.gates = left;
    }
    made
}

fn main() {
    let arguments: List<String> = std::env::args().collect();
    let text = std::fs::read_to_string(&arguments[1]).unwrap();
    let gates: List<Gate> = text.lines().filter_map(gate_of).collect();
    let omega = arguments[2].parse().unwrap();
    let runs = arguments.get(3).map_or(3, |runs| runs.parse().unwrap());
    let rules = Rules::builtin(Global).unwrap();
    let mut best: Option<Run> = None;
    for _ in 0..runs {
        let made = run(&rules, &gates, omega);
        if best.as_ref().map_or(true, |best| made.oracle < best.oracle) {
            best = Some(made);
        }
    }
    let Some(made) = best else { return };
    let nanoseconds = made.oracle.as_nanos() as f64;
    println!(
        "gates {} {}  rounds {}  calls {}  phase {}  oracle {:.1} ns a gate, {:.1} ns a segment gate",
        gates.len(),
        made.gates.len(),
        made.rounds,
        made.calls,
        made.phase % 8,
        nanoseconds / gates.len() as f64,
        nanoseconds / made.segment_gates as f64,
    );
}
