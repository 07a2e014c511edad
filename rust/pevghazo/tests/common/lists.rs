//! Lines that meet and touch others, pools that are nearly full, and records of any bytes, for tests with lists of lines.

use pevghazo::raw::RunRecord;
use pevghazo_reference::random::Random;

use super::pools::{Memory, Pools, any_size, line_of};

/// Numbers and sizes close together, so that lines meet and touch often.
pub fn close_line(random: &mut Random) -> (char, u32, u32) {
    let first = 1 + random.below(60) as u32;
    (random.pick(&['A', 'C', 'H']), first, first + random.below(4) as u32)
}

/// A line beside a run of the pool, or on it: just before or behind it, one further away, over an end, within it, or between it and
/// its neighbour.
pub fn near_line(random: &mut Random, pools: &Pools) -> (char, u32, u32) {
    let runs: Vec<_> = pools.reference.runs().collect();
    if runs.is_empty() || random.once_in(8) {
        let (first, length) = (1 + random.below(99_999_999) as u32, random.pick(&[0, 1, 99, 100_000]));
        return (any_size(random), first, first.saturating_add(length).min(99_999_999));
    }
    let place = random.below(runs.len());
    let (size, first, last) = runs[place];
    let (low, high) = match random.below(8) {
        0 => (first.saturating_sub(3), first.saturating_sub(1)),
        1 => (last + 1, last + 1 + random.below(3) as u32),
        2 => (last + 2, last + 2),
        3 => (first.saturating_sub(2), first),
        4 => (last, last + 2),
        5 => (first, last),
        // All between it and the next run, as far as that is of its size.
        _ => (last + 1, runs.get(place + 1).map_or(last + 1, |next| next.1.saturating_sub(1))),
    };
    let size = if random.once_in(8) { any_size(random) } else { size };
    let low = low.clamp(1, 99_999_999);
    (size, low, high.clamp(low, 99_999_999))
}

/// Pools of nearly 256 runs, some of one size and some of all.
pub fn nearly_full() -> Vec<Pools> {
    let mut random = Random::new(256);
    let mut all = Vec::new();
    for count in [250, 254, 255, 256, 256, 256] {
        let sizes = random.pick(&[&['C'][..], &['A', 'H'], &['A', 'B', 'C', 'D', 'E', 'F', 'G', 'H']]);
        let mut next = [1_u32; 256];
        let mut pools = Pools::new();
        while pools.memory.record().used < count {
            let size = random.pick(sizes);
            let first = next[size as usize] + 1 + random.below(3) as u32;
            let last = first + random.below(4) as u32;
            next[size as usize] = last + 1;
            assert_eq!(pools.add(&line_of(size, first, last)), 0);
        }
        all.push(pools);
    }
    all
}

/// A record that is mostly no pool: any bytes, or runs of any numbers, and any count of used ones.
pub fn any_memory(random: &mut Random) -> Memory {
    let mut memory = Memory::zeroed();
    match random.below(3) {
        0 => memory.words_mut().iter_mut().for_each(|word| *word = random.bits()),
        _ => memory.record_mut().runs.iter_mut().for_each(|run| *run = any_run(random)),
    }
    let used = [0, 1, 2, 255, 256, 257, random.below(300), random.bits() as usize, usize::MAX][random.below(9)];
    memory.record_mut().used = used;
    memory
}

/// A run of any numbers, often close to others or at an edge.
fn any_run(random: &mut Random) -> RunRecord {
    let mut number = || match random.below(4) {
        0 => random.bits() as u32,
        1 => random.pick(&[0, 1, 99_999_998, 99_999_999, 100_000_000, u32::MAX - 1, u32::MAX]),
        _ => random.below(40) as u32,
    };
    let (first, last) = (number(), number());
    // Now and then a size that has a letter in its lowest byte only.
    let size = u32::from(any_size(random));
    RunRecord { size: [size, size | 0x100, random.bits() as u32][random.below(3)], first, last }
}
