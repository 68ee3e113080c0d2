// The plans of the benchmark, as sheets: made from fixed seeds.

pub struct Random(u64);

impl Random {
    pub fn new(seed: u64) -> Random {
        Random(seed.wrapping_mul(0x9e37_79b9_7f4a_7c15) | 1)
    }

    // A number below n.
    pub fn below(&mut self, n: u64) -> u64 {
        self.0 ^= self.0 << 13;
        self.0 ^= self.0 >> 7;
        self.0 ^= self.0 << 17;
        (self.0 >> 11) % n
    }
}

#[derive(Clone, Copy)]
pub enum Shape {
    // Each task waits for the one before it.
    Chain,
    // A few dependencies between neighbours, over all places.
    Wide,
    // No dependencies: all places run side by side.
    Meeting,
    // One or two dependencies on near rows each, which makes releases rise and fall.
    Rounds,
}

pub const SHAPES: [(&str, Shape); 4] = [
    ("chain", Shape::Chain),
    ("wide", Shape::Wide),
    ("all meeting", Shape::Meeting),
    ("many rounds", Shape::Rounds),
];

fn named(shape: Shape, row: u64, random: &mut Random) -> Vec<u64> {
    let mut rows = Vec::new();
    let tries = match shape {
        Shape::Chain => {
            if row > 0 {
                rows.push(row - 1);
            }
            0
        }
        Shape::Wide => random.below(3),
        Shape::Meeting => 0,
        Shape::Rounds => 1 + random.below(2),
    };
    let reach = match shape {
        Shape::Rounds => 24,
        _ => 64,
    };
    for _ in 0..tries {
        if row > 0 {
            let k = row - 1 - random.below(row.min(reach));
            if !rows.contains(&k) {
                rows.push(k);
            }
        }
    }
    rows
}

pub fn sheet(shape: Shape, tasks: u64, banks: u64, seed: u64) -> String {
    let mut random = Random::new(seed);
    let places = if tasks < 32 { 4 } else { 16 };
    let mut text = format!("C{:>10}{:>10}{:>10}{:>10}{:>10}\n", 1, places, banks, 10, 1_000_000_000);
    for row in 0..tasks {
        let place = match shape {
            Shape::Meeting => row % places,
            _ => random.below(places),
        };
        let cycles = 1 + random.below(2_000);
        text += &format!("T{:>10}{:>10}{:>10} {:>12}\n", place, cycles, 0, format!("t{row}"));
        // At most 8 banks each, so that the largest sheet stays below 65,536 bytes.
        let first = random.below(banks);
        for k in 0..banks.min(8) {
            text += &format!("M{:>10}{:>10}\n", (first + k) % banks, 1 + random.below(60));
        }
        for k in named(shape, row, &mut random) {
            text += &format!("D{:>10}\n", k);
        }
    }
    text
}

// The seed, of the first 29, whose plan takes most rounds.
pub fn seed(shape: Shape, tasks: u64, banks: u64) -> u64 {
    let rounds = |seed: &u64| {
        let plan = crate::plain::read(&sheet(shape, tasks, banks, *seed));
        crate::plain::dates(&plan, crate::plain::in_order).rounds
    };
    (1..30).max_by_key(rounds).unwrap()
}
