// Writes what `cubes cuboids` writes of a cube with one group without rules, told the numbers: `cuboids_plain DIMENSIONS INCLUDED CAP`.
// The group includes the first so many dimensions; a cuboid of it has at most CAP of them.

use std::collections::BTreeSet;
use std::io::{self, BufWriter, Write};

fn follow(included: u32, from: u32, cap: u32, mask: u64, masks: &mut BTreeSet<u64>) {
    if mask != 0 {
        masks.insert(mask);
    }
    if mask.count_ones() < cap {
        for d in from..included {
            follow(included, d + 1, cap, mask | 1 << d, masks);
        }
    }
}

fn parents(masks: &[u64]) -> Vec<Option<u64>> {
    let mut layers: Vec<Vec<u64>> = vec![Vec::new(); 65];
    for mask in masks {
        layers[mask.count_ones() as usize].push(*mask);
    }
    let parent = |mask: &u64| {
        let later = &layers[mask.count_ones() as usize + 1..];
        later.iter().find_map(|layer| layer.iter().copied().find(|other| mask & other == *mask))
    };
    masks.iter().map(parent).collect()
}

fn main() -> io::Result<()> {
    let numbers: Vec<u32> = std::env::args().skip(1).map(|word| word.parse().expect("a number")).collect();
    let (dimensions, included, cap) = (numbers[0], numbers[1], numbers[2]);
    let mut masks = BTreeSet::from([(1 << dimensions) - 1]);
    follow(included, 0, cap, 0, &mut masks);
    let masks: Vec<u64> = masks.into_iter().collect();
    let mut out = BufWriter::new(io::stdout().lock());
    writeln!(out, "mask,dimensions,parent,columns")?;
    for (mask, parent) in masks.iter().zip(parents(&masks)) {
        let parent = parent.map_or(String::new(), |parent| parent.to_string());
        let columns: Vec<String> = (0..dimensions).filter(|d| mask >> d & 1 == 1).map(|d| format!("T.D{d}")).collect();
        writeln!(out, "{mask},{},{parent},{}", mask.count_ones(), columns.join(" "))?;
    }
    out.flush()
}
