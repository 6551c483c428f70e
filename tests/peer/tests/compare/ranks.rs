//! The ranks in an image (request Q-4): what spoils them, what only changes them, and how spoilt ones are mended.

use std::ops::Range;

use peer::{IMAGE_OCTETS, RECORD_OCTETS};

/// Where a place's rank stands among its octets: after the count.
pub const RANK: usize = 21;

/// The octets of the park positions, and those of the lines.
pub const SIDES: [Range<usize>; 2] = [0..64 * RECORD_OCTETS, 64 * RECORD_OCTETS..IMAGE_OCTETS];

/// An image, and by what it differs from the sound one that it was made of.
type Changed = (&'static str, Vec<u8>);

/// The rank octets of one side of an image, by where they stand in it.
struct Octets {
    /// In the order of the ranks, that of rank 1 first.
    taken: Vec<usize>,
    free: Vec<usize>,
}

impl Octets {
    fn of(image: &[u8], side: &Range<usize>) -> Octets {
        let all = side.clone().step_by(RECORD_OCTETS).map(|start| start + RANK);
        let (mut taken, free): (Vec<_>, _) = all.partition(|&at| image[at - RANK] != 0);
        taken.sort_by_key(|&at| image[at]);
        Octets { taken, free }
    }
}

/// Every image here breaks the rank rule, and is sound in all other respects.
pub fn spoilt(sound: &[u8]) -> Vec<Changed> {
    let mut all = Vec::new();
    let mut changed = |name, change: &dyn Fn(&mut [u8])| {
        let mut image = sound.to_vec();
        change(&mut image);
        all.push((name, image));
    };
    let sides = SIDES.map(|side| Octets::of(sound, &side));
    for Octets { taken, free } in &sides {
        let calls = taken.len() as u8;
        for (nth, &at) in taken.iter().enumerate() {
            changed("rank 0 at a taken place", &|image| image[at] = 0);
            changed("rank one above the count of calls", &|image| image[at] = calls + 1);
            // Whoever looks at some bits of a rank only takes the first three for the right one.
            let far = [32, 64, 128].map(|more| sound[at] + more).into_iter().chain([255]);
            for rank in far.filter(|&rank| rank > calls) {
                changed("rank far above the count of calls", &|image| image[at] = rank);
            }
            for &other in &taken[..nth] {
                changed("one rank at two places, the higher missing", &|image| image[at] = image[other]);
                changed("one rank at two places, the lower missing", &|image| image[other] = image[at]);
            }
            changed("gap below a rank", &|image| taken[nth..].iter().for_each(|&at| image[at] += 1));
            for &free in free.iter().step_by(5) {
                changed("rank moved to a free place", &|image| image.swap(at, free));
            }
        }
        // What a sum, an exclusive or, or a sum and a sum of squares would not tell from the ranks 1 to n.
        for (nth, &at) in taken.iter().enumerate() {
            for &other in &taken[nth + 1..] {
                let (low, high) = (sound[at], sound[other]);
                if high - low > 1 {
                    changed("two ranks changed, their sum kept", &|image| {
                        (image[at], image[other]) = (low + 1, high - 1);
                    });
                }
                if low ^ 8 != high && low != 8 && high != 8 {
                    changed("one bit of two ranks changed", &|image| {
                        (image[at], image[other]) = (low ^ 8, high ^ 8);
                    });
                }
            }
        }
        for six in taken.windows(6) {
            changed("three ranks changed, their sum and that of their squares kept", &|image| {
                (image[six[0]], image[six[4]], image[six[5]]) = (sound[six[1]], sound[six[2]], sound[six[5]] + 1);
            });
        }
        if calls > 0 {
            changed("ranks from 0", &|image| taken.iter().for_each(|&at| image[at] -= 1));
        }
        for &at in free {
            for rank in [1, calls, calls + 1, 64, 255] {
                changed("rank at a free place", &|image| image[at] = rank.max(1));
            }
        }
    }
    for (side, other) in [(0, 1), (1, 0)] {
        let (taken, before) = (&sides[side].taken, sides[other].taken.len() as u8);
        if before > 0 && !taken.is_empty() {
            let run_on = |image: &mut [u8]| taken.iter().for_each(|&at| image[at] += before);
            changed("ranks that run on over both sides", &run_on);
        }
    }
    all
}

/// Every image here is sound: nothing ties the ranks to the order of the places, nor those of one side to the other's.
pub fn reordered(sound: &[u8]) -> Vec<Changed> {
    let mut all = Vec::new();
    let mut changed = |name, swaps: &[(usize, usize)]| {
        let mut image = sound.to_vec();
        swaps.iter().for_each(|&(at, other)| image.swap(at, other));
        all.push((name, image));
    };
    let sides = SIDES.map(|side| Octets::of(sound, &side).taken);
    for taken in &sides {
        for (nth, &at) in taken.iter().enumerate() {
            changed("two ranks of a side exchanged", &[(at, taken[(nth + 7) % taken.len()])]);
        }
        let opposite = taken.iter().copied().zip(taken.iter().rev().copied());
        changed("ranks of a side reversed", &opposite.take(taken.len() / 2).collect::<Vec<_>>());
    }
    let [positions, lines] = &sides;
    for (nth, &position) in positions.iter().enumerate() {
        for rank in 0..positions.len().min(lines.len()) {
            let line = lines[nth % lines.len()];
            changed("one rank on both sides", &[(positions[rank], position), (lines[rank], line)]);
        }
    }
    all
}

/// Gives the taken places of each side the ranks from 1, in the order of those that they have, and free places 0. Then
/// the image is sound unless something else is wrong with it.
pub fn mend(image: &mut [u8]) {
    for side in SIDES {
        let Octets { taken, free } = Octets::of(image, &side);
        free.iter().for_each(|&at| image[at] = 0);
        (1..).zip(taken).for_each(|(rank, at)| image[at] = rank);
    }
}
