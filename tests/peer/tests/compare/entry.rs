//! `park_step` of the static library against the peer's, and with each line `park_bad_field`.

use peer::trial::{line_of, sound_table, Follower, Rng};
use peer::{write_image, Event, State, Table, ANSWER_OCTETS, IMAGE_OCTETS, RECORD_OCTETS};

use crate::desk::Desk;
use crate::{damage, ranks};

pub fn run(desk: &mut Desk) {
    part(desk, "following tables", following);
    part(desk, "counts near their wrap", high_counts);
    part(desk, "pickups of taken calls", taken_calls);
    part(desk, "pickups by choice at any ranks", any_ranks);
    part(desk, "damaged lines", damaged_lines);
    part(desk, "damaged images", damaged_images);
    part(desk, "damaged ranks", damaged_ranks);
    part(desk, "short buffers", short_buffers);
}

fn part(desk: &mut Desk, name: &'static str, run: fn(&mut Desk, &'static str)) {
    let (steps, done) = (desk.tally.steps, desk.tally.done());
    run(desk, name);
    println!("entry, {name}: {} events, {} accepted", desk.tally.steps - steps, desk.tally.done() - done);
}

fn image_of(table: &Table) -> Vec<u8> {
    let mut image = vec![0; IMAGE_OCTETS];
    write_image(table, &mut image).expect("an image's length");
    image
}

fn follow(desk: &mut Desk, name: &'static str, seed: u64, start: &Table, fill: usize, events: usize) {
    desk.begin(name, seed);
    desk.load(&image_of(start));
    let mut follower = Follower::new(seed, fill);
    for _ in 0..events {
        let event = follower.event(&desk.table());
        desk.take_event(&event);
    }
}

fn following(desk: &mut Desk, name: &'static str) {
    for (fill, events) in [(0, 50_000), (4, 100_000), (24, 150_000), (48, 150_000), (90, 100_000), (96, 150_000)] {
        for seed in [1, 2] {
            follow(desk, name, 1000 * fill as u64 + seed, &Table::empty(), fill, events / 2);
        }
    }
}

fn high_counts(desk: &mut Desk, name: &'static str) {
    for seed in 0..100 {
        let fill = [2, 24, 60, 96][seed as usize % 4];
        let start = sound_table(&mut Rng::new(seed), fill);
        follow(desk, name, seed, &start, fill, 1_000);
    }
}

/// Asks for each call of a table twice by name, so that one that waits is taken at least the second time.
fn taken_calls(desk: &mut Desk, name: &'static str) {
    for seed in 0..100 {
        let table = sound_table(&mut Rng::new(seed), 96);
        let mut follower = Follower::new(seed, 96);
        desk.begin(name, seed);
        desk.load(&image_of(&table));
        for record in table.records().iter().filter(|record| record.state != State::Free) {
            for kind in [[3, 4], [4, 3]][follower.rng.below(2)] {
                desk.take_event(&Event { kind, call: record.call, choice: 0, ..follower.event(&table) });
            }
        }
    }
}

/// Many pickups by choice, from tables in which the order of the places says nothing about the order of the calls.
fn any_ranks(desk: &mut Desk, name: &'static str) {
    for seed in 0..200 {
        let fill = [6, 24, 48, 96][seed as usize % 4];
        let mut follower = Follower::new(seed, fill);
        desk.begin(name, seed);
        desk.load(&image_of(&sound_table(&mut Rng::new(seed + 500), fill)));
        for _ in 0..150 {
            let event = follower.event(&desk.table());
            let rng = &mut follower.rng;
            let by_choice = Event { kind: rng.one_of(&[3, 4]), choice: rng.one_of(&[1, 2]), ..event };
            desk.take_event(if rng.percent(30) { &by_choice } else { &event });
        }
    }
}

fn damaged_lines(desk: &mut Desk, name: &'static str) {
    for seed in 0..30 {
        let mut rng = Rng::new(seed);
        let table = sound_table(&mut rng, [4, 24, 96][seed as usize % 3]);
        let mut follower = Follower::new(seed, 48);
        desk.begin(name, seed);
        desk.load(&image_of(&table));
        for line in damage::systematic(&follower.event(&table)) {
            desk.take(&line, ANSWER_OCTETS);
            desk.tally.case("line damaged at a chosen place");
        }
        for _ in 0..2_000 {
            let event = follower.event(&desk.table());
            desk.take(&damage::random(&mut rng, &event), ANSWER_OCTETS);
            desk.tally.case("line damaged at random");
        }
        for line in damage::of_each_length(&mut rng) {
            desk.take(&line, ANSWER_OCTETS);
            desk.tally.case("line of each length");
        }
    }
}

fn damaged_images(desk: &mut Desk, name: &'static str) {
    for (seed, fill) in [0, 3, 24, 48, 90, 96].into_iter().enumerate() {
        let seed = seed as u64;
        let mut rng = Rng::new(seed);
        let table = sound_table(&mut rng, fill);
        let mut follower = Follower::new(seed, fill);
        let sound = image_of(&table);
        desk.begin(name, seed);
        let mut attempt = |desk: &mut Desk, case: &'static str, image: &[u8]| {
            desk.load(image);
            let event = follower.event(&table);
            match rng.percent(95) {
                true => desk.take_event(&event),
                false => desk.take(&damage::random(&mut rng, &event), ANSWER_OCTETS),
            };
            desk.tally.case(case);
        };
        let mut values = Rng::new(seed + 100);
        for at in 0..IMAGE_OCTETS {
            for value in [0, 255, sound[at] ^ (1 << values.below(8)), values.octet()] {
                let mut image = sound.clone();
                image[at] = value;
                attempt(desk, "image with one octet set", &image);
            }
        }
        for start in (0..IMAGE_OCTETS).step_by(RECORD_OCTETS) {
            for state in [0, 1, 2, 3, 4, 5, 6, 7, 128, 255] {
                let mut image = sound.clone();
                image[start] = state;
                attempt(desk, "image with a state set", &image);
                // A place taken or freed like this breaks the rank rule, which would hide whether the state fits.
                ranks::mend(&mut image);
                attempt(desk, "image with a state set and its ranks mended", &image);
                image[start + 17..start + 19].copy_from_slice(&values.one_of(&[[0, 1], [1, 0], [255, 255]]));
                attempt(desk, "image with a state and a connection set", &image);
                image[start + 17..start + 19].fill(0);
                attempt(desk, "image with a state set and its connection cleared", &image);
            }
        }
        let taken: Vec<usize> = (0..IMAGE_OCTETS).step_by(RECORD_OCTETS).filter(|&at| sound[at] != 0).collect();
        for (nth, &first) in taken.iter().enumerate() {
            for &second in &taken[..nth] {
                let mut image = sound.clone();
                image.copy_within(first + 1..first + 17, second + 1);
                attempt(desk, "image with one call at two places", &image);
            }
        }
        for length in [0, 1, 21, 22, 2016, 2090, 2111, 2113, 2134, 2368, 4224, 67_648] {
            let mut repeated = sound.repeat(34);
            repeated.truncate(length);
            attempt(desk, "image of another length", &repeated);
            attempt(desk, "image of another length", &vec![0; length]);
        }
    }
}

/// What an image with spoilt ranks is answered by, whatever the line.
const REFUSED: &[u8] = b"25\t00000000000000000000000000000000\t0\t0\t0\t0\t0\t0\t0\t0\t0\t0\t0\t0\n";

fn damaged_ranks(desk: &mut Desk, name: &'static str) {
    for (seed, fill) in [0, 2, 3, 6, 24, 48, 90, 96].into_iter().enumerate() {
        let seed = seed as u64 + 300;
        let mut rng = Rng::new(seed);
        let table = sound_table(&mut rng, fill);
        let sound = image_of(&table);
        let mut follower = Follower::new(seed, fill);
        desk.begin(name, seed);
        for (case, image) in ranks::spoilt(&sound) {
            desk.load(&image);
            let event = follower.event(&table);
            let answer = match rng.percent(95) {
                true => desk.take_event(&event),
                false => desk.take(&damage::random(&mut rng, &event), ANSWER_OCTETS),
            };
            if answer != REFUSED || desk.image() != image {
                desk.differ(&format!("both take an image as sound, or change it: {case}"));
            }
            desk.tally.case(case);
        }
        for (case, image) in ranks::reordered(&sound) {
            desk.load(&image);
            if desk.take_event(&follower.event(&table)) == REFUSED {
                desk.differ(&format!("both refuse a sound image: {case}"));
            }
            desk.tally.case(case);
        }
    }
}

fn short_buffers(desk: &mut Desk, name: &'static str) {
    for seed in 0..20 {
        let mut rng = Rng::new(seed);
        let fill = [2, 48, 96][seed as usize % 3];
        let sound = image_of(&sound_table(&mut rng, fill));
        let mut unsound = sound.clone();
        unsound[RECORD_OCTETS * rng.below(Table::PLACES)] = 6;
        let mut follower = Follower::new(seed, fill);
        desk.begin(name, seed);
        for octets in (0..=ANSWER_OCTETS + 3).chain([256, 300, 65_536, 65_600]) {
            desk.load(&sound);
            let event = follower.event(&desk.table());
            let (good, bad) = (line_of(&event), damage::random(&mut rng, &event));
            for (image, line, case) in [
                (&sound, &good, "answer of each length, all else good"),
                (&sound, &bad, "answer of each length, damaged line"),
                (&unsound, &good, "answer of each length, unsound image"),
                (&unsound, &bad, "answer of each length, unsound image and damaged line"),
            ] {
                desk.load(image);
                desk.take(line, octets);
                desk.tally.case(case);
            }
        }
    }
}
