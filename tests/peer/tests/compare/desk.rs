//! Both sides of the C entry on equal buffers: whatever octet differs afterwards ends the run, and so does another
//! answer to the query on the line.

use std::ops::Range;

use peer::trial::Rng;
use peer::{read_image, write_event, Event, Table, ANSWER_OCTETS, LINE_OCTETS, RECORD_OCTETS};

use crate::tally::Tally;
use crate::{fail, product};

const GUARD: usize = 32;

/// The same octets twice, each copy between guards.
#[derive(Default)]
struct Twin {
    library: Vec<u8>,
    peer: Vec<u8>,
    window: Range<usize>,
}

impl Twin {
    /// `shift` varies the alignment.
    fn set(&mut self, content: &[u8], shift: usize) {
        self.window = GUARD + shift..GUARD + shift + content.len();
        for copy in [&mut self.library, &mut self.peer] {
            copy.clear();
            copy.resize(self.window.start, 0xa5);
            copy.extend_from_slice(content);
            copy.resize(self.window.end + GUARD, 0x5a);
        }
    }

    fn library(&mut self) -> &mut [u8] {
        &mut self.library[self.window.clone()]
    }

    fn peer(&mut self) -> &mut [u8] {
        &mut self.peer[self.window.clone()]
    }

    fn show(&self) -> [String; 2] {
        [&self.library, &self.peer].map(|copy| copy[self.window.clone()].escape_ascii().to_string())
    }

    fn first_difference(&self) -> Option<isize> {
        if self.library == self.peer {
            return None;
        }
        let at = self.library.iter().zip(&self.peer).position(|(left, right)| left != right)?;
        Some(at as isize - self.window.start as isize)
    }
}

pub struct Desk {
    pub tally: Tally,
    part: &'static str,
    seed: u64,
    step: u64,
    rng: Rng,
    image: Twin,
    line: Twin,
    answer: Twin,
    image_before: Vec<u8>,
    stale_answer: Vec<u8>,
}

impl Desk {
    pub fn new() -> Desk {
        Desk {
            tally: Tally::default(),
            part: "",
            seed: 0,
            step: 0,
            rng: Rng::new(0),
            image: Twin::default(),
            line: Twin::default(),
            answer: Twin::default(),
            image_before: Vec::new(),
            stale_answer: Vec::new(),
        }
    }

    pub fn begin(&mut self, part: &'static str, seed: u64) {
        (self.part, self.seed, self.step, self.rng) = (part, seed, 0, Rng::new(seed));
    }

    pub fn load(&mut self, image: &[u8]) {
        self.image.set(image, self.rng.below(16));
    }

    pub fn table(&mut self) -> Table {
        match read_image(self.image.peer()) {
            Ok(table) => table,
            Err(_) => self.differ("the image is no longer sound"),
        }
    }

    /// After the last step it is the same on both sides.
    pub fn image(&self) -> &[u8] {
        &self.image.peer[self.image.window.clone()]
    }

    pub fn take_event(&mut self, event: &Event) -> &[u8] {
        let mut line = [0; LINE_OCTETS];
        let length = write_event(event, &mut line);
        let answer_octets = ANSWER_OCTETS + self.rng.below(4);
        self.take(&line[..length], answer_octets)
    }

    /// The query on the line and one step on both sides. Gives the step's answer.
    pub fn take(&mut self, line: &[u8], answer_octets: usize) -> &[u8] {
        self.step += 1;
        self.image_before.clear();
        self.image_before.extend_from_slice(&self.image.peer[self.image.window.clone()]);
        self.line.set(line, self.rng.below(16));
        self.stale_answer.clear();
        self.stale_answer.extend((0..answer_octets).map(|at| self.step as u8 ^ (at as u8).wrapping_mul(37)));
        self.answer.set(&self.stale_answer, self.rng.below(16));

        let (library_field, peer_field) =
            (product::park_bad_field(self.line.library()), peer::bad_field(self.line.peer()));
        let library_count = product::park_step(self.image.library(), self.line.library(), self.answer.library());
        let peer_count = peer::park_step(self.image.peer(), self.line.peer(), self.answer.peer());

        if library_field != peer_field {
            self.differ(&format!("the library blames field {library_field} of the line, the peer {peer_field}"));
        }
        if library_count != peer_count {
            self.differ(&format!("the library wrote {library_count} octets, the peer {peer_count}"));
        }
        for (name, twin) in [("image", &self.image), ("line", &self.line), ("answer", &self.answer)] {
            if let Some(at) = twin.first_difference() {
                self.differ(&format!("octet {at} of the {name} differs (below 0 and beyond the end are guards)"));
            }
        }
        let answer = &self.answer.peer[self.answer.window.clone()][..peer_count];
        self.tally.note_field(peer_field);
        self.tally.note(
            [&self.image_before, &self.image.peer[self.image.window.clone()]],
            &self.line.peer[self.line.window.clone()],
            answer,
        );
        answer
    }

    /// Ends the run as failed, with all that the last step had before it.
    pub fn differ(&self, what: &str) -> ! {
        let records = self.image_before.chunks(RECORD_OCTETS).enumerate();
        for (index, record) in records.filter(|(_, record)| record.iter().any(|octet| *octet != 0)) {
            println!("  image before, record of place {}: {record:02x?}", index + 1);
        }
        println!("  image of {} octets, answer of {}", self.image_before.len(), self.answer.window.len());
        let [_, line] = self.line.show();
        let [library, peer] = self.answer.show();
        println!("  line:    \"{line}\"\n  library: \"{library}\"\n  peer:    \"{peer}\"");
        fail(&format!("{}, seed {}, step {}: {what}", self.part, self.seed, self.step))
    }
}
