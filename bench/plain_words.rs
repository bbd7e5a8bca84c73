// The loop of `crates/mapped_words` in plain Rust, with the same look-up of the mapping. The number
// goes through `black_box`: in the machine each access comes by itself and looks its mapping up, so
// the compiler is not to look it up once for all.
use std::hint::black_box;

struct Held {
    number: u64,
    frame: u32,
}

struct Grants {
    held: Vec<Held>,
}

impl Grants {
    fn frame_of(&self, number: u64) -> u32 {
        let place = self.held.binary_search_by_key(&number, |held| held.number);
        self.held[place.unwrap()].frame
    }
}

struct Pages {
    words: Vec<u32>,
}

impl Pages {
    fn read(&self, frame: u32, word: u32) -> u32 {
        self.words[frame as usize * 1024 + word as usize]
    }

    fn write(&mut self, frame: u32, word: u32, value: u32) {
        self.words[frame as usize * 1024 + word as usize] = value;
    }
}

fn main() {
    let mut pages = Pages {
        words: vec![0; 1088 * 1024],
    };
    let grants = Grants {
        held: (1..=48)
            .map(|number| Held {
                number,
                frame: number as u32 + 17,
            })
            .collect(),
    };
    let mut seen = 0;
    for turn in 0..10_000_000u32 {
        pages.write(grants.frame_of(black_box(48)), turn % 1024, turn ^ seen);
        seen = pages.read(grants.frame_of(black_box(48)), turn.wrapping_mul(7) % 1024);
    }
    println!("{seen}");
}
