// A plain program that writes the same bytes as the proved one for what `bench/instructions` counts of `run`:
// `plain run IMAGE [--moves]`, of a schedule that is `settle`, and then `submit write SECTOR 1 TAG` and `settle`.
//
// It is a loop over the same moves, each of one word of memory, in turns, through grant entries and mappings, with the
// ring's indices and event words. It knows only what that work needs: a ring of one page in the layout of x86_64,
// direct writes of one sector, at most 32 at once, and ends that connect in one way, stay and aren't hostile. All else
// ends it by an error or a panic, as does a grant, index, entry or response that is wrong. Nothing of it is proved.
// Memory is a list of words, 1024 a frame. A grant is two words of frame 0, its flags and its frame; those of frame F
// lie at 2 * (F + 6). Frame 2 is the ring: each end's index, before the word that says at which index the other end
// wants an event, and from word 16 on 32 slots. Requests have the frames from 18 on.
use std::collections::{BTreeMap, VecDeque};
use std::io::{self, BufRead, Write};
use std::os::unix::fs::FileExt;
use std::{array, env, error, fmt, fs, mem};

const FRONT: usize = 0;
const BACK: usize = 1;
const PATHS: [&str; 2] = ["/local/domain/1/device/vbd/51712/", "/local/domain/0/backend/vbd/1/51712/"];
const RING: usize = 2048;
const PERMIT: u32 = 1;
const READONLY: u32 = 4;
const READING: u32 = 8;
const WRITING: u32 = 16;
const WRITE: u32 = 1 | 1 << 8 | 51712 << 16; // an entry's first word: operation, segments, handle

/// The first `settle`: the moves by which front and back connect, in the order of their rounds; in `clear` the front
/// writes the ring's first 16 words, while the back waits. Keys lie below F and B.
const STEPS: &str = "\
    f watch B/state;b setkey B/feature-barrier =1;f watched B/state;b setkey B/feature-flush-cache =1;f getkey B/state;\
    b setkey B/feature-discard =1;b setkey B/feature-persistent =0;b setkey B/feature-max-indirect-segments =0;\
    b setkey B/max-ring-page-order =4;b setkey B/state =2;f watched B/state;b watch F/state;f getkey B/state;\
    b watched F/state;f getkey B/feature-barrier;b getkey F/state;f getkey B/feature-flush-cache;\
    f getkey B/feature-discard;f getkey B/feature-persistent;f getkey B/feature-max-indirect-segments;\
    f getkey B/max-ring-page-order;f clear;f write 17 2;f fence;f write 16 1;f port 1;f setkey F/ring-ref =8;\
    f setkey F/event-channel =1;f setkey F/protocol =x86_64-abi;f setkey F/feature-persistent =0;f setkey F/state =3;\
    b watched F/state;b getkey F/state;b getkey F/ring-page-order;b getkey F/ring-ref;b getkey F/event-channel;\
    b getkey F/protocol;b getkey F/feature-persistent;b map 16;b bind 1 ok;b setkey B/sectors =SIZE;\
    b setkey B/sector-size =512;b setkey B/info =0;b setkey B/state =4;f watched B/state;b read 2048;f getkey B/state;\
    b write 2049 1;f getkey B/sectors;b fence;f getkey B/sector-size;b read 2048;f getkey B/info;f setkey F/state =4;\
    f ready;b watched F/state;f read 2050;b getkey F/state;f write 2051 1;f fence;f read 2050;f quiet";

/// A move that an end or a job will make. Addresses are those of words.
enum Move {
    Read(usize),
    Write(usize, u32),
    Fence,
    ReadEvent(u32), // where it is this index, an event is sent
    Send,
    Look, // once more, before an end falls asleep
    Revoke,
    Map(usize),
    Store,
    Unmap(usize, u32),
}

/// An end or a job: its next moves, the words that it has read, and an end's side of the ring.
#[derive(Default)]
struct Mover {
    name: String,
    mapping: String, // its number as lines have it
    moves: VecDeque<Move>,
    words: Vec<u32>,
    produced: u32,
    consumed: u32,
    seen: u32, // of the other end's index
    is_awake: bool,
    has_event: bool,
}

/// Both ends and then the jobs, by number, and what lies under them.
#[derive(Default)]
struct Run {
    movers: Vec<Mover>,
    grants: VecDeque<usize>, // of the requests that aren't answered
    memory: Vec<u32>,
    mapped: u32,
    sectors: u64,
    shows_moves: bool,
    numbers: Vec<String>, // as lines have them
    text: Vec<u8>,
}

fn slot(index: u32) -> usize {
    RING + 16 + 28 * (index % 32) as usize
}

impl Run {
    fn moved(&mut self, place: usize, what: fmt::Arguments) {
        if self.shows_moves {
            writeln!(self.text, "m {} {what}", self.movers[place].name).unwrap();
        }
    }

    /// The line of a word that was read or written, as most are: without the formatter.
    fn access(&mut self, place: usize, what: &str, address: usize, value: u32) {
        let (mover, frame, word) = (&self.movers[place], &self.numbers[address / 1024], &self.numbers[address % 1024]);
        for part in ["m ", &mover.name, what, &mover.mapping, frame, word] {
            self.text.extend_from_slice(part.as_bytes());
        }
        let digits: [u8; 8] = array::from_fn(|place| b"0123456789abcdef"[(value >> (28 - 4 * place)) as usize & 15]);
        self.text.extend_from_slice(&digits);
        self.text.push(b'\n');
    }

    fn read(&mut self, place: usize, address: usize) -> u32 {
        let value = self.memory[address];
        if self.shows_moves {
            self.access(place, " read ", address, value);
        }
        value
    }

    fn write(&mut self, place: usize, address: usize, value: u32) {
        self.memory[address] = value;
        if self.shows_moves {
            self.access(place, " write ", address, value);
        }
    }

    /// Maps a grant; a job then plans what it does with the frame.
    fn map(&mut self, place: usize, grant: usize, mode: char) {
        let (granted, marks) = if mode == 'w' { (PERMIT, READING | WRITING) } else { (PERMIT | READONLY, READING) };
        assert_eq!(mem::replace(&mut self.memory[grant], granted | marks), granted, "a grant for another use");
        self.mapped += 1;
        let (mapping, frame) = (self.mapped, self.memory[grant + 1] as usize);
        self.moved(place, format_args!("map {} {mode} ok {mapping} {frame}", grant / 2));
        self.movers[place].mapping = format!("{mapping} ");
        if place > BACK {
            self.movers[place].moves.extend((1024 * frame..1024 * frame + 128).map(Move::Read));
            self.movers[place].moves.extend([Move::Store, Move::Unmap(grant, mapping)]);
        }
    }

    fn connect(&mut self) {
        let steps = STEPS.replace("F/", PATHS[0]).replace("B/", PATHS[1]).replace("SIZE", &self.sectors.to_string());
        let mut keys = BTreeMap::from(PATHS.map(|path| (format!("{path}state"), "=1")));
        for step in steps.split(';') {
            let (place, what) = (usize::from(step.starts_with('b')), &step[2..]);
            match what.split(' ').collect::<Vec<_>>()[..] {
                ["clear"] => (0..16).for_each(|word| self.write(place, RING + word, u32::from(word == 1 || word == 3))),
                ["read", address] => drop(self.read(place, address.parse().unwrap())),
                ["write", address, value] => self.write(place, address.parse().unwrap(), value.parse().unwrap()),
                ["map", grant] => self.map(place, grant.parse().unwrap(), 'w'),
                ["getkey", path] if keys.contains_key(path) => self.moved(place, format_args!("{what} {}", keys[path])),
                ["setkey", path, text] => {
                    keys.insert(path.to_string(), text);
                    self.moved(place, format_args!("{what}"));
                }
                ["ready" | "quiet"] => writeln!(self.text, "{what}").unwrap(),
                _ => self.moved(place, format_args!("{what}")),
            }
        }
    }

    fn submit(&mut self, sector: u64, tag: u32) {
        assert!(self.mapped > 0 && self.grants.len() < 32 && sector < self.sectors, "a submission that is refused");
        let (id, frame) = (self.movers[FRONT].produced + 1, 18 + self.grants.len());
        let (grant, moves) = (2 * (frame + 6), &mut self.movers[FRONT].moves);
        moves.extend((1024 * frame..1024 * frame + 128).map(|address| Move::Write(address, tag)));
        moves.extend([Move::Write(grant + 1, frame as u32), Move::Fence, Move::Write(grant, PERMIT | READONLY)]);
        let words = [WRITE, 0, id, 0, sector as u32, (sector >> 32) as u32, grant as u32 / 2];
        self.give(FRONT, &[&words[..], &[0; 21]].concat());
        self.grants.push_back(grant);
        writeln!(self.text, "submit {id} write {sector} 1 {tag:08x}").unwrap();
    }

    /// Plans to put an entry or a response into the ring.
    fn give(&mut self, place: usize, words: &[u32]) {
        let end = &mut self.movers[place];
        end.moves.extend(words.iter().zip(slot(end.produced)..).map(|(&value, address)| Move::Write(address, value)));
        end.produced += 1;
        end.moves.extend([Move::Write(RING + 2 * place, end.produced), Move::Fence, Move::ReadEvent(end.produced)]);
    }

    /// Looks how far the other end's index is; gives the next one, where nothing is new.
    fn look(&mut self, place: usize) -> Option<u32> {
        let (seen, end) = (self.read(place, RING + 2 - 2 * place), &mut self.movers[place]);
        assert!(seen.wrapping_sub(end.consumed) <= 32, "the ring is overrun");
        end.seen = seen;
        (seen == end.consumed).then_some(seen + 1)
    }

    /// A move of an end that has planned none: it takes what is new, or looks for it, or wakes up by an event.
    fn begin(&mut self, place: usize, image: &fs::File) {
        let end = &mut self.movers[place];
        if end.seen != end.consumed {
            end.moves.extend((slot(end.consumed)..).take([3, 28][place]).map(Move::Read));
            if place == FRONT {
                end.moves.extend([Move::Read(self.grants[0]), Move::Revoke]);
            }
            self.step(place, image);
        } else if end.is_awake {
            let more = self.look(place).map(|next| [Move::Write(RING + 3 - 2 * place, next), Move::Fence, Move::Look]);
            self.movers[place].moves.extend(more.into_iter().flatten());
        } else if mem::take(&mut end.has_event) {
            end.is_awake = true;
            self.moved(place, format_args!("event"));
        }
    }

    fn step(&mut self, place: usize, image: &fs::File) {
        match self.movers[place].moves.pop_front() {
            None => self.begin(place, image),
            Some(Move::Read(address)) => self.take(place, address),
            Some(Move::Write(address, value)) => {
                self.write(place, address, value);
                if (place, address) == (BACK, RING + 2) {
                    writeln!(self.text, "reply {} ok", self.memory[slot(value - 1)]).unwrap();
                }
            }
            Some(Move::Fence) => self.moved(place, format_args!("fence")),
            Some(Move::ReadEvent(index)) => {
                if self.read(place, RING + 2 * place + 1) == index {
                    self.movers[place].moves.push_front(Move::Send);
                }
            }
            Some(Move::Send) => {
                self.movers[1 - place].has_event = true;
                self.moved(place, format_args!("send"));
            }
            Some(Move::Look) => self.movers[place].is_awake = self.look(place).is_none(),
            Some(Move::Revoke) => self.revoke(),
            Some(Move::Map(grant)) => self.map(place, grant, 'r'),
            Some(Move::Store) => self.store(place, image),
            Some(Move::Unmap(grant, mapping)) => {
                self.memory[grant] &= !READING;
                self.moved(place, format_args!("unmap {mapping}"));
                self.give(BACK, &[self.movers[place].words[2], 0, 1]);
            }
        }
    }

    /// Reads a word; with the last one of an entry its job begins.
    fn take(&mut self, place: usize, address: usize) {
        let (value, mover) = (self.read(place, address), &mut self.movers[place]);
        mover.words.push(value);
        if place == BACK && mover.words.len() == 28 {
            let words = mem::replace(&mut mover.words, Vec::with_capacity(28 + 128));
            assert!(words[0] == WRITE && words[7] == 0, "an entry that isn't a write of one sector");
            mover.consumed += 1;
            let (name, moves) = (format!("job {}", mover.consumed), [Move::Map(2 * words[6] as usize)].into());
            self.movers.push(Mover { name, moves, words, ..Mover::default() });
        }
    }

    fn revoke(&mut self) {
        let (grant, front) = (self.grants.pop_front().unwrap(), &mut self.movers[FRONT]);
        let (flags, words) = (mem::take(&mut self.memory[grant]), mem::take(&mut front.words));
        front.consumed += 1;
        assert!(words == [front.consumed, 0, 1, flags] && flags == PERMIT | READONLY, "a wrong response or grant");
        self.moved(FRONT, format_args!("cas 0 {grant} {flags:08x} 00000000 {flags:08x}"));
        writeln!(self.text, "answer {} ok", words[0]).unwrap();
    }

    fn store(&mut self, place: usize, image: &fs::File) {
        let words = &self.movers[place].words;
        let (id, sector) = (words[2], u64::from(words[4]) | u64::from(words[5]) << 32);
        let bytes: [[u8; 4]; 128] = array::from_fn(|word| words[28 + word].to_le_bytes());
        image.write_all_at(bytes.as_flattened(), 512 * sector).unwrap();
        self.moved(place, format_args!("dwrite {sector}"));
        writeln!(self.text, "effect {id} 0").unwrap();
    }

    /// Rounds of a move of each end and then of each job, until all is quiet.
    fn settle(&mut self, image: &fs::File) {
        while self.movers.iter().any(|mover| mover.is_awake || mover.has_event || !mover.moves.is_empty()) {
            self.step(FRONT, image);
            self.step(BACK, image);
            (2..self.movers.len()).for_each(|place| self.step(place, image));
            if self.movers.get(2).is_some_and(|job| job.moves.is_empty()) {
                self.movers.remove(2);
            }
        }
        writeln!(self.text, "quiet").unwrap();
    }
}

fn main() -> Result<(), Box<dyn error::Error>> {
    let words: Vec<String> = env::args().skip(1).collect();
    let (["run", image] | ["run", image, "--moves"]) = words.iter().map(String::as_str).collect::<Vec<_>>()[..] else {
        return Err("usage: plain run IMAGE [--moves]".into());
    };
    let image = fs::File::options().read(true).write(true).open(image)?;
    let (sectors, shows_moves) = (image.metadata()?.len() / 512, words.len() == 3);
    println!("begin 64 0 0 0 0 rw {sectors} {}", if shows_moves { "moves" } else { "lines" });
    let movers = ["front", "back"].map(|name| Mover { name: name.to_string(), ..Mover::default() }).into();
    let numbers = (0..1024).map(|number| format!("{number} ")).collect();
    let mut run = Run { movers, memory: vec![0; 64 * 1024], sectors, shows_moves, numbers, ..Run::default() };
    for line in io::stdin().lock().lines() {
        match line?.split(' ').collect::<Vec<_>>()[..] {
            ["settle"] if run.mapped == 0 => run.connect(),
            ["settle"] => run.settle(&image),
            ["submit", "write", sector, "1", tag] => run.submit(sector.parse()?, u32::from_str_radix(tag, 16)?),
            _ => return Err("a line that this program doesn't know".into()),
        }
        io::stdout().write_all(&mem::take(&mut run.text))?;
    }
    println!("end");
    Ok(())
}
