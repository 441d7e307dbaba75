//! Writes the histories of large stores into a folder, for `compare/damage`. The crate refuses none of their calls.

use {
    compare::{
        answer::Answer,
        counter::{self, Counter},
        random::Random,
        settings::{Kind, Settings},
        tape::{write_header, write_record, Block, Outcome, Record},
    },
    std::{env, fs, io, process::ExitCode},
};

const SEED: u64 = 1;

/// Bytes of a chunk for each loan that it is to have: enough for loans to take about half of the chunks.
const SHARE: usize = 256;

fn main() -> io::Result<ExitCode> {
    let arguments: Vec<String> = env::args().skip(1).collect();
    let limits = arguments.iter().skip(1).map(|text| text.parse().ok());
    let settings = match limits.collect::<Option<Vec<usize>>>().as_deref() {
        Some(&[loans, chunks]) => list(loans, chunks),
        Some(&[loans, chunks, pairs]) => buddy(loans, chunks, pairs),
        _ => {
            eprintln!("large FOLDER LOANS CHUNKS, of free lists; large FOLDER LOANS CHUNKS PAIRS, of buddy stores");
            return Ok(ExitCode::FAILURE);
        }
    };
    // of a HOST_VISIBLE memory type, so that its orders are mapped
    let visible = Settings { properties: 2, store: 1, ..settings };
    for (name, settings, waiting) in [("delivered", settings, false), ("waiting", visible, true)] {
        let tape = History::new(settings).tape(waiting);
        tell(name, &tape);
        fs::write(format!("{}/{name}.tape", arguments[0]), tape)?;
    }
    Ok(ExitCode::SUCCESS)
}

/// A free list whose chunks are full-sized but for the first two.
fn list(loans: usize, chunks: usize) -> Settings {
    let size = chunk_size(loans, chunks);
    with(Kind::FreeList { start_chunk: size / 4, final_chunk: size }, loans, chunks)
}

/// A buddy store, whose later chunks are longer, as its levels are raised on the way.
fn buddy(loans: usize, chunks: usize, pairs: usize) -> Settings {
    let initial = chunk_size(loans, chunks);
    with(Kind::Buddy { minimal: 16, initial, pairs }, loans, chunks)
}

fn chunk_size(loans: usize, chunks: usize) -> u64 {
    (SHARE * loans.div_ceil(chunks)).next_power_of_two() as u64
}

fn with(kind: Kind, loans: usize, chunks: usize) -> Settings {
    Settings {
        kind,
        store: 0,
        memory_type: 3,
        properties: 1,
        heap: 2,
        atom_mask: 15,
        loans,
        chunks,
        heap_size: 1 << 30,
        objects: 1_000,
    }
}

/// Says what the tape leads to, and that the crate refuses none of its calls.
fn tell(name: &str, tape: &[u8]) {
    let (mut calls, mut loans, mut chunks) = (0, 0, 0);
    counter::replay(tape, |record, answer| {
        calls += 1;
        loans += i32::from(matches!(answer, Answer::Block(_)));
        loans -= i32::from(matches!(record, Record::Return(_)));
        chunks += usize::from(matches!(record, Record::Deliver { .. }));
        match answer {
            Answer::Block(_) | Answer::Order(_) => {}
            Answer::Released(memories) => chunks -= memories.len(),
            _ => panic!("{name}: {record:?}: {answer}"),
        }
    });
    println!("{name}: {calls} calls, none refused, lead to {loans} loans in {chunks} chunks");
}

/// A tape in the making.
struct History {
    random: Random,
    settings: Settings,
    counter: Counter,
    tape: Vec<u8>,
    loans: Vec<Block>,
    memories: u64,
    /// The greatest size of an order so far.
    longest: u64,
}

impl History {
    fn new(settings: Settings) -> History {
        let mut tape = Vec::new();
        write_header(&mut tape, &settings.header());
        History {
            random: Random::new(SEED, settings.store.into()),
            settings,
            counter: Counter::open(settings),
            tape,
            loans: Vec::new(),
            memories: 0,
            longest: 0,
        }
    }

    /// Filled, thinned, filled again, and thinned a little, so that vacated places of every kind are taken again and some
    /// stay vacant. All orders are delivered, or the last is left open.
    fn tape(mut self, waiting: bool) -> Vec<u8> {
        let limit = self.settings.loans;
        self.fill(limit - 1);
        self.ask(self.longest, 0);
        self.thin(limit / 2);
        self.empty_a_chunk();
        self.fill(limit);
        self.thin(limit - limit / 16);
        self.empty_a_chunk();
        if self.settings.is_free_list() {
            self.call(Record::CleanUp);
        }
        // that a chunk can still be ordered is asked of the other store too
        let delivered = self.tape.clone();
        let answer = self.call(Record::Ask { size: self.longest, mask: 0 });
        assert!(matches!(answer, Answer::Order(_)), "{answer}");
        self.counter.close(None);
        match waiting {
            true => self.tape,
            false => delivered,
        }
    }

    fn fill(&mut self, loans: usize) {
        while self.loans.len() < loans {
            let bits = self.random.within(4..=9);
            let size = self.random.within(1..=1 << bits);
            let mask = self.random.pick(&[0, 0, 0, 31, 127]);
            self.ask(size, mask);
        }
    }

    fn thin(&mut self, loans: usize) {
        while self.loans.len() > loans {
            let place = self.random.below(self.loans.len() as u64);
            self.give_back(place as usize);
        }
    }

    /// Returns all that is lent of one chunk, one of which the fewest are; not of the last, which a free list would keep.
    fn empty_a_chunk(&mut self) {
        let lent = |chunk| self.loans.iter().filter(|block| block.chunk == chunk).count();
        let chunks = self.loans.iter().map(|block| block.chunk);
        let last = chunks.clone().max();
        let others = chunks.filter(|&chunk| Some(chunk) != last);
        let chunk = others.min_by_key(|&chunk| lent(chunk)).expect("several chunks");
        while let Some(place) = self.loans.iter().position(|block| block.chunk == chunk) {
            self.give_back(place);
        }
    }

    fn ask(&mut self, size: u64, mask: u64) {
        let mut answer = self.call(Record::Ask { size, mask });
        if let Answer::Order(order) = answer {
            self.longest = self.longest.max(order.size);
            self.memories += 1;
            let outcome = if order.map { Outcome::Mapped } else { Outcome::NotWanted };
            answer = self.call(Record::Deliver { outcome, memory: self.memories });
        }
        let Answer::Block(block) = answer else { panic!("{answer}") };
        self.loans.push(block);
    }

    fn give_back(&mut self, place: usize) {
        let block = self.loans.swap_remove(place);
        self.call(Record::Return(block));
    }

    fn call(&mut self, record: Record) -> Answer {
        write_record(&mut self.tape, &record);
        self.counter.take(&record)
    }
}
