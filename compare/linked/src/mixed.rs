//! Tables of two stores of one engine, lent in every mixture that has the one's loans: a block that came
//! back with these loans is never taken again.

use {
    crate::{account::Account, ffi::SHIPPED, store::Store},
    compare::{
        random::Random,
        tape::{word, Block, Header, Outcome},
    },
};

/// The engines by their number in a header, and their names.
const ENGINES: [(u64, &str); 2] = [(2, "free list"), (1, "buddy")];
/// How many calls each of the two stores is made to take, and how many asks a mixture.
const CALLS: u64 = 12;
const ASKS: u64 = 3;
const SIZES: [u64; 3] = [256, 512, 1024];
/// A mixture has each of four tables, all but the loans, from the one store or the other.
const MIXTURES: u64 = 1 << 4;

/// How many mixtures were lent, how many of their asks gave a block, how many old slips were tried on
/// them, and how many of these were taken.
#[derive(Default)]
struct Tally {
    mixtures: u64,
    blocks: u64,
    slips: u64,
    taken: u64,
}

/// A store in use, with the blocks that it has on loan and those that came back.
struct Stand {
    store: Store,
    live: Vec<Block>,
    old: Vec<Block>,
}

/// Runs so many pairs of stores of each engine; an old slip that is taken is an error.
pub fn run(seed: u64, count: u64) -> Result<(), String> {
    let mut taken = 0;
    for (engine, name) in ENGINES {
        let mut tally = Tally::default();
        for number in 0..count {
            pair(engine, &mut Random::new(seed, number), &mut tally);
        }
        let Tally { mixtures, blocks, slips, .. } = tally;
        println!(
            "{name}: {mixtures} mixtures, {blocks} blocks lent on them, {slips} old slips, {} taken",
            tally.taken
        );
        if blocks == 0 || slips == 0 {
            return Err(format!("no mixture of a {name} was served, so nothing was tried"));
        }
        taken += tally.taken;
    }
    match taken {
        0 => Ok(()),
        taken => Err(format!("{taken} old slips were taken again")),
    }
}

/// Two stores over one account; after each call every mixture that has the first one's loans is tried.
fn pair(engine: u64, random: &mut Random, tally: &mut Tally) {
    let header = header(engine);
    let mut account = Account::new(&header).expect("the header is in the table");
    let mut stands = [Stand::open(&header), Stand::open(&header)];
    for call in 0..2 * CALLS {
        stands[random.below(2) as usize].take(&mut account, random, call);
        for mixture in 0..MIXTURES {
            let mixed = stands[0].store.mixed(&stands[1].store, mixture);
            try_slips(mixed, account.clone(), &stands[0].old, random, tally);
        }
    }
}

/// A few asks of a mixture, and between them each old slip returned to a copy of it.
fn try_slips(
    mut store: Store,
    mut account: Account,
    old: &[Block],
    random: &mut Random,
    tally: &mut Tally,
) {
    tally.mixtures += 1;
    for ask in 0..=ASKS {
        for &slip in old {
            let (mut copy, mut account) = (store.clone(), account.clone());
            tally.slips += 1;
            tally.taken += u64::from(copy.take_back(&mut account, slip)[0] == 3);
        }
        if ask < ASKS {
            tally.blocks += u64::from(asked(&mut store, &mut account, random, ask).is_some());
        }
    }
}

/// An ask, with its order delivered: the block, if it gives one.
fn asked(
    store: &mut Store,
    account: &mut Account,
    random: &mut Random,
    memory: u64,
) -> Option<Block> {
    let mut answer = *store.ask(account, random.pick(&SIZES), 0);
    if answer[0] == 2 {
        answer = *store.deliver(account, Outcome::NotWanted, 1_000 + memory);
    }
    match answer {
        [1, serial, chunk, offset, size, 0] => Some(Block { serial, chunk, offset, size }),
        _ => None,
    }
}

impl Stand {
    fn open(header: &Header) -> Stand {
        let store = Store::open(&SHIPPED, header).expect("the header is in the table");
        Stand { store, live: Vec::new(), old: Vec::new() }
    }

    /// A call that it is served by: a block is lent, or one comes back.
    fn take(&mut self, account: &mut Account, random: &mut Random, call: u64) {
        if self.live.is_empty() || random.percent(40) {
            self.live.extend(asked(&mut self.store, account, random, 2_000 + call));
            return;
        }
        let block = self.live.swap_remove(random.below(self.live.len() as u64) as usize);
        assert_eq!(self.store.take_back(account, block)[0], 3, "a block on loan comes back");
        self.old.push(block);
    }
}

/// Small stores, so that their histories meet.
fn header(engine: u64) -> Header {
    let mut header = Header::default();
    header[word::ENGINE] = engine;
    header[word::STORE] = 7;
    header[word::ATOM_MASK] = 63;
    header[word::LEAST] = 256;
    header[word::GREATEST] = 2048;
    header[word::LOANS] = 8;
    header[word::CHUNKS] = 4;
    header[word::PAIRS] = if engine == 1 { 8 } else { 0 };
    header[word::HEAP_SIZE] = 1 << 20;
    header[word::OBJECTS] = 100;
    header
}
