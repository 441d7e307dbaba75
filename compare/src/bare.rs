//! A store and a ranking of the crate with nothing around them, to be timed: no refusals of document
//! 01, and no look at what the crate does.

use crate::{
    account::Account,
    device::Script,
    engine::{CrateBlock, Engine},
    settings::Settings,
    tape::Outcome,
    usage::MemoryForUsage,
    MemoryPropertyFlags, MemoryType,
};

/// An engine of the crate, and an account whose device gives memory until it is to rest.
pub struct Bare {
    engine: Engine,
    account: Account,
}

/// A block of the crate.
pub struct BareBlock(CrateBlock);

impl Bare {
    pub fn set_up(settings: &Settings) -> Bare {
        let account = Account::new(settings);
        let outcome = if settings.maps() { Outcome::Mapped } else { Outcome::NotWanted };
        account.device.begin(Script::Deliver { outcome, memory: 0 });
        Bare { engine: Engine::set_up(settings), account }
    }

    /// From here on the device must not be asked for memory.
    pub fn rest_device(&mut self) {
        self.account.device.begin(Script::Rest);
    }

    /// The crate's `alloc`, of a block that there is room for or that the device gives memory for.
    pub fn alloc(&mut self, size: u64, mask: u64) -> BareBlock {
        let block = self.engine.alloc(&mut self.account, size, mask);
        BareBlock(block.expect("the device gives memory"))
    }

    /// The crate's `dealloc`.
    pub fn dealloc(&mut self, block: BareBlock) {
        self.engine.dealloc(&mut self.account, block.0);
    }

    /// The crate's `cleanup`.
    pub fn cleanup(&mut self) {
        self.engine.cleanup(&mut self.account);
    }
}

impl BareBlock {
    /// Chunk, offset and size.
    pub fn place(&self) -> (u64, u64, u64) {
        self.0.place()
    }
}

/// Memory types as the crate takes them.
pub struct BareTypes(Vec<MemoryType>);

impl BareTypes {
    /// The types of these property words.
    pub fn new(words: &[u8]) -> BareTypes {
        let props = words.iter().map(|&word| MemoryPropertyFlags::from_bits_truncate(word));
        BareTypes(props.map(|props| MemoryType { heap: 0, props }).collect())
    }

    /// The crate's ranking of them for all usages.
    pub fn rank(&self) -> impl Sized {
        MemoryForUsage::new(&self.0)
    }
}
