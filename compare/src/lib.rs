//! The judge: runs of the crate gpu-alloc 0.6.0, held against other implementations of document 01.
//!
//! The first half of this root is the crate, compiled from the published files under docs/src
//! byte for byte; only its root's `mod` lines and inner attributes are restated here. The second
//! half is ours. They share one root because the crate's files name each other by `crate::`.

include!(concat!(env!("OUT_DIR"), "/crate_root.rs"));

mod allocator {
    include!("../../docs/src/src/allocator.rs.txt");
}
mod block {
    include!("../../docs/src/src/block.rs.txt");
}
mod buddy {
    include!("../../docs/src/src/buddy.rs.txt");
    mod probe;
}
mod config {
    include!("../../docs/src/src/config.rs.txt");
}
mod error {
    include!("../../docs/src/src/error.rs.txt");
}
mod freelist {
    include!("../../docs/src/src/freelist.rs.txt");
    mod probe;
}
mod heap {
    include!("../../docs/src/src/heap.rs.txt");
    mod probe;
}
mod slab {
    include!("../../docs/src/src/slab.rs.txt");
    mod probe;
}
mod usage {
    include!("../../docs/src/src/usage.rs.txt");
    pub(crate) mod probe;
}
mod util {
    include!("../../docs/src/src/util.rs.txt");
}

mod account;
pub mod answer;
pub mod bare;
pub mod counter;
mod device;
pub mod difference;
mod engine;
pub mod generator;
mod ledger;
pub mod parallel;
#[rustfmt::skip]
mod plain;
pub mod random;
mod recorded;
pub mod runs;
pub mod settings;
pub mod shelf;
mod smallest;
mod store;
mod tally;
pub mod tape;
