//! The histories of the stores that the program `damage` damages, none of whose calls is refused.

use crate::{
    recorded::{
        day::{free_list, mapped, Day},
        Recorded,
    },
    settings::{Kind, Settings},
    tape::Outcome::{Mapped, NotWanted},
};

pub fn days() -> Vec<Recorded> {
    let mut days = vec![untouched(), joined(), scattered(), waiting(), emptied(), full()];
    days.extend([buddy_untouched(), buddy_split(), buddy_vacated()]);
    days.extend([buddy_waiting(), buddy_full(), buddy_spent()]);
    days
}

/// A store whose orders aren't mapped.
fn local(start_chunk: u64, final_chunk: u64) -> Settings {
    let settings = free_list(start_chunk, final_chunk);
    Settings { memory_type: 1, heap: 3, heap_size: 4_096, objects: 9, ..settings }
}

/// One whose orders are.
fn visible(start_chunk: u64, final_chunk: u64) -> Settings {
    mapped(Settings { memory_type: 2, ..local(start_chunk, final_chunk) })
}

fn untouched() -> Recorded {
    let settings = Settings { store: 10, loans: 4, chunks: 2, ..local(64, 256) };
    Day::open("damage-untouched", settings).close()
}

/// Two chunks; in the first a region that two returns made, whose places are vacant.
fn joined() -> Recorded {
    let settings = Settings { store: 11, loans: 5, chunks: 3, ..local(64, 256) };
    let mut day = Day::open("damage-joined", settings);
    day.ask(40, 0, "order 64 1 0");
    day.deliver(NotWanted, 501, "block 1 1 24 40");
    day.ask(16, 0, "block 2 1 8 16");
    day.ask(8, 0, "block 3 1 0 8");
    day.ask(30, 0, "order 128 1 0");
    day.deliver(NotWanted, 502, "block 4 2 98 30");
    day.give_back([2, 1, 8, 16], "released 0");
    day.give_back([1, 1, 24, 40], "released 0");
    day.close()
}

/// Three regions in two chunks, units of 16 bytes, aligned blocks, places vacated and taken again.
fn scattered() -> Recorded {
    let settings = Settings { store: 12, atom_mask: 15, loans: 6, chunks: 3, ..visible(128, 512) };
    let mut day = Day::open("damage-scattered", settings);
    day.ask(10, 63, "order 128 2 1");
    day.deliver(Mapped, 601, "block 1 1 64 64");
    day.ask(16, 0, "block 2 1 48 16");
    day.ask(16, 0, "block 3 1 32 16");
    day.ask(16, 0, "block 4 1 16 16");
    day.give_back([2, 1, 48, 16], "released 0");
    day.ask(100, 0, "order 256 2 1");
    day.deliver(Mapped, 602, "block 5 2 144 112");
    day.give_back([4, 1, 16, 16], "released 0");
    day.ask(16, 127, "block 6 2 128 16");
    day.give_back([1, 1, 64, 64], "released 0");
    day.close()
}

/// A loan, and an order that is open.
fn waiting() -> Recorded {
    let settings = Settings { store: 13, loans: 5, chunks: 2, ..visible(64, 64) };
    let mut day = Day::open("damage-waiting", settings);
    day.ask(50, 0, "order 64 2 1");
    day.deliver(Mapped, 701, "block 1 1 14 50");
    day.ask(20, 0, "order 64 2 1");
    day.close()
}

/// Everything came back, and was cleaned up.
fn emptied() -> Recorded {
    let settings = Settings { store: 14, atom_mask: 7, loans: 4, chunks: 3, ..visible(64, 512) };
    let mut day = Day::open("damage-emptied", settings);
    day.ask(40, 0, "order 64 2 1");
    day.deliver(Mapped, 801, "block 1 1 24 40");
    day.ask(40, 0, "order 128 2 1");
    day.deliver(Mapped, 802, "block 2 2 88 40");
    day.give_back([1, 1, 24, 40], "released 1 801");
    day.give_back([2, 2, 88, 40], "released 0");
    day.clean_up("released 1 802");
    day.close()
}

/// No place is left for a loan or a chunk, and no free region.
fn full() -> Recorded {
    let settings = Settings { store: 15, loans: 4, chunks: 2, ..local(32, 64) };
    let mut day = Day::open("damage-full", settings);
    day.ask(32, 0, "order 32 1 0");
    day.deliver(NotWanted, 901, "block 1 1 0 32");
    day.ask(30, 0, "order 64 1 0");
    day.deliver(NotWanted, 902, "block 2 2 34 30");
    day.ask(30, 0, "block 3 2 4 30");
    day.ask(4, 0, "block 4 2 0 4");
    day.close()
}

/// A buddy store of so many pairs at a level, loans and objects, and of two chunks.
fn buddy(pairs: usize, loans: usize, objects: u32) -> Settings {
    let kind = Kind::Buddy { minimal: 8, initial: 64, pairs };
    Settings { kind, loans, chunks: 2, objects, ..local(64, 64) }
}

fn buddy_untouched() -> Recorded {
    let settings = Settings { store: 20, ..buddy(2, 4, 9) };
    Day::open("damage-buddy-untouched", settings).close()
}

/// One chunk, split down to the least size twice; both of these pairs have a ready side.
fn buddy_split() -> Recorded {
    let settings = Settings { store: 21, ..buddy(3, 6, 9) };
    let mut day = Day::open("damage-buddy-split", settings);
    day.ask(8, 0, "order 64 1 0");
    day.deliver(NotWanted, 501, "block 1 0 0 8");
    day.ask(8, 0, "block 2 0 8 8");
    day.ask(8, 0, "block 3 0 16 8");
    day.ask(30, 0, "block 4 0 32 32");
    day.give_back([2, 0, 8, 8], "released 0");
    day.close()
}

/// Two chunks of different times; places of loans, pairs and a chunk vacated, some taken again.
fn buddy_vacated() -> Recorded {
    let settings = mapped(Settings { store: 22, atom_mask: 7, ..buddy(2, 5, 9) });
    let mut day = Day::open("damage-buddy-vacated", settings);
    day.ask(8, 0, "order 64 1 1");
    day.deliver(Mapped, 601, "block 1 0 0 8");
    day.ask(8, 0, "block 2 0 8 8");
    day.ask(40, 0, "order 128 1 1");
    day.deliver(Mapped, 602, "block 3 1 0 64");
    day.ask(60, 0, "block 4 1 64 64");
    day.give_back([1, 0, 0, 8], "released 0");
    day.give_back([2, 0, 8, 8], "released 1 601");
    day.ask(10, 15, "order 128 1 1");
    day.deliver(Mapped, 603, "block 5 0 0 16");
    day.give_back([4, 1, 64, 64], "released 0");
    day.close()
}

/// A loan, and an open order that raised the levels.
fn buddy_waiting() -> Recorded {
    let settings = mapped(Settings { store: 23, ..buddy(2, 4, 9) });
    let mut day = Day::open("damage-buddy-waiting", settings);
    day.ask(20, 0, "order 64 1 1");
    day.deliver(Mapped, 701, "block 1 0 0 32");
    day.ask(64, 0, "order 128 1 1");
    day.close()
}

/// No place is left for a loan or a chunk.
fn buddy_full() -> Recorded {
    let settings = Settings { store: 24, ..buddy(2, 4, 9) };
    let mut day = Day::open("damage-buddy-full", settings);
    day.ask(32, 0, "order 64 1 0");
    day.deliver(NotWanted, 901, "block 1 0 0 32");
    day.ask(32, 0, "block 2 0 32 32");
    day.ask(8, 0, "order 64 1 0");
    day.deliver(NotWanted, 902, "block 3 1 0 8");
    day.ask(8, 0, "block 4 1 8 8");
    day.close()
}

/// A loan, and no object is left.
fn buddy_spent() -> Recorded {
    let settings = Settings { store: 25, ..buddy(2, 4, 1) };
    let mut day = Day::open("damage-buddy-spent", settings);
    day.ask(16, 0, "order 64 1 0");
    day.deliver(NotWanted, 951, "block 1 0 0 16");
    day.close()
}
