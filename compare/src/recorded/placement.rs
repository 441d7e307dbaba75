//! Where blocks lie, what is ordered and what is released.

use crate::{
    recorded::{
        day::{buddy, free_list, Day},
        Recorded,
    },
    settings::Settings,
    tape::Outcome::NotWanted,
};

pub fn days() -> Vec<Recorded> {
    vec![
        ring_head(),
        own_top(),
        vacated_places(),
        initial_below_minimal(),
        no_levels_at_first(),
        buddy_masks(),
        releases_in_list_order(),
        spared_chunk(),
        joins(),
        chunk_sizes(),
        list_masks(),
    ]
}

/// A pair that isn't the head goes, and the head moves to its next all the same.
fn ring_head() -> Recorded {
    let mut day = Day::open("trap-ring-head", buddy(1, 8));
    day.ask(1, 0, "order 8 3 0");
    day.deliver(NotWanted, 70, "block 1 0 0 1");
    for place in 1..8 {
        day.ask(1, 0, &format!("block {} 0 {place} 1", place + 1));
    }
    for place in [1, 3, 5, 7] {
        day.give_back([place + 1, 0, place, 1], "released 0");
    }
    day.give_back([3, 0, 2, 1], "released 0");
    day.ask(1, 0, "block 9 0 5 1");
    day.ask(1, 0, "block 10 0 7 1");
    day.ask(1, 0, "block 11 0 1 1");
    day.ask(1, 0, "block 12 0 2 1");
    day.close()
}

/// A chunk from a time of fewer levels is released when its own top pair goes.
fn own_top() -> Recorded {
    let mut day = Day::open("buddy-own-top", buddy(1, 2));
    day.ask(1, 0, "order 2 3 0");
    day.deliver(NotWanted, 70, "block 1 0 0 1");
    day.ask(3, 0, "order 8 3 0");
    day.deliver(NotWanted, 71, "block 2 1 0 4");
    day.ask(1, 0, "block 3 0 1 1");
    day.ask(1, 0, "block 4 1 4 1");
    day.give_back([1, 0, 0, 1], "released 0");
    day.give_back([3, 0, 1, 1], "released 1 70");
    day.give_back([4, 1, 4, 1], "released 0");
    day.give_back([2, 1, 0, 4], "released 1 71");
    day.close()
}

/// Chunk numbers of a buddy store are places, the most recently vacated first.
fn vacated_places() -> Recorded {
    let mut day = Day::open("buddy-vacated-places", buddy(1, 2));
    let whole = |day: &mut Day, memory: u64, serial: u64, chunk: u64| {
        day.ask(1, 0, "order 2 3 0");
        day.deliver(NotWanted, memory, &format!("block {serial} {chunk} 0 1"));
        day.ask(1, 0, &format!("block {} {chunk} 1 1", serial + 1));
    };
    whole(&mut day, 70, 1, 0);
    whole(&mut day, 71, 3, 1);
    whole(&mut day, 72, 5, 2);
    for (chunk, memory) in [(0, 70), (2, 72)] {
        let serial = 2 * chunk + 1;
        day.give_back([serial, chunk, 0, 1], "released 0");
        day.give_back([serial + 1, chunk, 1, 1], &format!("released 1 {memory}"));
    }
    whole(&mut day, 72, 7, 2);
    whole(&mut day, 70, 9, 0);
    day.close()
}

fn initial_below_minimal() -> Recorded {
    let mut day = Day::open("buddy-initial-below-minimal", buddy(256, 16));
    day.ask(1, 0, "order 512 3 0");
    day.deliver(NotWanted, 70, "block 1 0 0 256");
    day.ask(256, 0, "block 2 0 256 256");
    day.ask(257, 0, "order 1024 3 0");
    day.deliver(NotWanted, 71, "block 3 1 0 512");
    day.give_back([2, 0, 256, 256], "released 0");
    day.give_back([1, 0, 0, 256], "released 1 70");
    day.ask(256, 0, "block 4 1 512 256");
    day.close()
}

fn no_levels_at_first() -> Recorded {
    let mut day = Day::open("buddy-no-levels-at-set-up", buddy(256, 256));
    day.ask(1_000, 0, "order 2048 3 0");
    day.deliver(NotWanted, 70, "block 1 0 0 1024");
    day.ask(1, 0, "block 2 0 1024 256");
    day.give_back([1, 0, 0, 1_024], "released 0");
    day.give_back([2, 0, 1_024, 256], "released 1 70");
    day.ask(1, 0, "order 2048 3 0");
    day.close()
}

/// Mask, atom and minimal size together round the size, then to a power of two.
fn buddy_masks() -> Recorded {
    let settings = Settings { atom_mask: 15, ..buddy(4, 256) };
    let mut day = Day::open("buddy-masks", settings);
    day.ask(1, 0, "order 256 3 0");
    day.deliver(NotWanted, 70, "block 1 0 0 16");
    day.ask(1, 63, "block 2 0 64 64");
    day.ask(17, 0, "block 3 0 32 32");
    day.ask(65, 31, "block 4 0 128 128");
    day.ask(1, 0, "block 5 0 16 16");
    day.close()
}

/// Each kept region met sends the first of those marked so far to the back of the list.
fn releases_in_list_order() -> Recorded {
    let mut day = Day::open("trap-release-order", free_list(4, 64));
    day.ask(1, 0, "order 4 3 0");
    day.deliver(NotWanted, 71, "block 1 1 3 1");
    day.ask(8, 0, "order 8 3 0");
    day.deliver(NotWanted, 72, "block 2 2 0 8");
    day.give_back([2, 2, 0, 8], "released 0");
    day.ask(9, 0, "order 16 3 0");
    day.deliver(NotWanted, 73, "block 3 3 7 9");
    day.give_back([1, 1, 3, 1], "released 2 72 71");
    day.give_back([3, 3, 7, 9], "released 0");
    day.clean_up("released 1 73");
    day.clean_up("released 0");
    day.close()
}

/// A return spares the chunk of the last region, a clean-up spares none; numbers aren't reused.
fn spared_chunk() -> Recorded {
    let mut day = Day::open("list-spared-chunk", free_list(8, 8));
    day.clean_up("released 0");
    day.ask(8, 0, "order 8 3 0");
    day.deliver(NotWanted, 70, "block 1 1 0 8");
    day.ask(8, 0, "order 8 3 0");
    day.deliver(NotWanted, 71, "block 2 2 0 8");
    day.give_back([2, 2, 0, 8], "released 0");
    day.give_back([1, 1, 0, 8], "released 1 70");
    day.ask(3, 0, "block 3 2 5 3");
    day.clean_up("released 0");
    day.give_back([3, 2, 5, 3], "released 0");
    day.clean_up("released 1 71");
    day.ask(8, 0, "order 8 3 0");
    day.deliver(NotWanted, 70, "block 4 3 0 8");
    day.close()
}

/// A return joins with both neighbours, with one, or with none.
fn joins() -> Recorded {
    let mut day = Day::open("list-joins", free_list(8, 8));
    day.ask(2, 0, "order 8 3 0");
    day.deliver(NotWanted, 70, "block 1 1 6 2");
    day.ask(2, 0, "block 2 1 4 2");
    day.ask(2, 0, "block 3 1 2 2");
    day.ask(2, 0, "block 4 1 0 2");
    day.give_back([2, 1, 4, 2], "released 0");
    day.give_back([4, 1, 0, 2], "released 0");
    day.ask(4, 0, "order 8 3 0");
    day.deliver(NotWanted, 71, "block 5 2 4 4");
    day.ask(4, 0, "block 6 2 0 4");
    day.give_back([3, 1, 2, 2], "released 0");
    day.ask(6, 0, "block 7 1 0 6");
    day.close()
}

/// Chunk size is raised by a power of two or doubled, and never passes the final chunk.
fn chunk_sizes() -> Recorded {
    let settings = Settings { chunks: 8, ..free_list(3, 50) };
    let mut day = Day::open("list-chunk-sizes", settings);
    day.ask(3, 0, "order 3 3 0");
    day.deliver(NotWanted, 70, "block 1 1 0 3");
    day.ask(6, 0, "order 6 3 0");
    day.deliver(NotWanted, 71, "block 2 2 0 6");
    day.ask(25, 0, "order 48 3 0");
    day.deliver(NotWanted, 72, "block 3 3 23 25");
    day.ask(24, 0, "order 50 3 0");
    day.deliver(NotWanted, 73, "block 4 4 26 24");
    day.ask(50, 0, "order 50 3 0");
    day.deliver(NotWanted, 74, "block 5 5 0 50");
    day.ask(51, 0, "refused 6");
    day.close()
}

/// The highest aligned place that ends within the region; the block runs to the region's end.
fn list_masks() -> Recorded {
    let settings = Settings { atom_mask: 3, ..free_list(64, 64) };
    let mut day = Day::open("list-masks", settings);
    day.ask(5, 0, "order 64 3 0");
    day.deliver(NotWanted, 70, "block 1 1 56 8");
    day.ask(5, 15, "block 2 1 48 8");
    day.ask(1, 31, "block 3 1 32 16");
    day.ask(1, (1 << 40) - 1, "block 4 1 0 32");
    day.ask(1, (1 << 40) - 1, "order 64 3 0");
    day.deliver(NotWanted, 71, "block 5 2 0 64");
    day.close()
}
