//! The worked days of document 01.

use crate::{
    recorded::{
        day::{buddy, free_list, Day},
        Recorded,
    },
    settings::Settings,
    tape::Outcome::NotWanted,
};

pub fn days() -> Vec<Recorded> {
    vec![buddy_day(), buddy_level_31(), free_list_day(), mask_first_buddy(), mask_first_list()]
}

fn buddy_day() -> Recorded {
    let mut day = Day::open("worked-day-buddy", buddy(256, 4_096));
    day.ask(300, 0, "order 4096 3 0");
    day.deliver(NotWanted, 70, "block 1 0 0 512");
    day.ask(512, 0, "block 2 0 512 512");
    day.ask(512, 0, "block 3 0 1024 512");
    day.give_back([1, 0, 0, 512], "released 0");
    day.give_back([2, 0, 512, 512], "released 0");
    day.give_back([3, 0, 1_024, 512], "released 1 70");
    day.close()
}

fn buddy_level_31() -> Recorded {
    let mut day = Day::open("worked-day-level-31", buddy(256, 4_096));
    day.ask(1 << 39, 0, "order 1099511627776 3 0");
    day.deliver(NotWanted, 70, "block 1 0 0 549755813888");
    day.ask((1 << 39) + 1, 0, "refused 6");
    day.ask(1 << 39, 0, "block 2 0 549755813888 549755813888");
    day.close()
}

fn free_list_day() -> Recorded {
    let settings = Settings { atom_mask: 63, ..free_list(4_096, 16_384) };
    let mut day = Day::open("worked-day-list", settings);
    day.ask(100, 0, "order 4096 3 0");
    day.deliver(NotWanted, 70, "block 1 1 3968 128");
    day.ask(256, 1_023, "block 2 1 3072 896");
    day.ask(5_000, 0, "order 8192 3 0");
    day.deliver(NotWanted, 71, "block 3 2 3136 5056");
    day.give_back([1, 1, 3_968, 128], "released 0");
    day.give_back([2, 1, 3_072, 896], "released 1 70");
    day.close()
}

fn mask_first_buddy() -> Recorded {
    let mut day = Day::open("worked-day-mask-buddy", buddy(256, 4_096));
    day.ask(0, 1_022, "refused 5");
    day.ask(0, 0, "refused 6");
    day.close()
}

fn mask_first_list() -> Recorded {
    let mut day = Day::open("worked-day-mask-list", free_list(4_096, 16_384));
    day.ask(0, 1_022, "refused 5");
    day.ask(0, 0, "refused 6");
    day.close()
}
