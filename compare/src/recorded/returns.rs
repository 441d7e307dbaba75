//! Returns of what isn't on loan.

use crate::{
    recorded::{
        day::{buddy, free_list, Day},
        Recorded,
    },
    settings::Settings,
    tape::Outcome::NotWanted,
};

pub fn days() -> Vec<Recorded> {
    vec![
        stale("refused-7-buddy", buddy(4, 8), [1, 0, 0, 4]),
        stale("refused-7-list", free_list(8, 8), [1, 1, 4, 4]),
        lent_again("trap-stale-by-place-buddy", buddy(4, 8), [1, 0, 0, 4], [2, 0, 4, 4]),
        lent_again("trap-stale-by-place-list", free_list(8, 8), [1, 1, 4, 4], [2, 1, 0, 4]),
    ]
}

/// Never given, altered in each word, and returned twice.
fn stale(name: &'static str, settings: Settings, slip: [u64; 4]) -> Recorded {
    let mut day = Day::open(name, settings);
    day.give_back([0, 0, 0, 0], "refused 7");
    day.give_back(slip, "refused 7");
    day.ask(4, 0, "order 8 3 0");
    day.deliver(NotWanted, 70, &block(slip));
    day.ask(4, 0, &block([2, slip[1], 4 - slip[2], 4]));
    for word in 0..4 {
        for step in [1, u64::MAX, 1 << 32] {
            let mut altered = slip;
            altered[word] = altered[word].wrapping_add(step);
            day.give_back(altered, "refused 7");
        }
    }
    day.give_back(slip, "released 0");
    day.give_back(slip, "refused 7");
    day.close()
}

/// The trap "Matching a return by place alone": the room is lent again, the old slip is stale.
fn lent_again(
    name: &'static str,
    settings: Settings,
    first: [u64; 4],
    second: [u64; 4],
) -> Recorded {
    let again = [3, first[1], first[2], first[3]];
    let mut day = Day::open(name, settings);
    day.ask(4, 0, "order 8 3 0");
    day.deliver(NotWanted, 70, &block(first));
    day.ask(4, 0, &block(second));
    day.give_back(first, "released 0");
    day.ask(4, 0, &block(again));
    day.give_back(first, "refused 7");
    day.give_back(again, "released 0");
    day.give_back(again, "refused 7");
    day.give_back(first, "refused 7");
    day.close()
}

fn block([serial, chunk, offset, size]: [u64; 4]) -> String {
    format!("block {serial} {chunk} {offset} {size}")
}
