//! Tapes that end in a record that can't be read, after one that can; and a tape of no records.

use crate::{
    recorded::{
        day::{buddy, free_list},
        of_tape, Recorded,
    },
    settings::Settings,
    tape::{write_header, write_record, Record},
};

pub fn tapes() -> Vec<Recorded> {
    let buddy = buddy(256, 4_096);
    let list = free_list(4_096, 16_384);
    let stop = |name: &str, settings: Settings, bytes: &[u8]| {
        let mut tape = Vec::new();
        write_header(&mut tape, &settings.header());
        write_record(&mut tape, &Record::Ask { size: 1, mask: 0 });
        tape.extend(bytes);
        let recorded = of_tape(format!("stopped-{name}"), tape);
        assert!(recorded.answers.ends_with("stopped 17\n"), "{name}");
        recorded
    };
    let long = [0; 32];
    let with_memory = [1, 0, 0, 0, 0, 0, 0, 0];
    vec![
        empty("no-records-buddy", buddy),
        empty("no-records-list", list),
        stop("kind-0", buddy, &[0]),
        stop("kind-5", list, &[&[5][..], &long].concat()),
        stop("outcome-7", buddy, &[&[2, 7][..], &long].concat()),
        stop("device-refusal-with-memory", buddy, &[&[2, 5][..], &with_memory].concat()),
        stop("host-refusal-with-memory", list, &[&[2, 6][..], &with_memory].concat()),
        stop("clean-up-of-buddy", buddy, &[4]),
        stop("short-ask", buddy, &[&[1][..], &long[..15]].concat()),
        stop("short-delivery", list, &[&[2, 0][..], &long[..7]].concat()),
        stop("short-return", buddy, &[&[3][..], &long[..31]].concat()),
        stop("kind-only", list, &[3]),
    ]
}

fn empty(name: &str, settings: Settings) -> Recorded {
    let mut tape = Vec::new();
    write_header(&mut tape, &settings.header());
    of_tape(name.into(), tape)
}
