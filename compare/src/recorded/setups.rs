//! Headers at the edges of document 01's table: each word just outside it, and all at its ends.

use crate::{
    counter::SETUP_REFUSED,
    recorded::{
        day::{buddy, free_list, Day},
        of_tape, Recorded,
    },
    settings::{Kind, Settings, HEAP_LIMIT},
    tape::{word, write_header, write_record, Outcome::*, Record, HEADER_BYTES},
};

/// What is spoiled, in which word, with which value.
type Row = (&'static str, usize, u64);

pub fn tapes() -> Vec<Recorded> {
    let buddy = buddy(256, 4_096);
    let list = Settings { atom_mask: 63, ..free_list(4_096, 16_384) };
    let mut tapes = vec![short(0), short(HEADER_BYTES - 1)];
    tapes.extend(outside("engine", buddy, ENGINES));
    tapes.extend(outside("buddy", buddy, BOTH));
    tapes.extend(outside("buddy", buddy, BUDDY));
    tapes.extend(outside("list", list, BOTH));
    tapes.extend(outside("list", list, LIST));
    tapes.extend([least(), least_list(), greatest(), greatest_list()]);
    tapes
}

const ENGINES: &[Row] = &[("0", word::ENGINE, 0), ("3", word::ENGINE, 3)];

const BOTH: &[Row] = &[
    ("store-number", word::STORE, 1 << 32),
    ("memory-type", word::MEMORY_TYPE, 32),
    ("property-word", word::PROPERTIES, 64),
    ("heap-number", word::HEAP, 16),
    ("atom-mask-form", word::ATOM_MASK, 2),
    ("atom-mask-large", word::ATOM_MASK, (1 << 17) - 1),
    ("loans-0", word::LOANS, 0),
    ("loans-513", word::LOANS, 513),
    ("chunks-0", word::CHUNKS, 0),
    ("chunks-65", word::CHUNKS, 65),
    ("heap-size", word::HEAP_SIZE, HEAP_LIMIT + 1),
    ("objects", word::OBJECTS, 1 << 32),
];

const BUDDY: &[Row] = &[
    ("minimal-0", word::LEAST, 0),
    ("minimal-form", word::LEAST, 255),
    ("minimal-large", word::LEAST, 1 << 17),
    ("initial-0", word::GREATEST, 0),
    ("initial-form", word::GREATEST, 4_095),
    ("initial-large", word::GREATEST, 1 << 41),
    ("pairs-0", word::PAIRS, 0),
    ("pairs-257", word::PAIRS, 257),
];

const LIST: &[Row] = &[
    ("start-0", word::LEAST, 0),
    ("start-form", word::LEAST, 4_097),
    ("start-above-final", word::LEAST, 16_384 + 64),
    ("final-form", word::GREATEST, 16_385),
    ("final-large", word::GREATEST, (1 << 40) + 64),
    ("pairs-1", word::PAIRS, 1),
];

/// A tape for each row: the settings' header with one word spoiled, and an ask.
fn outside(engine: &str, settings: Settings, rows: &[Row]) -> Vec<Recorded> {
    let tapes = rows.iter().map(|&(what, word, value)| {
        let mut header = settings.header();
        header[word] = value;
        let mut tape = Vec::new();
        write_header(&mut tape, &header);
        write_record(&mut tape, &Record::Ask { size: 1, mask: 0 });
        let recorded = of_tape(format!("refused-1-{engine}-{what}"), tape);
        assert_eq!(recorded.answers, SETUP_REFUSED, "{}", recorded.name);
        recorded
    });
    tapes.collect()
}

fn short(bytes: usize) -> Recorded {
    let mut tape = Vec::new();
    write_header(&mut tape, &buddy(1, 2).header());
    tape.truncate(bytes);
    of_tape(format!("refused-1-header-of-{bytes}-bytes"), tape)
}

fn least() -> Recorded {
    let kind = Kind::Buddy { minimal: 1, initial: 1, pairs: 1 };
    let mut day = Day::open("setup-least-buddy", least_of(kind));
    day.ask(1, 0, "order 2 0 0");
    day.deliver(NotWanted, 0, "block 1 0 0 1");
    day.ask(1, 0, "refused 8");
    day.give_back([1, 0, 0, 1], "released 1 0");
    day.close()
}

fn least_list() -> Recorded {
    let kind = Kind::FreeList { start_chunk: 1, final_chunk: 1 };
    let mut day = Day::open("setup-least-list", least_of(kind));
    day.ask(2, 0, "refused 6");
    day.ask(1, 0, "order 1 0 0");
    day.deliver(NotWanted, 0, "block 1 1 0 1");
    day.ask(1, 0, "refused 8");
    day.give_back([1, 1, 0, 1], "released 0");
    day.clean_up("released 1 0");
    day.close()
}

fn least_of(kind: Kind) -> Settings {
    Settings {
        kind,
        store: 0,
        memory_type: 0,
        properties: 0,
        heap: 0,
        atom_mask: 0,
        loans: 1,
        chunks: 1,
        heap_size: 0,
        objects: 1,
    }
}

fn greatest() -> Recorded {
    let kind = Kind::Buddy { minimal: 65_536, initial: 1 << 48, pairs: 256 };
    let mut day = Day::open("setup-greatest-buddy", greatest_of(kind));
    day.ask(1 << 47, (1 << 40) - 1, "order 281474976710656 31 1");
    day.deliver(Mapped, u64::MAX, "block 1 0 0 140737488355328");
    day.ask((1 << 47) + 1, 0, "refused 6");
    day.ask(1, 0, "block 2 0 140737488355328 65536");
    day.give_back([1, 0, 0, 1 << 47], "released 0");
    day.give_back([2, 0, 1 << 47, 65_536], "released 1 18446744073709551615");
    day.close()
}

fn greatest_list() -> Recorded {
    let kind = Kind::FreeList { start_chunk: 1 << 40, final_chunk: 1 << 40 };
    let mut day = Day::open("setup-greatest-list", greatest_of(kind));
    day.ask((1 << 40) - 1, 0, "order 1099511627776 31 1");
    day.deliver(Mapped, u64::MAX, "block 1 1 0 1099511627776");
    day.ask((1 << 40) + 1, 0, "refused 6");
    day.give_back([1, 1, 0, 1 << 40], "released 0");
    day.clean_up("released 1 18446744073709551615");
    day.close()
}

fn greatest_of(kind: Kind) -> Settings {
    Settings {
        kind,
        store: u32::MAX,
        memory_type: 31,
        properties: 63,
        heap: 15,
        atom_mask: 65_535,
        loans: 512,
        chunks: 64,
        heap_size: HEAP_LIMIT,
        objects: u32::MAX,
    }
}
