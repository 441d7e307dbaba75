//! Tapes that spend the heap's count: maps that run out of memory strand what was delivered.

use crate::{
    settings::{Kind, Settings, HEAP_LIMIT},
    tape::{write_header, write_record, Outcome, Record},
};

/// Strands memory until heap used is exactly 2^62 and no object is left, then asks once more:
/// refusal 10, which comes before 9. A free list has to strand 2^22 chunks, a buddy store 2^14.
pub fn spent_heap(free_list: bool) -> Vec<u8> {
    let (kind, chunk) = match free_list {
        true => {
            let chunk = 1 << 40;
            (Kind::FreeList { start_chunk: chunk, final_chunk: chunk }, chunk)
        }
        false => {
            let (minimal, initial) = (1 << 16, 1 << 48);
            (Kind::Buddy { minimal, initial, pairs: 1 }, initial)
        }
    };
    let stranded = HEAP_LIMIT / chunk;
    let settings = Settings {
        kind,
        store: 1,
        memory_type: 1,
        properties: 2,
        heap: 0,
        atom_mask: 0,
        loans: 1,
        chunks: 1,
        heap_size: HEAP_LIMIT,
        objects: stranded as u32,
    };
    let ask = Record::Ask { size: 1, mask: 0 };
    let strand = Record::Deliver { outcome: Outcome::MapOutOfDeviceMemory, memory: 1 };

    let mut tape = Vec::new();
    write_header(&mut tape, &settings.header());
    for _ in 0..stranded {
        write_record(&mut tape, &ask);
        write_record(&mut tape, &strand);
    }
    write_record(&mut tape, &ask);
    tape
}
