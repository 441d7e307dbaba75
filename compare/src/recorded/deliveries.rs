//! Deliveries that fail, and deliveries that can't be.

use crate::{
    recorded::{
        day::{buddy, free_list, mapped, Day},
        Recorded,
    },
    settings::Settings,
    tape::Outcome::*,
};

pub fn days() -> Vec<Recorded> {
    vec![
        refused_by_device_buddy(),
        refused_by_device_list(),
        map_fails_buddy(),
        map_fails_list(),
        memory_held("refused-13-held-buddy", buddy(4, 8), ["block 1 0 0 4", "block 2 0 4 4"]),
        memory_held("refused-13-held-list", free_list(8, 8), ["block 1 1 4 4", "block 2 1 0 4"]),
        unsuited("refused-13-unsuited-buddy", buddy(4, 8), "block 1 0 0 4"),
        unsuited("refused-13-unsuited-list", free_list(8, 8), "block 1 1 4 4"),
    ]
}

/// 11 and 12 by allocation charge nothing, spend no serial and keep the levels.
fn refused_by_device_buddy() -> Recorded {
    let mut day = Day::open("refused-11-12-device-buddy", buddy(1, 2));
    day.ask(16, 0, "order 32 3 0");
    day.deliver(DeviceRefusal, 0, "refused 11");
    day.ask(1, 0, "order 32 3 0");
    day.deliver(HostRefusal, 0, "refused 12");
    day.ask(1, 0, "order 32 3 0");
    day.deliver(NotWanted, 0, "block 1 0 0 1");
    day.ask(32, 0, "order 64 3 0");
    day.deliver(DeviceRefusal, 0, "refused 11");
    day.ask(16, 0, "block 2 0 16 16");
    day.close()
}

/// The same for a free list: the chunk size stays raised, and no chunk number is spent.
fn refused_by_device_list() -> Recorded {
    let mut day = Day::open("refused-11-12-device-list", free_list(4, 64));
    day.ask(20, 0, "order 32 3 0");
    day.deliver(DeviceRefusal, 0, "refused 11");
    day.ask(1, 0, "order 32 3 0");
    day.deliver(HostRefusal, 0, "refused 12");
    day.ask(1, 0, "order 32 3 0");
    day.deliver(NotWanted, 0, "block 1 1 31 1");
    day.ask(40, 0, "order 64 3 0");
    day.deliver(DeviceRefusal, 0, "refused 11");
    day.ask(31, 0, "block 2 1 0 31");
    day.close()
}

/// A map failure has charged the heap, counted the object, and keeps no chunk; the memory number
/// isn't held and may be delivered again.
fn map_fails_buddy() -> Recorded {
    let mut day = Day::open("refused-11-12-map-buddy", mapped(buddy(4, 8)));
    day.ask(4, 0, "order 8 3 1");
    day.deliver(NotWanted, 70, "refused 13");
    day.deliver(MapFailed, 70, "refused 12");
    day.ask(4, 0, "order 8 3 1");
    day.deliver(MapOutOfDeviceMemory, 70, "refused 11");
    day.ask(8, 0, "order 16 3 1");
    day.deliver(MapOutOfHostMemory, 70, "refused 12");
    day.ask(4, 0, "order 16 3 1");
    day.deliver(Mapped, 70, "block 1 0 0 4");
    day.give_back([1, 0, 0, 4], "released 1 70");
    day.close()
}

/// A free list's "map failed" gives the memory back and restores both counts.
fn map_fails_list() -> Recorded {
    let mut day = Day::open("refused-11-12-map-list", mapped(free_list(4, 64)));
    day.ask(4, 0, "order 4 3 1");
    day.deliver(NotWanted, 70, "refused 13");
    day.deliver(MapFailed, 70, "refused 12 free 70");
    day.ask(4, 0, "order 4 3 1");
    day.deliver(MapOutOfDeviceMemory, 70, "refused 11");
    day.ask(5, 0, "order 8 3 1");
    day.deliver(MapOutOfHostMemory, 70, "refused 12");
    day.ask(9, 0, "order 16 3 1");
    day.deliver(MapFailed, 0, "refused 12 free 0");
    day.ask(4, 0, "order 16 3 1");
    day.deliver(Mapped, 70, "block 1 1 12 4");
    day.give_back([1, 1, 12, 4], "released 0");
    day.clean_up("released 1 70");
    day.close()
}

/// A held number is refused whatever the map outcome, and the order stays open. Memory 0 is an
/// ordinary number, and a device's refusal names none.
fn memory_held(name: &'static str, settings: Settings, [first, second]: [&str; 2]) -> Recorded {
    let mut day = Day::open(name, mapped(settings));
    day.ask(4, 0, "order 8 3 1");
    day.deliver(Mapped, 0, first);
    day.ask(4, 0, second);
    let order = |day: &mut Day| match settings.is_free_list() {
        true => day.ask(8, 0, "order 8 3 1"),
        false => day.ask(4, 0, "order 8 3 1"),
    };
    order(&mut day);
    for outcome in [Mapped, NotWanted, MapFailed, MapOutOfDeviceMemory, MapOutOfHostMemory] {
        day.deliver(outcome, 0, "refused 13");
    }
    day.deliver(DeviceRefusal, 0, "refused 11");
    order(&mut day);
    day.deliver(HostRefusal, 0, "refused 12");
    order(&mut day);
    day.deliver(MapOutOfDeviceMemory, 1, "refused 11");
    order(&mut day);
    let (chunk, size) = if settings.is_free_list() { (2, 8) } else { (1, 4) };
    day.deliver(Mapped, 1, &format!("block 3 {chunk} 0 {size}"));
    day.close()
}

/// An order that isn't to be mapped suits "not wanted" alone.
fn unsuited(name: &'static str, settings: Settings, block: &str) -> Recorded {
    let mut day = Day::open(name, settings);
    day.ask(4, 0, "order 8 3 0");
    for outcome in [Mapped, MapFailed, MapOutOfDeviceMemory, MapOutOfHostMemory] {
        day.deliver(outcome, 70, "refused 13");
    }
    day.deliver(NotWanted, 70, block);
    day.close()
}
