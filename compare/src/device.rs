//! The fake device: it answers as scripted and logs what the crate calls.

use {
    crate::tape::Outcome,
    gpu_alloc_types::{
        AllocationFlags, DeviceMapError, MappedMemoryRange, MemoryDevice, OutOfMemory,
    },
    std::{
        cell::{Cell, RefCell},
        ptr::NonNull,
    },
};

/// A memory object: its number and nothing else.
#[derive(Debug)]
pub(crate) struct Memory(pub u64);

/// How the device behaves in the crate's next call.
#[derive(Clone, Copy)]
pub(crate) enum Script {
    /// Gives no memory; what is asked of it is an order.
    TakeOrder,
    /// Does what the caller reports of the order.
    Deliver { outcome: Outcome, memory: u64 },
    /// Must not be asked for memory.
    Rest,
}

/// A call that the crate made.
#[derive(Clone, Copy, Debug, PartialEq, Eq)]
pub(crate) enum Call {
    Allocate { size: u64, memory_type: u32 },
    Map { memory: u64, size: u64 },
    Unmap { memory: u64 },
    Deallocate { memory: u64 },
}

/// The device, with the count of objects that it has given and not got back.
pub(crate) struct Device {
    script: Cell<Script>,
    log: RefCell<Vec<Call>>,
    objects: Cell<u32>,
}

impl Device {
    pub fn new() -> Self {
        Device { script: Cell::new(Script::Rest), log: RefCell::default(), objects: Cell::new(0) }
    }

    /// Begins a call: sets the script and clears the log.
    pub fn begin(&self, script: Script) {
        self.script.set(script);
        self.log.borrow_mut().clear();
    }

    /// The calls since `begin`.
    pub fn calls(&self) -> Vec<Call> {
        self.log.borrow().clone()
    }

    /// The memory numbers handed back since `begin`, in order.
    pub fn freed(&self) -> Vec<u64> {
        let log = self.log.borrow();
        let freed = log.iter().filter_map(|call| match *call {
            Call::Deallocate { memory } => Some(memory),
            _ => None,
        });
        freed.collect()
    }

    /// How many objects are out, whether the crate still knows of them or not.
    pub fn objects_out(&self) -> u32 {
        self.objects.get()
    }

    fn note(&self, call: Call) {
        self.log.borrow_mut().push(call);
    }
}

impl MemoryDevice<Memory> for Device {
    unsafe fn allocate_memory(
        &self,
        size: u64,
        memory_type: u32,
        _flags: AllocationFlags,
    ) -> Result<Memory, OutOfMemory> {
        self.note(Call::Allocate { size, memory_type });
        match self.script.get() {
            Script::TakeOrder => Err(OutOfMemory::OutOfDeviceMemory),
            Script::Rest => panic!("the crate asks for memory in a call that can't"),
            Script::Deliver { outcome, memory } => match outcome {
                Outcome::DeviceRefusal => Err(OutOfMemory::OutOfDeviceMemory),
                Outcome::HostRefusal => Err(OutOfMemory::OutOfHostMemory),
                _ => {
                    self.objects.set(self.objects.get() + 1);
                    Ok(Memory(memory))
                }
            },
        }
    }

    unsafe fn deallocate_memory(&self, memory: Memory) {
        self.note(Call::Deallocate { memory: memory.0 });
        self.objects.set(self.objects.get() - 1);
    }

    unsafe fn map_memory(
        &self,
        memory: &mut Memory,
        _offset: u64,
        size: u64,
    ) -> Result<NonNull<u8>, DeviceMapError> {
        self.note(Call::Map { memory: memory.0, size });
        match self.script.get() {
            Script::Deliver { outcome, .. } => match outcome {
                // The crate adds offsets to this address; nobody reads or writes there.
                Outcome::Mapped => Ok(NonNull::dangling()),
                Outcome::MapFailed => Err(DeviceMapError::MapFailed),
                Outcome::MapOutOfDeviceMemory => Err(DeviceMapError::OutOfDeviceMemory),
                Outcome::MapOutOfHostMemory => Err(DeviceMapError::OutOfHostMemory),
                _ => panic!("the crate maps an order that isn't to be mapped"),
            },
            _ => panic!("the crate maps without a delivery"),
        }
    }

    unsafe fn unmap_memory(&self, memory: &mut Memory) {
        self.note(Call::Unmap { memory: memory.0 });
    }

    unsafe fn invalidate_memory_ranges(
        &self,
        _ranges: &[MappedMemoryRange<'_, Memory>],
    ) -> Result<(), OutOfMemory> {
        unreachable!("the engines touch no mapped bytes")
    }

    unsafe fn flush_memory_ranges(
        &self,
        _ranges: &[MappedMemoryRange<'_, Memory>],
    ) -> Result<(), OutOfMemory> {
        unreachable!("the engines touch no mapped bytes")
    }
}
