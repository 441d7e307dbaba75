//! Stand-in for the crate `gpu-alloc-types`, version 0.3: types, flags and the device trait.
//!
//! It names things and decides nothing. Property bits have Vulkan's values.

#![no_std]

extern crate alloc;

use {alloc::borrow::Cow, core::ptr::NonNull};

bitflags::bitflags! {
    /// Properties of a memory type.
    #[derive(Clone, Copy, Debug, Eq, Hash, Ord, PartialEq, PartialOrd)]
    pub struct MemoryPropertyFlags: u8 {
        const DEVICE_LOCAL = 0x01;
        const HOST_VISIBLE = 0x02;
        const HOST_COHERENT = 0x04;
        const HOST_CACHED = 0x08;
        const LAZILY_ALLOCATED = 0x10;
        const PROTECTED = 0x20;
    }
}

bitflags::bitflags! {
    /// Wishes that go with a memory object.
    #[derive(Clone, Copy, Debug, Eq, Hash, Ord, PartialEq, PartialOrd)]
    pub struct AllocationFlags: u8 {
        const DEVICE_ADDRESS = 0x1;
    }
}

/// A memory type: the heap it draws on and its properties.
#[derive(Clone, Copy, Debug, PartialEq, Eq)]
pub struct MemoryType {
    pub heap: u32,
    pub props: MemoryPropertyFlags,
}

/// A heap.
#[derive(Clone, Copy, Debug, PartialEq, Eq)]
pub struct MemoryHeap {
    pub size: u64,
}

/// What a device says about itself.
#[derive(Clone, Debug)]
pub struct DeviceProperties<'a> {
    pub memory_types: Cow<'a, [MemoryType]>,
    pub memory_heaps: Cow<'a, [MemoryHeap]>,
    pub max_memory_allocation_count: u32,
    pub max_memory_allocation_size: u64,
    pub non_coherent_atom_size: u64,
    pub buffer_device_address: bool,
}

/// Why a device gives no memory.
#[derive(Clone, Copy, Debug, PartialEq, Eq)]
pub enum OutOfMemory {
    OutOfDeviceMemory,
    OutOfHostMemory,
}

/// Why a device doesn't map memory.
#[derive(Clone, Copy, Debug, PartialEq, Eq)]
pub enum DeviceMapError {
    OutOfDeviceMemory,
    OutOfHostMemory,
    MapFailed,
}

/// A mapped stretch of a memory object.
#[derive(Debug)]
pub struct MappedMemoryRange<'a, M> {
    pub memory: &'a M,
    pub offset: u64,
    pub size: u64,
}

/// The device that memory objects come from.
pub trait MemoryDevice<M> {
    /// # Safety
    /// `memory_type` is one of the device's types.
    unsafe fn allocate_memory(
        &self,
        size: u64,
        memory_type: u32,
        flags: AllocationFlags,
    ) -> Result<M, OutOfMemory>;

    /// # Safety
    /// `memory` came from this device.
    unsafe fn deallocate_memory(&self, memory: M);

    /// # Safety
    /// `memory` came from this device, is HOST_VISIBLE and not mapped.
    unsafe fn map_memory(
        &self,
        memory: &mut M,
        offset: u64,
        size: u64,
    ) -> Result<NonNull<u8>, DeviceMapError>;

    /// # Safety
    /// `memory` is mapped.
    unsafe fn unmap_memory(&self, memory: &mut M);

    /// # Safety
    /// The ranges are mapped.
    unsafe fn invalidate_memory_ranges(
        &self,
        ranges: &[MappedMemoryRange<'_, M>],
    ) -> Result<(), OutOfMemory>;

    /// # Safety
    /// The ranges are mapped.
    unsafe fn flush_memory_ranges(
        &self,
        ranges: &[MappedMemoryRange<'_, M>],
    ) -> Result<(), OutOfMemory>;
}
