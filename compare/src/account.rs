//! What several stores share: a heap, the device objects still allowed, at most one open order.

use {
    crate::{answer::Order, device::Device, heap::Heap, settings::Settings},
    std::fmt::Write,
};

/// An order that waits for its delivery, with the ask that led to it.
#[derive(Clone, Copy)]
pub(crate) struct OpenOrder {
    pub store: u32,
    pub size: u64,
    pub mask: u64,
    pub told: Order,
}

/// The account, with the device that stands behind it.
pub(crate) struct Account {
    pub heap: Heap,
    pub objects: u32,
    pub open: Option<OpenOrder>,
    pub device: Device,
    objects_at_first: u32,
}

impl Account {
    /// The account that a store's settings begin with.
    pub fn new(settings: &Settings) -> Self {
        Account {
            heap: Heap::new(settings.heap_size),
            objects: settings.objects,
            open: None,
            device: Device::new(),
            objects_at_first: settings.objects,
        }
    }

    /// The crate's counts agree with the device's and with each other.
    pub fn check(&self) {
        assert_eq!(self.objects + self.device.objects_out(), self.objects_at_first);
        let (allocated, deallocated) = self.heap.totals();
        assert_eq!(allocated - deallocated, self.heap.used().into());
    }

    /// Writes the end of an answer's line: heap used and objects left.
    pub fn write_state(&self, text: &mut String) {
        let (used, objects) = (self.heap.used(), self.objects);
        writeln!(text, " ; {used} {objects}").expect("a string takes all");
    }

    /// Writes the line of the two running totals, each as a high and a low word.
    pub fn write_totals(&self, text: &mut String) {
        let (allocated, deallocated) = self.heap.totals();
        let [a, b, c, d] = [
            (allocated >> 64) as u64,
            allocated as u64,
            (deallocated >> 64) as u64,
            deallocated as u64,
        ];
        writeln!(text, "totals {a} {b} {c} {d}").expect("a string takes all");
    }
}
