//! The account that goes with a store: one heap and the objects still allowed.

/// "heap size, heap used: at most 2^62".
const USED_LIMIT: u64 = 1 << 62;

/// Used and the two running totals of the store's heap, and the device objects.
pub struct Account {
    used: u64,
    allocated: u128,
    deallocated: u128,
    objects: u32,
}

impl Account {
    pub fn new(objects: u32) -> Account {
        Account {
            used: 0,
            allocated: 0,
            deallocated: 0,
            objects,
        }
    }

    /// "heap used would pass 2^62, the 128-bit allocated total would overflow":
    /// used may become exactly 2^62.
    pub fn can_count(&self, size: u64) -> bool {
        self.used + size <= USED_LIMIT && self.allocated.checked_add(u128::from(size)).is_some()
    }

    pub fn has_object(&self) -> bool {
        self.objects > 0
    }

    /// "Charge adds to used and allocated"; a device object goes with it.
    pub fn charge(&mut self, size: u64) {
        self.used += size;
        self.allocated += u128::from(size);
        self.objects -= 1;
    }

    /// "release takes from used and adds to deallocated"; the object returns.
    pub fn release(&mut self, size: u64) {
        self.used -= size;
        self.deallocated += u128::from(size);
        self.objects += 1;
    }

    /// The end of each record's line.
    pub fn counts(&self) -> String {
        format!("{} {}", self.used, self.objects)
    }

    /// The line of totals, each as its high and its low word.
    pub fn totals(&self) -> String {
        let words = |total: u128| format!("{} {}", (total >> 64) as u64, total as u64);
        format!(
            "totals {} {}",
            words(self.allocated),
            words(self.deallocated)
        )
    }
}
