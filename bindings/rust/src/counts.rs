//! Numbers of the entries and the objects of a pool.

/// Numbers of entries and objects.
#[derive(Clone, Copy, Debug, Default, PartialEq, Eq, Hash)]
#[repr(C)]
#[non_exhaustive]
pub struct Counts {
    /// The entries since the pool was opened, including those that were cut off or dropped.
    pub steps: u64,
    /// The idle objects, including those under an idle test.
    pub idle: u64,
    /// The lent objects.
    pub lent: u64,
    /// The present objects that are neither idle nor lent: they are being made, activated, returned or destroyed.
    pub reserved: u64,
    /// The objects that the pool asked to make, including those that could not be made.
    pub created: u64,
    /// The objects that were destroyed or detached, or could not be made.
    pub destroyed: u64,
    /// The idle objects that an eviction run destroyed, for their idle time or a failed test.
    pub evicted: u64,
    /// The abandoned objects that lost their places.
    pub reclaimed: u64,
}
