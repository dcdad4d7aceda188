/// Counts of what a table did since it was opened, and how full its local memory is.
///
/// ```
/// use fullercoral::{Limits, Memory, Schema, Table, row};
///
/// let mut table = Table::open(Schema::new().int("price"), Limits::new(), Memory::new())?;
/// table.insert(row![5])?;
/// table.evict("price", 0)?;
/// let stats = table.stats();
/// assert_eq!((stats.evictions, stats.fetches), (1, 0));
/// # Ok::<(), Box<dyn std::error::Error>>(())
/// ```
#[derive(Debug, Clone, Copy, Default, PartialEq, Eq)]
#[non_exhaustive]
pub struct Stats {
    /// Objects that were evicted.
    pub evictions: u64,
    /// Contents that were put into the engine. The eviction of an object that was not written since its
    /// fetch needs no put.
    pub puts: u64,
    /// Contents that the table got from the engine.
    pub gets: u64,
    /// Bytes of contents that were put.
    pub bytes_put: u64,
    /// Bytes of contents that the table got.
    pub bytes_got: u64,
    /// Objects that were fetched, including prefetches.
    pub fetches: u64,
    /// Objects that were fetched ahead, as the stride of reads proposed.
    pub prefetches: u64,
    /// Row groups that were scanned into an aggregate.
    pub scans: u64,
    /// Row groups that were built into an aggregate from far copies.
    pub builds: u64,
    /// Segments of the local region that were compacted.
    pub compactions: u64,
    /// How often the table renewed its content numbers.
    pub migrations: u64,
    /// Calls of the engine that failed.
    pub engine_errors: u64,
    /// Contents that the table refused since they differ from the bytes put, and failed calls of the engine.
    pub faults: u64,
    /// Bytes of local memory in use, including gaps.
    pub local_used: u64,
    /// Bytes of local memory.
    pub local_memory: u64,
}
