/// How a table moves its objects.
///
/// ```
/// use fullercoral::{Limits, Memory, Policy, Refusal, Schema, Table, row};
///
/// let mut table = Table::open(Schema::new().int("price"), Limits::new(), Memory::new())?;
/// table.insert(row![5])?;
/// table.evict("price", 0)?;
///
/// table.set_policy(Policy::Manual);
/// let error = table.set("price", 0, 6).unwrap_err();
/// assert_eq!(error.refusal().map(Refusal::number), Some(16));
///
/// table.set_policy(Policy::Demand);
/// table.set("price", 0, 6)?;
/// # Ok::<(), Box<dyn std::error::Error>>(())
/// ```
#[derive(Debug, Clone, Copy, Default, PartialEq, Eq, Hash)]
#[non_exhaustive]
pub enum Policy {
    /// Only the program moves objects. The table refuses calls that need an object that is away with
    /// `Absent`, calls that need space with `RegionFull`, and asks of a pending aggregate with `Building`.
    Manual,
    /// On `RegionFull` the table evicts the coldest objects, on `Absent` it fetches the object, and repeats
    /// the call. An ask scans pending row groups, or builds them from far copies. A call that needs more
    /// than all local memory is refused with `RegionFull`.
    Demand,
    /// As `Demand`; also, when a read of a column had to fetch, the table fetches the next row groups of
    /// the stride of the reads.
    #[default]
    Prefetch,
}
