//! Where records are kept.

/// Where a world's records are kept, as a file of them: what a [`Host`](crate::Host) reads and writes.
///
/// A store that fails says so, and may be called again with the same: the host keeps what was to be
/// written. A write that failed may have left any bytes at its address.
pub trait Store {
    /// Why a call failed.
    type Error;

    /// The size of a record in bytes. It is asked before a record is read.
    ///
    /// # Errors
    ///
    /// The store's own, as for an address where there is no record.
    fn size(&mut self, address: u64) -> Result<u64, Self::Error>;

    /// Reads a record of the size that the store told: all of `bytes` is filled.
    ///
    /// # Errors
    ///
    /// The store's own.
    fn read(&mut self, address: u64, bytes: &mut [u8]) -> Result<(), Self::Error>;

    /// Writes a record, which may be new there or have had another size.
    ///
    /// # Errors
    ///
    /// The store's own.
    fn write(&mut self, address: u64, bytes: &[u8]) -> Result<(), Self::Error>;

    /// Makes every write so far durable. After an error none of the writes since the last success is
    /// relied on.
    ///
    /// # Errors
    ///
    /// The store's own.
    fn sync(&mut self) -> Result<(), Self::Error>;
}
