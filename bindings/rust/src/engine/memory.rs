use std::collections::HashMap;
use std::convert::Infallible;

use crate::Engine;

/// An engine that keeps contents in a map: for tests, and for tables that fit into memory.
///
/// ```
/// use fullercoral::{Engine, Memory};
///
/// let mut engine = Memory::new();
/// engine.put(0, b"bytes").unwrap();
/// let mut buffer = Vec::new();
/// engine.get(0, &mut buffer).unwrap();
/// assert_eq!(buffer, b"bytes");
/// ```
#[derive(Debug, Clone, Default)]
pub struct Memory {
    contents: HashMap<u64, Box<[u8]>>,
}

impl Memory {
    /// Makes an engine without contents.
    ///
    /// ```
    /// assert!(fullercoral::Memory::new().is_empty());
    /// ```
    #[must_use]
    pub fn new() -> Memory {
        Memory::default()
    }

    /// The number of contents.
    ///
    /// ```
    /// assert_eq!(fullercoral::Memory::new().len(), 0);
    /// ```
    #[must_use]
    pub fn len(&self) -> usize {
        self.contents.len()
    }

    /// Whether it has no contents.
    ///
    /// ```
    /// assert!(fullercoral::Memory::new().is_empty());
    /// ```
    #[must_use]
    pub fn is_empty(&self) -> bool {
        self.contents.is_empty()
    }

    /// The bytes of a number, for tests that change them.
    ///
    /// ```
    /// use fullercoral::{Engine, Memory};
    ///
    /// let mut engine = Memory::new();
    /// engine.put(3, b"bytes").unwrap();
    /// engine.content_mut(3).unwrap()[0] = b'B';
    /// assert!(engine.content_mut(4).is_none());
    /// ```
    pub fn content_mut(&mut self, number: u64) -> Option<&mut [u8]> {
        self.contents.get_mut(&number).map(|bytes| &mut **bytes)
    }
}

impl Engine for Memory {
    type Error = Infallible;

    fn put(&mut self, number: u64, bytes: &[u8]) -> Result<(), Infallible> {
        self.contents.insert(number, bytes.into());
        Ok(())
    }

    /// Appends nothing if there is no such content; the table then refuses the empty bytes.
    fn get(&mut self, number: u64, buffer: &mut Vec<u8>) -> Result<(), Infallible> {
        if let Some(bytes) = self.contents.get(&number) {
            buffer.extend_from_slice(bytes);
        }
        Ok(())
    }

    fn forget(&mut self, number: u64) {
        self.contents.remove(&number);
    }
}
