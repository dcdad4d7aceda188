use std::thread;
use std::time::Duration;

use crate::Engine;

/// An engine that repeats the failed calls of another one.
///
/// It pauses before each repetition, each time twice as long as before. It returns the error of the last
/// try.
///
/// ```
/// use std::time::Duration;
/// use fullercoral::{Engine, Fault, Faulty, Memory, Retry};
///
/// let unreliable = Faulty::new(Memory::new(), 1).with(Fault::Fail, 300);
/// let mut engine = Retry::new(unreliable, 20).pause(Duration::ZERO);
/// for number in 0..100 {
///     engine.put(number, b"bytes").unwrap();
/// }
/// ```
#[derive(Debug, Clone)]
pub struct Retry<E> {
    engine: E,
    tries: u32,
    pause: Duration,
}

impl<E> Retry<E> {
    /// Tries each call up to `tries` times, and at least once. The first pause is 10 milliseconds.
    ///
    /// ```
    /// use fullercoral::{Memory, Retry};
    ///
    /// let engine = Retry::new(Memory::new(), 3);
    /// # let _ = engine;
    /// ```
    #[must_use]
    pub fn new(engine: E, tries: u32) -> Retry<E> {
        Retry {
            engine,
            tries,
            pause: Duration::from_millis(10),
        }
    }

    /// Sets the pause before the second try.
    ///
    /// ```
    /// use std::time::Duration;
    /// use fullercoral::{Memory, Retry};
    ///
    /// let engine = Retry::new(Memory::new(), 3).pause(Duration::from_secs(1));
    /// # let _ = engine;
    /// ```
    #[must_use]
    pub fn pause(mut self, pause: Duration) -> Retry<E> {
        self.pause = pause;
        self
    }

    /// Returns the wrapped engine.
    ///
    /// ```
    /// use fullercoral::{Memory, Retry};
    ///
    /// assert!(Retry::new(Memory::new(), 3).into_inner().is_empty());
    /// ```
    #[must_use]
    pub fn into_inner(self) -> E {
        self.engine
    }
}

impl<E: Engine> Retry<E> {
    fn again<T>(
        &mut self,
        mut call: impl FnMut(&mut E) -> Result<T, E::Error>,
    ) -> Result<T, E::Error> {
        let mut pause = self.pause;
        for _ in 1..self.tries {
            if let Ok(value) = call(&mut self.engine) {
                return Ok(value);
            }
            thread::sleep(pause);
            pause = pause.saturating_mul(2);
        }
        call(&mut self.engine)
    }
}

impl<E: Engine> Engine for Retry<E> {
    type Error = E::Error;

    fn put(&mut self, number: u64, bytes: &[u8]) -> Result<(), E::Error> {
        self.again(|engine| engine.put(number, bytes))
    }

    fn get(&mut self, number: u64, buffer: &mut Vec<u8>) -> Result<(), E::Error> {
        self.again(|engine| {
            buffer.clear();
            engine.get(number, buffer)
        })
    }

    fn forget(&mut self, number: u64) {
        self.engine.forget(number);
    }
}
