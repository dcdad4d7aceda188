use std::collections::HashMap;
use std::fs::{self, File};
use std::io;
use std::os::unix::fs::FileExt;
use std::path::{self, Path, PathBuf};
use std::process;
use std::sync::atomic::{AtomicU64, Ordering};

use crate::Engine;

/// The size at which a segment is full and the next one begins.
const SEGMENT_BYTES: u64 = 64 << 20;

/// An engine over files: append-only segments, in a folder of its own.
///
/// An index in memory, of some 40 bytes for each content, says where each is. The engine deletes a
/// segment when no content in it is needed, and compacts the sparsest when more than half of all bytes
/// are not needed. It deletes the folder on drop. **The files do not survive a crash**: only this
/// engine can read them, while it lives. The folder of a killed process, named `fullercoral-` and the
/// number of the process, may be deleted.
///
/// Errors name the file.
///
/// Put the folder on a disk. Many systems keep their temporary folder in memory: chunks evicted to it
/// take as much memory as before.
///
/// ```
/// use fullercoral::{Engine, Files};
///
/// let mut engine = Files::create(std::env::temp_dir())?;
/// engine.put(0, b"bytes")?;
/// let mut buffer = Vec::new();
/// engine.get(0, &mut buffer)?;
/// assert_eq!(buffer, b"bytes");
/// # Ok::<(), std::io::Error>(())
/// ```
#[derive(Debug)]
pub struct Files {
    folder: PathBuf,
    segments: HashMap<u32, Segment>,
    /// The segment to append to.
    open: u32,
    index: HashMap<u64, Location>,
    segment_bytes: u64,
}

#[derive(Debug)]
struct Segment {
    file: File,
    len: u64,
    /// The bytes that are still needed.
    live: u64,
}

#[derive(Debug, Clone, Copy)]
struct Location {
    offset: u64,
    len: u32,
    segment: u32,
}

impl Files {
    /// Creates a folder with a new name in `parent`, and `parent` itself if it does not exist.
    ///
    /// ```
    /// let engine = fullercoral::Files::create(std::env::temp_dir())?;
    /// assert!(engine.folder().starts_with(std::env::temp_dir()));
    /// # Ok::<(), std::io::Error>(())
    /// ```
    ///
    /// # Errors
    /// The error of creating a folder or a file, with its path.
    pub fn create(parent: impl AsRef<Path>) -> io::Result<Files> {
        let parent = parent.as_ref();
        let mut files = Files {
            folder: new_folder(parent).map_err(|error| named(parent, &error))?,
            segments: HashMap::new(),
            open: 0,
            index: HashMap::new(),
            segment_bytes: SEGMENT_BYTES,
        };
        files.begin_segment(0)?;
        Ok(files)
    }

    /// The folder with the segments.
    ///
    /// ```
    /// let engine = fullercoral::Files::create(std::env::temp_dir())?;
    /// assert!(engine.folder().is_dir());
    /// # Ok::<(), std::io::Error>(())
    /// ```
    #[must_use]
    pub fn folder(&self) -> &Path {
        &self.folder
    }

    fn path(&self, segment: u32) -> PathBuf {
        self.folder.join(segment.to_string())
    }

    fn not_kept(&self, number: u64) -> io::Error {
        let said = format!("{}: no content {number}", self.folder.display());
        io::Error::new(io::ErrorKind::NotFound, said)
    }

    fn begin_segment(&mut self, number: u32) -> io::Result<()> {
        let path = self.path(number);
        let file = File::options()
            .read(true)
            .write(true)
            .create_new(true)
            .open(&path)
            .map_err(|error| named(&path, &error))?;
        let segment = Segment {
            file,
            len: 0,
            live: 0,
        };
        self.segments.insert(number, segment);
        self.open = number;
        Ok(())
    }

    // The segment to append to: a new one if the last one is full.
    fn open_segment(&mut self) -> io::Result<u32> {
        let full = self.open;
        let is_full = |segment: &Segment| segment.len >= self.segment_bytes;
        if self.segments.get(&full).is_none_or(is_full) {
            self.begin_segment(full + 1)?;
            self.delete_unneeded(full);
        }
        Ok(self.open)
    }

    fn append(&mut self, number: u64, bytes: &[u8]) -> io::Result<()> {
        let open = self.open_segment()?;
        let path = self.path(open);
        let len = u32::try_from(bytes.len()).map_err(io::Error::other)?;
        let Some(segment) = self.segments.get_mut(&open) else {
            return Err(self.not_kept(number));
        };
        let written = segment.file.write_all_at(bytes, segment.len);
        written.map_err(|error| named(&path, &error))?;
        let location = Location {
            offset: segment.len,
            len,
            segment: open,
        };
        segment.len += u64::from(len);
        segment.live += u64::from(len);
        if let Some(before) = self.index.insert(number, location) {
            self.release(before);
        }
        Ok(())
    }

    // Marks the bytes at a location as not needed, and deletes the segment if none of its bytes are.
    fn release(&mut self, location: Location) {
        let Some(segment) = self.segments.get_mut(&location.segment) else {
            return;
        };
        segment.live -= u64::from(location.len);
        self.delete_unneeded(location.segment);
    }

    // Deletes a segment without needed bytes, unless it is the one to append to.
    fn delete_unneeded(&mut self, number: u32) {
        let unneeded = |segment: &Segment| segment.live == 0;
        if number != self.open && self.segments.get(&number).is_some_and(unneeded) {
            self.segments.remove(&number);
            // A file that cannot be deleted here is deleted with the folder.
            let _ = fs::remove_file(self.path(number));
        }
    }

    // The full segment with the fewest needed bytes, if more than half of all bytes are not needed.
    fn sparsest(&self) -> Option<u32> {
        let len: u64 = self.segments.values().map(|s| s.len).sum();
        let live: u64 = self.segments.values().map(|s| s.live).sum();
        if len <= 2 * live + self.segment_bytes {
            return None;
        }
        let full = self
            .segments
            .iter()
            .filter(|(number, _)| **number != self.open);
        full.min_by_key(|(_, s)| s.live).map(|(number, _)| *number)
    }

    // Appends the contents of a segment to the open one, which deletes the segment.
    fn move_segment(&mut self, segment: u32) -> io::Result<()> {
        let in_it = |(number, at): (&u64, &Location)| (at.segment == segment).then_some(*number);
        let numbers: Vec<u64> = self.index.iter().filter_map(in_it).collect();
        let mut buffer = Vec::new();
        for number in numbers {
            buffer.clear();
            self.get(number, &mut buffer)?;
            self.append(number, &buffer)?;
        }
        Ok(())
    }
}

// Creates a folder with a new name. Its path is absolute: it stays right if the process changes its own.
fn new_folder(parent: &Path) -> io::Result<PathBuf> {
    static MADE: AtomicU64 = AtomicU64::new(0);
    let parent = path::absolute(parent)?;
    fs::create_dir_all(&parent)?;
    loop {
        let made = MADE.fetch_add(1, Ordering::Relaxed);
        let folder = parent.join(format!("fullercoral-{}-{made}", process::id()));
        match fs::create_dir(&folder) {
            // It belongs to a killed process that had this number.
            Err(error) if error.kind() == io::ErrorKind::AlreadyExists => {}
            made => return made.map(|()| folder),
        }
    }
}

// Adds the path to an error.
fn named(path: &Path, error: &io::Error) -> io::Error {
    io::Error::new(error.kind(), format!("{}: {error}", path.display()))
}

impl Engine for Files {
    type Error = io::Error;

    fn put(&mut self, number: u64, bytes: &[u8]) -> io::Result<()> {
        if let Some(segment) = self.sparsest() {
            // A content that cannot be read, since its file was changed, stays where it is.
            let _ = self.move_segment(segment);
        }
        self.append(number, bytes)
    }

    fn get(&mut self, number: u64, buffer: &mut Vec<u8>) -> io::Result<()> {
        let Some(at) = self.index.get(&number) else {
            return Err(self.not_kept(number));
        };
        let Some(segment) = self.segments.get(&at.segment) else {
            return Err(self.not_kept(number));
        };
        let from = buffer.len();
        buffer.resize(from + at.len as usize, 0);
        let read = segment.file.read_exact_at(&mut buffer[from..], at.offset);
        read.map_err(|error| named(&self.path(at.segment), &error))
    }

    fn forget(&mut self, number: u64) {
        if let Some(location) = self.index.remove(&number) {
            self.release(location);
        }
    }
}

impl Drop for Files {
    fn drop(&mut self) {
        // Nobody is left to be told that the folder cannot be deleted.
        let _ = fs::remove_dir_all(&self.folder);
    }
}

#[cfg(test)]
mod tests {
    use super::*;

    fn files() -> Files {
        let mut files = Files::create(std::env::temp_dir()).unwrap();
        files.segment_bytes = 100;
        files
    }

    fn bytes(number: u64) -> Vec<u8> {
        vec![number as u8; 30 + number as usize % 7]
    }

    #[test]
    fn what_was_put_is_returned_from_any_segment() {
        let mut files = files();
        (0..50).for_each(|n| files.put(n, &bytes(n)).unwrap());
        assert!(files.segments.len() > 10);
        for number in (0..50).rev() {
            let mut buffer = Vec::new();
            files.get(number, &mut buffer).unwrap();
            assert_eq!(buffer, bytes(number));
        }
        assert_eq!(
            files.get(50, &mut Vec::new()).unwrap_err().kind(),
            io::ErrorKind::NotFound
        );
    }

    #[test]
    fn forgotten_contents_leave_the_disk() {
        let mut files = files();
        for number in 0..1_000 {
            files.put(number, &bytes(number)).unwrap();
            if number >= 5 && number % 10 != 0 {
                files.forget(number - 5);
            }
        }
        let len: u64 = files.segments.values().map(|s| s.len).sum();
        let live: u64 = files.segments.values().map(|s| s.live).sum();
        assert!(
            len <= 2 * live + 300,
            "{len} bytes, of which {live} are needed"
        );
        for number in files.index.keys().copied().collect::<Vec<_>>() {
            let mut buffer = Vec::new();
            files.get(number, &mut buffer).unwrap();
            assert_eq!(buffer, bytes(number));
        }
    }

    #[test]
    fn the_parent_is_made_and_an_error_names_the_path() -> io::Result<()> {
        let parent = files();
        let there = parent.folder().join("a/b");
        let engine = Files::create(&there)?;
        assert!(engine.folder().starts_with(&there));
        let file = parent.folder().join("0");
        let error = Files::create(&file).unwrap_err();
        let said = error.to_string();
        assert!(said.starts_with(&*file.to_string_lossy()), "{said}");
        Ok(())
    }

    #[test]
    fn a_read_that_fails_names_the_file() -> io::Result<()> {
        let mut files = files();
        files.put(0, &bytes(0))?;
        files.segments[&0].file.set_len(3)?;
        let error = files.get(0, &mut Vec::new()).unwrap_err();
        assert_eq!(error.kind(), io::ErrorKind::UnexpectedEof);
        let file = files.folder().join("0");
        assert!(error.to_string().starts_with(&*file.to_string_lossy()));
        let error = files.get(1, &mut Vec::new()).unwrap_err();
        let said = format!("{}: no content 1", files.folder().display());
        assert_eq!(error.to_string(), said);
        Ok(())
    }

    #[test]
    fn a_folder_that_was_left_behind_is_passed_over() -> io::Result<()> {
        let parent = files();
        let name = |made| format!("fullercoral-{}-{made}", process::id());
        for made in 0..100 {
            fs::create_dir(parent.folder().join(name(made)))?;
        }
        let engine = Files::create(parent.folder())?;
        let left = (0..100).any(|made| engine.folder().ends_with(name(made)));
        assert!(!left && engine.folder().is_dir());
        Ok(())
    }

    #[test]
    fn the_folder_goes_with_the_engine() {
        let files = files();
        let folder = files.folder().to_owned();
        assert!(folder.is_dir());
        drop(files);
        assert!(!folder.exists());
    }

    #[test]
    fn a_segment_that_is_full_and_not_needed_leaves_the_disk() {
        let mut files = files();
        for number in 0..1_000 {
            files.put(number, &bytes(number)).unwrap();
            // Forgets whole segments while they are open, and leaves one content in others.
            if number % 40 < 20 || number % 4 != 0 {
                files.forget(number);
            }
        }
        assert!(files.segments.values().filter(|s| s.live == 0).count() <= 1);
        let len: u64 = files.segments.values().map(|s| s.len).sum();
        let live: u64 = files.segments.values().map(|s| s.live).sum();
        assert!(
            len <= 2 * live + 300,
            "{len} bytes, of which {live} are needed"
        );
    }

    #[test]
    fn a_spoiled_file_keeps_no_content_from_being_put() {
        let mut files = files();
        (0..100).for_each(|n| files.put(n, &bytes(n)).unwrap());
        files
            .segments
            .values()
            .for_each(|s| s.file.set_len(3).unwrap());
        (0..100)
            .filter(|n| n % 9 != 0)
            .for_each(|n| files.forget(n));
        for number in 100..300 {
            files.put(number, &bytes(number)).unwrap();
            let mut buffer = Vec::new();
            files.get(number, &mut buffer).unwrap();
            assert_eq!(buffer, bytes(number));
        }
        assert!(files.get(0, &mut Vec::new()).is_err());
    }
}
