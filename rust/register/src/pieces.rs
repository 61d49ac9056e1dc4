//! The notification file with its body in pieces.

use core::fmt;

use crate::notification::read_in;
use crate::{ffi, Notification, Refusal};

/// A notification file being read: begun with its name, fed the body in pieces cut anywhere, ended with the notification or a refusal.
///
/// However the body is cut, [`end`](Self::end) gives what [`Notification::read`] gives for all of it. Each piece is handed in once, and
/// at most 64 bytes of the body are held between two of them.
///
/// With the feature `std`, which is on unless it is turned off, it also is an [`std::io::Write`] that takes every byte, so that a body
/// can be copied into it from anywhere.
///
/// ```
/// use register::{FileReader, Notification};
///
/// # let exchange = Notification::new(
/// #     "17X100A100R0000L".parse()?, "17X100A100R0001J".parse()?, "13120".parse()?, register::Day::of("20210121").unwrap(), &[40; 48],
/// # );
/// # let (mut name, mut body) = ([0; register::NAME_LENGTH], [0; register::BODY_LENGTH]);
/// # let (name_length, body_length) = exchange.write(&mut name, &mut body)?;
/// # let (name, body) = (&name[..name_length], &body[..body_length]);
/// let mut reader = FileReader::begin(name);
/// for piece in body.chunks(100) {
///     reader.feed(piece);
/// }
/// assert_eq!(reader.end(), Notification::read(name, body));
///
/// let mut reader = FileReader::begin(name);
/// let mut file = body; // or a file, or a connection
/// std::io::copy(&mut file, &mut reader).unwrap();
/// assert_eq!(reader.end()?, exchange);
/// # Ok::<(), register::Refusal>(())
/// ```
#[derive(Clone)]
pub struct FileReader(ffi::FileReader);

/// How many bytes and whole lines came.
impl fmt::Debug for FileReader {
    fn fmt(&self, f: &mut fmt::Formatter<'_>) -> fmt::Result {
        f.debug_struct("FileReader")
            .field("length", &self.0.length)
            .field("lines", &self.0.lines)
            .finish_non_exhaustive()
    }
}

impl FileReader {
    /// Begins a file by its name. A name that is none is refused at the [`end`](Self::end).
    pub fn begin(name: impl AsRef<[u8]>) -> FileReader {
        FileReader(ffi::begin(name.as_ref()))
    }

    /// Feeds the next piece of the body, of any length.
    #[inline]
    pub fn feed(&mut self, piece: impl AsRef<[u8]>) {
        self.0 = ffi::feed(self.0, piece.as_ref());
    }

    /// The notification, or the refusal of 1 to 8 that the whole body gets.
    pub fn end(self) -> Result<Notification, Refusal> {
        read_in(ffi::notification_end(self.0))
    }
}

/// Feeds the bytes that are written, all of them at once.
#[cfg(feature = "std")]
impl std::io::Write for FileReader {
    fn write(&mut self, piece: &[u8]) -> std::io::Result<usize> {
        self.feed(piece);
        Ok(piece.len())
    }

    fn flush(&mut self) -> std::io::Result<()> {
        Ok(())
    }
}
