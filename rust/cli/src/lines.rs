//! The lines of an input, one after the other, however long it is and however long they are.

use std::fs::File;
use std::io::{self, BufRead, BufReader, Chain, Cursor, ErrorKind, Read, Take};
use std::path::{Path, PathBuf};

use pevghazo::LINE_MAX;

use crate::arguments::Arguments;
use crate::failure::Failure;
use crate::input::is_standard;
use crate::streams;

/// The most bytes that are read at first, before the state file is locked.
const FIRST: u64 = 1 << 24;

/// The most bytes of a piece that are handed over: more than any issue line has, so that a longer piece is refused by them.
const PIECE: usize = LINE_MAX + 1;

/// The lines of an input.
pub struct Lines<R = Chain<Cursor<Vec<u8>>, Take<File>>> {
    /// Its name, as a failure has it.
    pub path: PathBuf,
    reader: BufReader<R>,
    piece: Vec<u8>,
    /// The bytes that the whole input has, if that is known.
    pub length: Option<u64>,
    /// The bytes that were read so far.
    pub read: u64,
}

impl Lines {
    /// The lines of the input of the option `--in`. All of it is read here, unless it is very long.
    pub fn open(arguments: &Arguments) -> Result<Lines, Failure> {
        let name = Path::new(arguments.required("in")?);
        let path = if is_standard(name) { Path::new("standard input") } else { name };
        let file = if is_standard(name) {
            streams::input().map_err(Failure::file("read", path))?
        } else {
            File::open(name).map_err(Failure::file("open", path))?
        };
        let length = file.metadata().ok().filter(|metadata| metadata.is_file()).map(|metadata| metadata.len());
        let mut first = Vec::new();
        (&file).take(FIRST).read_to_end(&mut first).map_err(Failure::file("read", path))?;
        // Nothing is read after an end: at a terminal more could follow it.
        let rest = if (first.len() as u64) < FIRST { 0 } else { u64::MAX };
        Ok(Lines::of(path, Cursor::new(first).chain(file.take(rest)), length))
    }
}

impl<R: Read> Lines<R> {
    /// The lines that a reader gives.
    pub fn of(path: &Path, reader: R, length: Option<u64>) -> Lines<R> {
        let (path, reader) = (path.to_path_buf(), BufReader::with_capacity(1 << 16, reader));
        Lines { path, reader, piece: Vec::with_capacity(PIECE), length, read: 0 }
    }

    /// The next line, its line feed included; the last one may have none. Of a line that is longer than any issue line, the first
    /// bytes. Nothing is a line after the last line feed.
    pub fn next(&mut self) -> Result<Option<&[u8]>, Failure> {
        self.fill().map_err(Failure::file("read", &self.path))?;
        Ok((!self.piece.is_empty()).then_some(&self.piece))
    }

    /// Reads up to the next line feed, or the end.
    fn fill(&mut self) -> io::Result<()> {
        self.piece.clear();
        let mut ended = false;
        while !ended {
            let bytes = match self.reader.fill_buf() {
                Err(error) if error.kind() == ErrorKind::Interrupted => continue,
                bytes => bytes?,
            };
            let feed = bytes.iter().position(|byte| *byte == b'\n');
            let length = feed.map_or(bytes.len(), |place| place + 1);
            let kept = length.min(PIECE - self.piece.len());
            self.piece.extend_from_slice(&bytes[..kept]);
            ended = feed.is_some() || bytes.is_empty();
            self.reader.consume(length);
            self.read += length as u64;
        }
        Ok(())
    }
}

#[cfg(test)]
mod tests {
    use super::*;

    /// Gives so many bytes at a time, with interruptions.
    struct Slow<'a>(&'a [u8], usize, bool);

    impl Read for Slow<'_> {
        fn read(&mut self, buffer: &mut [u8]) -> io::Result<usize> {
            self.2 = !self.2;
            let most = self.1.min(buffer.len());
            if self.2 { Err(ErrorKind::Interrupted.into()) } else { self.0.read(&mut buffer[..most]) }
        }
    }

    /// All pieces of some bytes, which come so many at a time.
    fn pieces(bytes: &[u8], at_once: usize) -> Vec<Vec<u8>> {
        let mut lines = Lines::of(Path::new("lines"), Slow(bytes, at_once, false), None);
        let mut pieces = Vec::new();
        while let Some(piece) = lines.next().unwrap() {
            pieces.push(piece.to_vec());
        }
        assert_eq!(lines.read, bytes.len() as u64);
        assert!(lines.next().unwrap().is_none() && lines.piece.capacity() == PIECE);
        pieces
    }

    #[test]
    fn lines_are_cut_at_their_feeds() {
        let long = [&[b'x'; 100][..], b"\n"].concat();
        for (bytes, expected) in [
            (&b""[..], vec![]),
            (b"\n", vec![&b"\n"[..]]),
            (b"a", vec![b"a"]),
            (b"a\n", vec![b"a\n"]),
            (b"a\nb", vec![b"a\n", b"b"]),
            (b"a\n\nb\n", vec![b"a\n", b"\n", b"b\n"]),
            (b"a\r\n\0\xff\n", vec![b"a\r\n", b"\0\xff\n"]),
            (&[&long[68..], &long[69..], b"y\n"].concat(), vec![&long[68..], &long[69..], b"y\n"]),
            (&[&long, &long[..], b"y\n"].concat(), vec![&long[..33], &long[..33], b"y\n"]),
            (&long[..100], vec![&long[..33]]),
        ] {
            for at_once in [1, 2, 7, 1_000] {
                assert_eq!(pieces(bytes, at_once), expected, "{} at once", at_once);
            }
        }
    }
}
