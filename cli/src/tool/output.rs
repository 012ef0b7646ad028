//! Standard output that a reader may close early.

use std::fs::File;
use std::io::{self, BufWriter, ErrorKind, Write};
use std::os::fd::AsFd;

use super::closed;

/// Standard output, if it is open. Once its reader has gone, as `head` goes, the
/// rest is dropped: the exit status is still the command's.
pub fn stdout() -> io::Result<BufWriter<Pipe<File>>> {
    if closed::at_start() {
        return Err(io::Error::other("it is closed"));
    }
    // `Stdout` itself hides the error of an output that is open to reading alone.
    let descriptor = io::stdout().as_fd().try_clone_to_owned()?;
    Ok(BufWriter::new(Pipe {
        writer: File::from(descriptor),
    }))
}

pub struct Pipe<W> {
    writer: W,
}

impl<W: Write> Write for Pipe<W> {
    fn write(&mut self, bytes: &[u8]) -> io::Result<usize> {
        unless_closed(self.writer.write(bytes), bytes.len())
    }

    fn flush(&mut self) -> io::Result<()> {
        unless_closed(self.writer.flush(), ())
    }
}

/// The result, or this one where the reader has gone.
fn unless_closed<T>(result: io::Result<T>, otherwise: T) -> io::Result<T> {
    match result {
        Err(error) if error.kind() == ErrorKind::BrokenPipe => Ok(otherwise),
        result => result,
    }
}

#[cfg(test)]
mod tests {
    use super::*;

    struct Failing(ErrorKind);

    impl Write for Failing {
        fn write(&mut self, _: &[u8]) -> io::Result<usize> {
            Err(self.0.into())
        }

        fn flush(&mut self) -> io::Result<()> {
            Err(self.0.into())
        }
    }

    fn write_to(kind: ErrorKind) -> io::Result<()> {
        let mut pipe = Pipe {
            writer: Failing(kind),
        };
        pipe.write_all(b"text")?;
        pipe.flush()
    }

    #[test]
    fn closed_pipe_is_no_error() {
        assert!(write_to(ErrorKind::BrokenPipe).is_ok());
    }

    #[test]
    fn full_disk_is_one() {
        assert!(write_to(ErrorKind::StorageFull).is_err());
    }
}
