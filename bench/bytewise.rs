//! Writes slices to an output whose writer accepts one byte in each write. Prints a digest of what the writer accepted.

use ixdtf_buffers::output::Output;
use std::io;
use std::io::Write;

/// A writer that accepts one byte in each write.
struct ByteWriter {
    digest: u64,
}

impl Write for ByteWriter {
    fn write(&mut self, bytes: &[u8]) -> io::Result<usize> {
        match bytes.first() {
            Some(byte) => {
                self.digest = self.digest.wrapping_mul(31).wrapping_add(u64::from(*byte));
                Ok(1)
            }
            None => Ok(0),
        }
    }

    fn flush(&mut self) -> io::Result<()> {
        Ok(())
    }
}

fn main() {
    let seed = std::env::args().nth(1).and_then(|word| word.parse::<u64>().ok()).unwrap_or(1);
    let piece: Vec<u8> = (0..8).map(|place| (seed.wrapping_add(place) % 251) as u8).collect();
    let mut writer = ByteWriter { digest: seed };
    let mut output = Output::new(&mut writer);
    for number in 0..2_000_000usize {
        if output.put(&piece[..number % 8]).is_err() {
            return;
        }
    }
    if output.finish().is_ok() {
        println!("{:016x}", writer.digest);
    }
}
