//! The state of a pool of unused rings.
//!
//! | bytes | content |
//! |---|---|
//! | 8 | `pool---1` |
//! | 4 | how many runs there are, at most 256 |
//! | 9 for each of them, by size and first number | its size's letter, its first number and its last |

use pevghazo::{POOL_RUNS, Pool, Run, Size};
use pevghazo_store::Secret;

use super::State;
use super::format::{self, Bad, Reader, put_count};

/// What is said of an older copy.
const OLDER: &str = "\
What was added since is not in it. `--restore` takes it all the same: then add those lines again; one that is in it is refused.";

impl State for Pool {
    const OLDER: &'static str = OLDER;

    fn encode(&self) -> Secret {
        let mut bytes = format::started(&format::POOL);
        let runs = self.runs();
        put_count(&mut bytes, runs.len());
        for Run { size, first, last } in runs {
            bytes.add(&[size.byte()]);
            bytes.add(&first.to_le_bytes());
            bytes.add(&last.to_le_bytes());
        }
        bytes
    }

    fn decode(bytes: &[u8]) -> Result<Pool, Bad> {
        let (_, mut reader) = Reader::after(bytes, &format::POOL)?;
        let runs = reader.list(POOL_RUNS, read_run)?;
        let pool = Pool::from_runs(&runs).map_err(|_| Bad::Format)?;
        // A pool has one encoding: its runs are in their order.
        if pool.runs() == runs { reader.end(pool) } else { Err(Bad::Format) }
    }
}

/// A run of whichever numbers.
fn read_run(reader: &mut Reader) -> Result<Run, Bad> {
    let [letter] = reader.array()?;
    let size = Size::try_from(letter).map_err(|_| Bad::Format)?;
    Ok(Run { size, first: reader.number()?, last: reader.number()? })
}
