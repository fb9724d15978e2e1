//! The file writer and the file reader beside the reference implementation.

mod buffers;
mod changes;
#[path = "../shared/conversion.rs"]
mod conversion;
mod damage;
mod round_trips;

use conversion::{number, refused, Answer, Call, Checked};

const PACK: Call = Call {
    safe: hogvax::pack,
    into: hogvax::pack_into,
    back: Some(hogvax::unpack),
    reference: reference::write_file,
    answers: &[0, 4, 5, 6, 7, 13],
    long: 9_000,
};

const UNPACK: Call = Call {
    safe: hogvax::unpack,
    into: hogvax::unpack_into,
    back: Some(hogvax::pack),
    reference: reference::read_file,
    answers: &[0, 1, 2, 3, 4, 5, 6, 7, 13],
    long: 9_000,
};

/// Both calls.
struct Both {
    pack: Checked,
    unpack: Checked,
}

impl Both {
    fn new() -> Both {
        Both {
            pack: Checked::new(&PACK),
            unpack: Checked::new(&UNPACK),
        }
    }

    /// Packs these records and unpacks their file, which is handed back.
    fn check_program(&mut self, records: &[u8]) -> Vec<u8> {
        let file = self.pack.answer(records).unwrap();
        assert_eq!(self.unpack.answer(&file).as_deref(), Ok(records));
        file
    }
}
