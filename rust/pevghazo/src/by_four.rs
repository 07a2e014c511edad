//! Whether a call goes by four: the library has its wraps and unwraps twice, with one answer for the same arguments.

/// The fewest bytes that hold four full blocks of 48 bytes each.
const FOUR_BLOCKS: usize = 4 * 48;

/// Whether a call with this metadata and this message or cryptogram is made by four, which takes about half the time for long texts.
///
/// In shorter ones there are no four full blocks, neither of a string that goes into the history nor of keystream, and the call that
/// takes a block at a time is a little faster. An envelope's header adds 8 to 17 bytes to the metadata, but the block that it begins
/// is taken alone, so that it does not count here.
pub(crate) fn by_four(metadata: &[u8], text: &[u8]) -> bool {
    metadata.len().max(text.len()) >= FOUR_BLOCKS
}

#[cfg(test)]
mod tests {
    use crate::raw::called;
    use crate::{Arrival, Envelope, Letter, Plain, Refusal, SaneSession, Session, TEXT_MAX, Table};

    /// Lengths of metadata and text, and whether a call with them is made by four.
    const LENGTHS: [(usize, usize, bool); 11] = [
        (0, 0, false),
        (191, 0, false),
        (0, 191, false),
        (191, 191, false),
        (192, 0, true),
        (0, 192, true),
        (192, 191, true),
        (191, 192, true),
        (TEXT_MAX, TEXT_MAX, true),
        (TEXT_MAX + 1, 0, true),
        (0, TEXT_MAX + 1, true),
    ];

    /// The library's function that a call was made by, whatever it gave.
    fn by<T>(_: Result<T, Refusal>) -> &'static str {
        called::last()
    }

    /// What is handed to a call: texts of these lengths, with any tag and any header.
    fn arrived<'a>(letter: Letter, plain: &Plain<'a>, tag: &'a [u8]) -> Envelope<'a> {
        let Plain { metadata, message } = *plain;
        Envelope { letter, group: 7, header: b"S,7,", metadata, cryptogram: message, tag, place: 0, rest: b"" }
    }

    #[test]
    fn every_call_goes_by_the_length_of_its_texts() {
        let (mut lone, mut sane) = (Session::start(&[1; 16]).unwrap().0, SaneSession::start(&[2; 16], b"").unwrap().0);
        let mut office = Table::new();
        for (a, m, four) in LENGTHS {
            let (metadata, message) = (vec![1; a], vec![2; m]);
            let plain = Plain { metadata: &metadata, message: &message };
            let of_lone = arrived(Letter::S, &plain, &[0; 32]);
            let of_sane = arrived(Letter::N, &plain, &[0; 16]);
            let (to_lone, to_sane): (Arrival, Arrival<16>) = (of_lone.arrival().unwrap(), of_sane.arrival().unwrap());
            for (call, function) in [
                (by(lone.wrap(&plain)), "pevghazo_wrap"),
                (by(lone.unwrap(&to_lone)), "pevghazo_unwrap"),
                (by(lone.wrap_envelope(b"S,7,", &plain)), "pevghazo_wrap_envelope"),
                (by(lone.unwrap_envelope(&of_lone)), "pevghazo_unwrap_envelope"),
                (by(sane.wrap(&plain)), "pevghazo_sane_wrap"),
                (by(sane.unwrap(&to_sane)), "pevghazo_sane_unwrap"),
                (by(sane.wrap_envelope(b"S,7,", &plain)), "pevghazo_sane_wrap_envelope"),
                (by(sane.unwrap_envelope(&of_sane)), "pevghazo_sane_unwrap_envelope"),
                (by(office.wrap(7, &plain)), "pevghazo_wrap_group"),
                (by(office.unwrap(7, &to_lone)), "pevghazo_unwrap_group"),
                (by(office.wrap_envelope(7, b"S,7,", &plain)), "pevghazo_wrap_envelope_group"),
                (by(office.unwrap_envelope(7, &of_lone)), "pevghazo_unwrap_envelope_group"),
            ] {
                let suffix = if four { "_four" } else { "" };
                assert_eq!(call, format!("{function}{suffix}"), "{a} and {m} bytes");
            }
        }
    }

    #[test]
    fn sealing_and_opening_go_by_it_too() {
        for (length, suffix) in [(191, ""), (192, "_four")] {
            let plain = Plain { metadata: b"size C", message: &vec![2; length] };
            let (mut lone, mut sane) =
                (Session::start(&[1; 16]).unwrap().0, SaneSession::start(&[1; 16], b"").unwrap().0);
            let mut office = Table::new();
            office.start_day(1_000);
            office.open_group(7, &[1; 16]).unwrap();
            let sealed = office.seal(7, &plain).unwrap().envelope;
            assert_eq!(called::last(), format!("pevghazo_wrap_envelope_group{suffix}"));
            assert_eq!(by(lone.open(&sealed)), format!("pevghazo_unwrap_envelope{suffix}"));
            let back = lone.seal(7, &plain).unwrap().envelope;
            assert_eq!(called::last(), format!("pevghazo_wrap_envelope{suffix}"));
            assert_eq!(by(office.open(&back)), format!("pevghazo_unwrap_envelope_group{suffix}"));
            let sealed = sane.seal(7, &plain).unwrap().envelope;
            assert_eq!(called::last(), format!("pevghazo_sane_wrap_envelope{suffix}"));
            assert_eq!(by(sane.open(&sealed)), format!("pevghazo_sane_unwrap_envelope{suffix}"));
        }
    }
}
