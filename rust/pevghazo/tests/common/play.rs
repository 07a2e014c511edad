//! Calls on sessions that are held twice, in either mode that seals: messages between two ends, any record, and indexes near the limit.

use pevghazo::raw::Answer;
use pevghazo_reference::limits::INDEX_MAX;
use pevghazo_reference::random::Random;
use pevghazo_reference::session::{Header, Mode, Record as Reference, Scheme, growth, metadata_string};

use super::headers::{Ways, header, maybe_misfit};
use super::{Arrival, BothOf, By, EDGES, Library, answer_of, any_session, copy, maybe_long, other_length, same, text};

/// The bytes of a tag.
fn tag_length<R: Library>() -> usize {
    R::Mode::TAG
}

/// The count of a call, by its metadata string.
fn count<R: Library>(header: Header<'_>, metadata: &[u8], message: &[u8]) -> u32 {
    R::Mode::count(metadata_string(header, metadata).len(), message.len())
}

/// What happened: the answers of wraps and of unwraps that may be accepted, by number; the forged arrivals; the ways in which
/// headers were others; the accepted calls without an envelope and for one; and of messages that hold four full blocks, by which
/// of the library's functions they were wrapped and unwrapped.
#[derive(Default)]
pub struct Tally {
    pub numbers: [u64; 12],
    pub forged: u64,
    pub ways: Ways,
    pub accepted: [u64; 2],
    pub choices: Choices,
}

/// How often a message that holds four full blocks was wrapped one way and unwrapped one way.
#[derive(Debug, Default)]
pub struct Choices([[u64; 2]; 2]);

impl Choices {
    /// Counts a message.
    pub fn take(&mut self, wrapped: By, unwrapped: By, metadata: &[u8], message: &[u8]) {
        let is_long = metadata.len().max(message.len()) >= 192;
        self.0[wrapped as usize][unwrapped as usize] += u64::from(is_long);
    }

    /// All four pairs of choices were there so many times.
    pub fn all_were_there(&self, least: u64) {
        assert!(self.0.iter().flatten().all(|times| *times >= least), "long messages by choice: {self:?}");
    }
}

impl Tally {
    /// Counts an answer to a call with this header or none, and gives whether it was accepted.
    pub fn take(&mut self, header: Header<'_>, answer: Answer) -> bool {
        let accepted = answer.number == 0;
        self.numbers[answer.number as usize] += 1;
        self.accepted[usize::from(header.is_some())] += u64::from(accepted);
        accepted
    }
}

/// The header of a call in this mode with these texts, now and then one that does not fit; or none, for a call without an envelope.
pub fn any_header<R: Library>(
    random: &mut Random,
    group: Option<u32>,
    metadata: &[u8],
    message: &[u8],
    ways: &mut Ways,
) -> Option<Vec<u8>> {
    let lengths = (metadata.len(), message.len());
    let whole = header(R::Mode::LETTER, group?, lengths.0, lengths.1);
    Some(maybe_misfit(random, ways, 6, whole, lengths))
}

/// Half of the messages travel in an envelope, with the number of some group.
pub fn any_envelope(random: &mut Random) -> Option<u32> {
    random.once_in(2).then(|| random.below(32) as u32)
}

/// Seals a random message at an end. On the way there may be calls that are refused; which of them are is told by the tally.
pub fn seal<R: Library>(random: &mut Random, end: &mut BothOf<R>, tally: &mut Tally) -> Arrival {
    let (metadata, message, envelope) = (text(random), text(random), any_envelope(random));
    loop {
        let (a, m) = (maybe_long(random, &metadata, 30), maybe_long(random, &message, 30));
        let header = any_header::<R>(random, envelope, &a, &m, &mut tally.ways);
        let room = if random.once_in(3) { m.len() + random.below(100) } else { other_length(random, m.len(), 5) };
        let mut out = random.bytes(room);
        let tag_length = other_length(random, tag_length::<R>(), 10);
        let mut tag = random.bytes(tag_length);
        let answer = end.by(By::any(random)).wrap_for(header.as_deref(), &a, &m, &mut out, &mut tag);
        if tally.take(header.as_deref(), answer) {
            assert_eq!(answer.count, count::<R>(header.as_deref(), &a, &m));
            out.truncate(message.len());
            let arrival = Arrival { header, metadata, cryptogram: out, tag, message };
            assert!(arrival.header_fits(R::Mode::LETTER), "a header that does not fit was taken");
            return arrival;
        }
    }
}

/// Hands an arrival to an end that must refuse it: by 1 where its header does not fit, and otherwise by 11.
pub fn refuse<R: Library>(random: &mut Random, end: &mut BothOf<R>, forged: &Arrival, tally: &mut Tally) {
    let room = forged.cryptogram.len() + random.below(50);
    let before = random.bytes(room);
    let mut out = before.clone();
    let record = copy(&end.library);
    let Arrival { header, metadata, cryptogram, tag, .. } = forged;
    let answer = end.by(By::any(random)).unwrap_for(header.as_deref(), metadata, cryptogram, tag, &mut out);
    assert!(same(&end.library, &record), "a forged arrival has altered the session");
    tally.forged += 1;
    if !forged.header_fits(R::Mode::LETTER) {
        assert_eq!(answer, Answer { number: 1, count: 0 }, "a header that does not fit");
        assert!(out == before, "a header that does not fit: the buffer was altered");
        return;
    }
    let wrong = Answer { number: 11, count: count::<R>(header.as_deref(), metadata, cryptogram) };
    assert_eq!(answer, wrong, "a forged arrival was not refused as one");
    let (zeros, rest) = out.split_at(cryptogram.len());
    assert!(zeros.iter().all(|byte| *byte == 0) && *rest == before[zeros.len()..], "a forged arrival's buffer");
}

/// Hands an arrival over with lengths that are refused now and then, until it is accepted.
pub fn accept<R: Library>(random: &mut Random, end: &mut BothOf<R>, arrival: &Arrival, tally: &mut Tally) {
    loop {
        let a = maybe_long(random, &arrival.metadata, 30);
        let c = maybe_long(random, &arrival.cryptogram, 30);
        let whole = arrival.header.clone();
        let header = whole.map(|whole| maybe_misfit(random, &mut tally.ways, 6, whole, (a.len(), c.len())));
        let mut tag = arrival.tag.clone();
        tag.resize(other_length(random, tag_length::<R>(), 10), 0);
        let room = if random.once_in(3) { c.len() + random.below(100) } else { other_length(random, c.len(), 5) };
        let mut out = random.bytes(room);
        let answer = end.by(By::any(random)).unwrap_for(header.as_deref(), &a, &c, &tag, &mut out);
        if tally.take(header.as_deref(), answer) {
            assert_eq!((&header, &a, &c), (&arrival.header, &arrival.metadata, &arrival.cryptogram));
            assert_eq!(out[..c.len()], arrival.message);
            return;
        }
        assert_ne!(answer.number, 11);
    }
}

/// Two ends of one session, a session that is not theirs, and what has travelled between the ends so far.
pub struct Ends<R: Library> {
    pub ends: [BothOf<R>; 2],
    pub stranger: BothOf<R>,
    pub earlier: Vec<Arrival>,
}

impl<R: Library> Ends<R> {
    /// Before any message.
    pub fn of(ends: [BothOf<R>; 2], stranger: BothOf<R>) -> Ends<R> {
        assert!(same(&ends[0].library, &ends[1].library), "the ends' records differ");
        Ends { ends, stranger, earlier: Vec::new() }
    }

    /// What the other end must refuse in place of an arrival: damaged on the way, repeated, or meant for another session.
    fn forged(&mut self, random: &mut Random, arrival: &Arrival, tally: &mut Tally) -> Vec<Arrival> {
        let times = 1 + random.below(3);
        let damaged = |_| arrival.damaged(random, R::Mode::LETTER, &mut tally.ways);
        let mut wrong: Vec<Arrival> = (0..times).map(damaged).collect();
        if !self.earlier.is_empty() {
            wrong.push(self.earlier[random.below(self.earlier.len())].clone());
        }
        if random.once_in(3) {
            wrong.push(seal(random, &mut self.stranger, tally));
        }
        wrong.retain(|bad| !bad.travels_as(arrival));
        wrong
    }

    /// One message from an end to the other, with forged arrivals before it and the message itself again after it. `between` is
    /// called before, on the way and after.
    pub fn message(
        &mut self,
        random: &mut Random,
        tally: &mut Tally,
        mut between: impl FnMut(&mut Random, &[BothOf<R>; 2]),
    ) {
        between(random, &self.ends);
        let from = random.below(2);
        let arrival = seal(random, &mut self.ends[from], tally);
        let wrapped = self.ends[from].by;
        between(random, &self.ends);
        for bad in self.forged(random, &arrival, tally) {
            refuse(random, &mut self.ends[1 - from], &bad, tally);
        }
        refuse(random, &mut self.ends[from], &arrival, tally);
        between(random, &self.ends);
        accept(random, &mut self.ends[1 - from], &arrival, tally);
        tally.choices.take(wrapped, self.ends[1 - from].by, &arrival.metadata, &arrival.message);
        assert!(same(&self.ends[0].library, &self.ends[1].library), "the ends' records differ");
        for end in &mut self.ends {
            refuse(random, end, &arrival, tally);
        }
        self.earlier.push(arrival);
    }

    /// A message that is lost: nothing after it is accepted.
    pub fn lost(&mut self, random: &mut Random, tally: &mut Tally) {
        let from = random.below(2);
        seal(random, &mut self.ends[from], tally);
        let next = seal(random, &mut self.ends[from], tally);
        refuse(random, &mut self.ends[1 - from], &next, tally);
        let back = seal(random, &mut self.ends[1 - from], tally);
        refuse(random, &mut self.ends[from], &back, tally);
    }
}

/// A message of these lengths from this session on, for an envelope with this header or without one, at both ends.
pub fn message<R: Library>(random: &mut Random, both: &mut BothOf<R>, header: Header<'_>, (a, m): (usize, usize)) {
    for room in [m, m + 1] {
        let (metadata, message) = (random.bytes(a), random.bytes(m));
        let (mut out, mut tag) = (random.bytes(room), random.bytes(tag_length::<R>()));
        let mut other = BothOf::<R>::of(both.reference.clone());
        let accepted = answer_of(Ok(R::Mode::count(header.map_or(0, <[u8]>::len) + a, m)));
        assert_eq!(both.by(By::any(random)).wrap_for(header, &metadata, &message, &mut out, &mut tag), accepted);
        let mut back = random.bytes(room);
        let answer = other.by(By::any(random)).unwrap_for(header, &metadata, &out[..m], &tag, &mut back);
        assert_eq!((answer, &back[..m]), (accepted, &message[..]));
        assert!(same(&both.library, &other.library));
    }
}

/// Messages with metadata and text of all pairs of edges, from this session on, without an envelope and for one.
pub fn every_pair_of_edges<R: Library>(random: &mut Random, mut both: BothOf<R>) {
    for (a, m) in EDGES.into_iter().flat_map(|a| EDGES.map(|m| (a, m))) {
        message(random, &mut both, None, (a, m));
        let group = random.below(32) as u32;
        message(random, &mut both, Some(&header(R::Mode::LETTER, group, a, m)), (a, m));
    }
}

/// What a session with these lanes would seal next, for an envelope or without one.
pub fn next_arrival<M: Mode>(
    session: &Reference<M>,
    header: Option<Vec<u8>>,
    metadata: Vec<u8>,
    message: Vec<u8>,
) -> Arrival {
    let mut sealed = Reference { index: 0, open: true, ..session.clone() };
    let (mut cryptogram, mut tag) = (vec![0; message.len()], vec![0; M::TAG]);
    // Where it cannot be wrapped, the buffers stay as they are.
    let _ = sealed.wrap_for(header.as_deref(), &metadata, &message, &mut cryptogram, &mut tag);
    Arrival { header, metadata, cryptogram, tag, message }
}

/// One call on a record with any numbers. Gives its number, and whether the record is open.
pub fn call_on_any_record<R: Library>(random: &mut Random, ways: &mut Ways) -> (u32, bool) {
    let session: Reference<R::Mode> = any_session(random);
    let (open, envelope) = (session.open, any_envelope(random));
    let (metadata, message) = (text(random), text(random));
    let (a, m) = (maybe_long(random, &metadata, 20), maybe_long(random, &message, 20));
    let room = m.len() + random.below(60);
    let mut out = vec![0; other_length(random, room, 12)];
    let tag_length = other_length(random, tag_length::<R>(), 12);
    if random.once_in(2) {
        let header = any_header::<R>(random, envelope, &a, &m, ways);
        let mut tag = random.bytes(tag_length);
        let answer = BothOf::<R>::of(session).wrap_for(header.as_deref(), &a, &m, &mut out, &mut tag);
        return (answer.number, open);
    }
    // Handed over as it is or damaged.
    let whole = envelope.map(|group| header(R::Mode::LETTER, group, metadata.len(), message.len()));
    let mut arrival = next_arrival(&session, whole, metadata, message);
    arrival.tag.resize(tag_length, 0);
    let bad = if random.once_in(4) { arrival.damaged(random, R::Mode::LETTER, ways) } else { arrival.clone() };
    let c = if m.len() > 16_384 { &m } else { &bad.cryptogram };
    let answer = BothOf::<R>::of(session).unwrap_for(bad.header.as_deref(), &bad.metadata, c, &bad.tag, &mut out);
    assert!(answer.number != 0 || bad.travels_as(&arrival));
    (answer.number, open)
}

/// A call that leaves an index close to the limit, or would leave one above it, at both ends.
pub fn call_near_the_limit<R: Library>(random: &mut Random) {
    let (metadata, message) = (text(random), text(random));
    let header = any_envelope(random).map(|group| header(R::Mode::LETTER, group, metadata.len(), message.len()));
    let header = header.as_deref();
    let full = INDEX_MAX - growth(metadata_string(header, &metadata).len(), message.len());
    let index = match random.below(6) {
        0 => full + 1,
        1 => full + random.below(5) as u32,
        2 => full - random.below(5) as u32,
        3 => u32::MAX - random.below(5) as u32,
        _ => full,
    };
    let session: Reference<R::Mode> = Reference { index, open: true, ..any_session(random) };
    let (mut out, mut tag) = (random.bytes(message.len()), random.bytes(R::Mode::TAG));
    let mut here = BothOf::<R>::of(session.clone());
    let answer = here.by(By::any(random)).wrap_for(header, &metadata, &message, &mut out, &mut tag);
    assert_eq!(answer.number, if index <= full { 0 } else { 9 });
    let mut there = BothOf::<R>::of(session);
    let mut back = random.bytes(message.len());
    assert_eq!(there.by(By::any(random)).unwrap_for(header, &metadata, &out, &tag, &mut back), answer);
    assert!(answer.number == 9 || (back == message && same(&here.library, &there.library)));
}

/// Messages of the greatest length from this session on, until the index is full, at each end by either of the library's functions;
/// gives how many. Every hundredth one is compared, the others are made by the library alone.
pub fn up_to_the_limit<R: Library>(random: &mut Random, mut both: BothOf<R>) -> u32 {
    let message = random.bytes(16_384);
    let mut far = copy(&both.library);
    let mut sealed = 0;
    loop {
        let (mut out, mut tag, mut back) = (random.bytes(16_384), vec![0; R::Mode::TAG], vec![0; 16_384]);
        let number = if sealed % 100 == 0 {
            both.wrap_for(None, &message, &message, &mut out, &mut tag).number
        } else {
            let number = both.library.wrap_for(By::any(random), None, &message, &message, &mut out, &mut tag).number;
            both.reference = both.library.reference();
            number
        };
        let answer = far.unwrap_for(By::any(random), None, &message, &out, &tag, &mut back);
        assert_eq!(answer.number, number);
        assert!(same(&far, &both.library));
        if number != 0 {
            assert_eq!(number, 9);
            return sealed;
        }
        assert!(back == message);
        sealed += 1;
    }
}
