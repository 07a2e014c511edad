//! An independent implementation of the sealing, written from the papers for tests and benchmarks.
//!
//! Nothing that is delivered links this crate. It exists so that the proved code has something to be compared with that
//! was written by reading the papers only:
//!
//! * the Xoodoo cookbook: the permutation (section 2), Xoofff (section 3), Xoofff-SANE (section 4) and Xoofff-SANSE
//!   (section 5);
//! * the Farfalle paper: the construction that makes a deck function from a permutation (section 3), and Farfalle-SAE (section 4.1);
//! * the scope document, number 01: limits, counts, what a refusal leaves behind, the envelope and the office's table;
//! * document 02: the codes for packets; counts, limits and the envelope's letter of SANE; a count of the day for each group;
//!   the pool of unused rings; the header under the tag in calls for an envelope; issue seasons; old letters;
//!   charges.
//!
//! # The layers
//!
//! | module | what it holds |
//! |---|---|
//! | [`xoodoo`] | the permutation on twelve 32-bit lanes, and its inverse |
//! | [`rolling`] | the two rolling functions on the same lanes |
//! | [`deck`] | Xoofff: a keyed function from a *history* (a sequence of strings) to as many bytes as one asks for |
//! | [`bits`] | permutation, padding, rolling and deck function once more, literally, on strings of bits |
//! | [`limits`] | the limits of keys, texts, tags and indexes |
//! | [`session`] | the record that is carried along from call to call, and the checks, wrap and unwrap that all modes share |
//! | [`sanse`] | the steps and counts of Xoofff-SANSE, and the start of its sessions |
//! | [`sane`] | the same of Xoofff-SANE, whose sessions start with a nonce |
//! | [`sae`] | the same of Farfalle-SAE, whose letters are only opened, with the wrap of the version that sealed them |
//! | [`codes`] | the codes for packets that a session gives |
//! | [`ledger`] | the same sessions kept as key and full history, with the deck function worked out afresh at each call |
//! | [`envelope`] | the bytes in which a sealed message travels, with a letter for its mode |
//! | [`table`] | the office's table of 32 sessions, each with its count of the day, under one allowance of permutations |
//! | [`issue`] | issue lines, as groups return rings |
//! | [`pool`] | the pool of unused rings |
//! | [`days`] | the days of the years 1900 to 2199 |
//! | [`season`] | windows of the year for each size, and the first permitted day |
//! | [`charge`] | a line's charge by a price list, and the till that adds charges up |
//! | [`refusal`] | the numbers under which a call is refused |
//! | [`random`] | a small deterministic generator of test data |
//!
//! # A message from one end to the other
//!
//! ```
//! use pevghazo_reference::session::Session;
//!
//! let key = b"sixteen bytes or more";
//! let mut office = Session::start(key).unwrap();
//! let mut group = Session::start(key).unwrap();
//!
//! let (mut cryptogram, mut tag) = ([0; 11], [0; 32]);
//! office.wrap(b"size C", b"12001-12100", &mut cryptogram, &mut tag).unwrap();
//!
//! let mut message = [0; 11];
//! group.unwrap(b"size C", &cryptogram, &tag, &mut message).unwrap();
//! assert_eq!(&message, b"12001-12100");
//! assert_eq!(office, group);
//! ```
#![forbid(unsafe_code)]

pub mod bits;
pub mod charge;
pub mod codes;
pub mod days;
pub mod deck;
pub mod envelope;
pub mod issue;
pub mod ledger;
pub mod limits;
pub mod pool;
pub mod random;
pub mod refusal;
pub mod rolling;
pub mod sae;
pub mod sane;
pub mod sanse;
pub mod season;
pub mod session;
pub mod table;
pub mod xoodoo;
