//! A program outside the repository, over the installed library: prints the sentences of the numbers, and the stored bytes and codes of
//! sessions of every mode, which must be those that the C functions give.

use pevghazo::{
    BadBytes, Letter, Number, PACKET_MAX, Plain, Pool, Prices, Refusal, SaeSession, SaneSession, Secret, Session, Size, TEXT_MAX, Table,
    Till, Window, Windows, envelope,
};

fn digits(bytes: &Secret) -> String {
    bytes.iter().map(|byte| format!("{byte:02x}")).collect()
}

/// The bytes of hexadecimal digits.
fn bytes(digits: &str) -> Vec<u8> {
    let byte = |i: usize| u8::from_str_radix(&digits[i..i + 2], 16).expect("two digits");
    (0..digits.len()).step_by(2).map(byte).collect()
}

/// The first letter of the first session of `vectors/sae.txt`, which has neither metadata nor a message.
fn first_letter() -> Result<(), Refusal> {
    let key = bytes("ae947c8d3be9b84b5dcb2583fb0e48bad0003213fe6196cb23ef05c0f474ce");
    let (mut session, tag, _) = SaeSession::start(&key, b"")?;
    assert_eq!(tag[..], bytes("4d6ef86b957df5311f9d7a940ab6fcb4"));
    let letter = [&b"F,31,0,0,"[..], &bytes("1aac4534400f92ef158523286a2e644f")].concat();
    let opened = session.open(&letter)?;
    assert_eq!((opened.group, opened.metadata, &opened.message[..], opened.count), (31, &b""[..], &b""[..], 3));
    Ok(())
}

/// A session of old letters, which neither wraps nor takes an envelope of SANE with another letter.
fn only_opens(key: &[u8], plain: &Plain<'_>, of_sane: &[u8]) -> Result<SaeSession, Refusal> {
    let (mut old, _, _) = SaeSession::start(key, b"size C")?;
    assert_eq!(old.wrap(plain).unwrap_err().number, Number::ReadOnly);
    let as_letter = [b"F", &of_sane[1..]].concat();
    assert_eq!((envelope::read(&as_letter)?.letter, old.open(&as_letter).unwrap_err().number), (Letter::F, Number::WrongTag));
    assert_eq!(envelope::write_header(Letter::F, 7, plain).unwrap_err().number, Number::ReadOnly);
    Ok(old)
}

/// A message of the greatest length, from an office to a group and back, in sessions of its own.
fn long_message(key: &[u8]) -> Result<(), Refusal> {
    let plain = Plain { metadata: &[b'C'; 400], message: &[7; TEXT_MAX] };
    let (mut office, (mut group, _)) = (Table::new(), Session::start(key)?);
    office.start_day(10_000);
    office.open_group(7, key)?;
    let sealed = office.seal(7, &plain)?;
    assert_eq!(group.open(&sealed.envelope)?.message, plain.message);
    let back = group.seal(7, &plain)?;
    assert_eq!((&office.open(&back.envelope)?.message[..], back.count), (plain.message, sealed.count));
    Ok(())
}

/// A pool of rings, and windows in which some may be issued.
fn rings() -> Result<(), Refusal> {
    let mut pool = Pool::new();
    pool.add(b"7,C,12001,12100,20250304\n")?;
    assert_eq!((pool.rings(), pool.holds(Size::C, 12_100), pool.holds(Size::D, 12_100)), (100, true, false));
    let windows = Windows::new([Window { open_month: 11, open_day: 15, close_month: 2, close_day: 29 }; 8]);
    let spring = b"7,C,12101,12200,20250301\n";
    assert_eq!(pool.add_in_season(&windows, spring).unwrap_err().number, Number::OutOfSeason);
    assert_eq!(windows.first_day(spring)?, Some(20_251_115));
    pool.add_in_season(&windows, b"7,C,12101,12200,20250228\n")?;
    Ok(())
}

/// A till, and the prices by which some lines are charged.
fn charges() -> Result<(), Refusal> {
    let (mut till, prices) = (Till::new(), Prices::new([0, 0, 250, 0, 0, 0, 0, 0]));
    assert_eq!(till.price(&prices, b"7,C,12101,12103,20250304\n")?, 8);
    assert_eq!(till.price(&prices, b"7,D,12101,12103,20250304\n").unwrap_err().number, Number::NotSold);
    assert_eq!(Till::from_totals(1, 8, 750), Ok(till));
    let mut full = Till::from_totals(65_536, 65_536, 6_553_600).expect("a penny a line");
    assert_eq!(full.price(&prices, b"7,C,12101,12103,20250304\n").unwrap_err().number, Number::TillFull);
    Ok(())
}

fn main() -> Result<(), Refusal> {
    let key = b"a key for the stored bytes";
    let plain = Plain { metadata: b"size C", message: b"12001-12100" };
    let (mut session, _) = Session::start(key)?;
    let mut office = Table::new();
    office.start_day(100);
    office.open_group(7, key)?;
    let sealed = office.seal(7, &plain)?;
    let mut readdressed = sealed.envelope.clone();
    readdressed[2] = b'8';
    assert_eq!(session.open(&readdressed).unwrap_err().number, Number::WrongTag);
    let arrived = envelope::read(&sealed.envelope)?;
    assert_eq!(arrived.header, envelope::write_header(Letter::S, 7, &plain)?);
    assert_eq!(session.unwrap_envelope(&arrived)?.message, plain.message);
    long_message(key)?;
    let (mut here, tag, _) = SaneSession::start(key, b"size C")?;
    let (mut there, same_tag, _) = SaneSession::start(key, b"size C")?;
    let sealed = here.seal(7, &plain)?;
    assert_eq!((tag, &there.open(&sealed.envelope)?.message[..]), (same_tag, plain.message));
    first_letter()?;
    let old = only_opens(key, &plain, &sealed.envelope)?;
    rings()?;
    charges()?;
    for number in Number::ALL {
        println!("{}", number.sentence());
    }
    for bad in [BadBytes::Flag, BadBytes::Index, BadBytes::Closed] {
        println!("{bad}");
    }
    println!("{}", digits(&session.to_bytes()));
    println!("{}", digits(&there.to_bytes()));
    println!("{}", digits(&old.to_bytes()));
    for packet in [0, PACKET_MAX] {
        let (code, count) = session.code(packet)?;
        assert_eq!((office.code(7, packet)?, code.to_string().parse()), ((code, count), Ok(code)));
        println!("{code}");
    }
    Ok(())
}
