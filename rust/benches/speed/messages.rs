//! Frames for the field functions.

use crate::captures::{damage, framed, Xorshift};
use blossomaxle::Format;

/// The frames that a row's functions accept.
pub const FRAMES: usize = 4000;

/// The content of a message, as `framed` takes it, with chance for its fields.
pub type Maker = fn(&mut Xorshift) -> Vec<u8>;

/// Frames that the field functions of a message accept.
pub fn good(format: Format, maker: Maker) -> Vec<Vec<u8>> {
    let mut rng = Xorshift::fresh();
    (0..FRAMES).map(|_| framed(format, &maker(&mut rng))).collect()
}

/// Frames that field functions have to judge: three of four with changes in their content and the right checksum,
/// and one of five of all damaged. Sentences at the limits follow, also with small letters for checksum digits.
pub fn doubtful(format: Format, maker: Maker) -> Vec<Vec<u8>> {
    let mut rng = Xorshift::fresh();
    let mut frame = || {
        let mut content = maker(&mut rng);
        for _ in 0..rng.below(4) {
            match format {
                Format::Nmea => change_sentence(&mut content, &mut rng),
                _ => change_numbers(&mut content, &mut rng),
            }
        }
        let mut frame = framed(format, &content);
        if rng.below(5) == 0 {
            damage(&mut frame, &mut rng);
        }
        frame
    };
    let edges = if format == Format::Nmea { &EDGES[..] } else { &[] };
    let edges = edges.iter().map(|body| framed(format, body.as_bytes()));
    let small_digits = edges.clone().map(|mut frame| {
        let ending = frame.len() - 4;
        frame[ending..].make_ascii_lowercase();
        frame
    });
    (0..2 * FRAMES).map(|_| frame()).chain(edges).chain(small_digits).chain([vec![]]).collect()
}

/// Sets a byte of the header or of the body, zeroes eight bytes, or makes the body longer.
fn change_numbers(content: &mut Vec<u8>, rng: &mut Xorshift) {
    let at = rng.below(content.len());
    match rng.below(10) {
        0 => content[rng.below(4)] = rng.below(3) as u8,
        1 => content.extend(rng.bytes(4)),
        2 | 3 => content.iter_mut().skip(at).take(8).for_each(|byte| *byte = 0),
        4 | 5 => content[at] = rng.below(8) as u8,
        6 | 7 => content[at] = rng.below(64) as u8,
        _ => content[at] = rng.byte(),
    }
}

/// Changes, drops or inserts a byte of a sentence, or drops a field.
fn change_sentence(body: &mut Vec<u8>, rng: &mut Xorshift) {
    const BYTES: &[u8] = b"/0123456789:,.ANSEWVLH";
    let (at, byte) = (rng.below(body.len()), BYTES[rng.below(BYTES.len())]);
    match rng.below(8) {
        0 => drop(body.remove(at)),
        1 => body.insert(at, byte),
        2 => {
            let from = body[..at].iter().rposition(|byte| *byte == b',').map_or(0, |comma| comma + 1);
            let to = body[at..].iter().position(|byte| *byte == b',').map_or(body.len(), |comma| at + comma);
            drop(body.drain(from.min(to)..to));
        }
        _ => body[at] = byte,
    }
    if body.is_empty() {
        body.push(b'P');
    }
}

/// Sentences at the limits of what is accepted.
const EDGES: [&str; 36] = [
    "",
    "GPRMC,134943.69,A,4829.57602,N,1026.79034,E,,,170623,,,123456789012345678901",
    "GPRMC,134943.69,A,4829.57602,N,1026.79034,E,,,170623,,,1234567890123456789012",
    "GPRMC,134943.69,A,4829.57602,N,1026.79034,E,,,170623,,, ",
    "GPRMC,134943.69,A,4829.57602,N,1026.79034,E,,,170623,,,~",
    "GPRMC,134943.69,A,4829.57602,N,1026.79034,E,,,170623,,,\x1F",
    "GPRMC,134943.69,A,4829.57602,N,1026.79034,E,,,170623,,,\x7F",
    "GPRMC,134943.69,A,4829.57602,N,1026.79034,E,,,170623,,,\u{80}",
    "GPRMC,134943.69,A,4829.57602,N,1026.79034,E,,,170623,,,$",
    "GPRMC,134943.69,A,4829.57602,N,1026.79034,E,,,170623,,,*",
    "GPRMC,235960.00,A,4829.57602,N,1026.79034,E,,,170623,,,A",
    "GPRMC,134943.69,A,04829.57602,N,1026.79034,E,,,170623,,,A",
    "GPRMC",
    "GPRMC,,,,,,,,,,,,",
    "GPRMC,000000.00,A,9000.00000,N,18000.00000,W,,,290200,,,A",
    "GPRMC,235959.99,V,9000.00001,N,18000.00000,W,,,290201,,,A",
    "GPRMC,235960.00,a,8959.99999,S,18000.00001,W,,,310499,,,A",
    "GPRMC,236000.00,A,000.00000,S,00000.00000,W,,,310599,,,A",
    "GPRMC,240000.00,A,060.00000,S,17959.99999,E,,,000000,,,A",
    "GPRMC,134943.69,A,0100.00000,N,000100.00000,E,,,170623,,,A",
    "PLARS",
    "PLARS,L,MC,9.9",
    "PLARS,L,MC,10.0",
    "PLARS,L,MC,00.0",
    "PLARS,H,BAL,1.000",
    "PLARS,H,BAL,1.001",
    "PLARS,H,BAL,.500",
    "PLARS,L,BUGS,50",
    "PLARS,L,BUGS,51",
    "PLARS,L,BUGS,05",
    "PLARS,L,BUGS,4294967297",
    "PLARS,L,QNH,500.0",
    "PLARS,L,QNH,499.9",
    "PLARS,L,QNH,1200.0",
    "PLARS,L,QNH,1200.1",
    "PLARS,L,QNH,4294968296.0",
];

/// A number from one to another.
fn from_to(rng: &mut Xorshift, from: usize, to: usize) -> usize {
    from + rng.below(to - from + 1)
}

/// Year, month, day, hour, minute and second that are right, where years go up to a largest.
fn date_time(rng: &mut Xorshift, largest_year: usize) -> [u8; 6] {
    [(0, largest_year), (1, 12), (1, 28), (0, 23), (0, 59), (0, 59)].map(|(from, to)| from_to(rng, from, to) as u8)
}

/// The content of an MGL frame: a header, and a body of chance.
fn mgl(rng: &mut Xorshift, kind: u8, body: usize) -> Vec<u8> {
    [vec![kind, 1, rng.byte(), 1], rng.bytes(body)].concat()
}

pub fn primary(rng: &mut Xorshift) -> Vec<u8> {
    let mut content = mgl(rng, 1, 32);
    let [year, month, day, hour, minute, second] = date_time(rng, 99);
    content[28..34].copy_from_slice(&[hour, minute, second, day, month, year]);
    content
}

pub fn gps(rng: &mut Xorshift) -> Vec<u8> {
    let mut content = mgl(rng, 2, 44);
    content[38] = rng.below(6) as u8;
    content
}

/// A fuel message of one to four tanks.
pub fn fuel(rng: &mut Xorshift) -> Vec<u8> {
    let tanks = from_to(rng, 1, 4);
    tanks_of(rng, tanks)
}

/// A fuel message of up to 32 tanks.
pub fn many_tanks(rng: &mut Xorshift) -> Vec<u8> {
    let tanks = from_to(rng, 1, 32);
    tanks_of(rng, tanks)
}

fn tanks_of(rng: &mut Xorshift, tanks: usize) -> Vec<u8> {
    let mut content = mgl(rng, 11, 4 + 8 * tanks);
    content[4..8].copy_from_slice(&(tanks as u32).to_le_bytes());
    content
}

pub fn onflight(rng: &mut Xorshift) -> Vec<u8> {
    let mut payload = rng.bytes(152);
    payload[36] = (rng.below(32) << 3 | [0, 2, 3, 4][rng.below(4)]) as u8;
    payload[37..43].copy_from_slice(&date_time(rng, 255));
    payload
}

/// The same, with days that not every month has.
pub fn onflight_any_day(rng: &mut Xorshift) -> Vec<u8> {
    let mut payload = onflight(rng);
    payload[39] = from_to(rng, 28, 32) as u8;
    payload
}

pub fn rmc(rng: &mut Xorshift) -> Vec<u8> {
    let [year, month, day, hour, minute, second] = date_time(rng, 99);
    let letter = |rng: &mut Xorshift, letters: [char; 2]| letters[rng.below(2)];
    let mut n = |to: usize| rng.below(to + 1);
    let time = format!("{hour:02}{minute:02}{second:02}.{:02}", n(99));
    let latitude = format!("{:02}{:02}.{:05}", n(89), n(59), n(99_999));
    let longitude = format!("{:02}{:02}.{:05}", n(179), n(59), n(99_999));
    let track = format!("{:03}.{},{:03}.{}", n(140), n(9), n(359), n(9));
    let (status, northing, easting) = (letter(rng, ['A', 'V']), letter(rng, ['N', 'S']), letter(rng, ['E', 'W']));
    let place = format!("{latitude},{northing},{longitude},{easting}");
    format!("GPRMC,{time},{status},{place},{track},{day:02}{month:02}{year:02},,,A").into_bytes()
}

pub fn plars(rng: &mut Xorshift) -> Vec<u8> {
    let source = ['L', 'H'][rng.below(2)];
    let mut n = |from: usize, to: usize| from_to(rng, from, to);
    let setting = match n(0, 3) {
        0 => format!("MC,{}.{}", n(0, 9), n(0, 9)),
        1 => format!("BAL,0.{:03}", n(0, 999)),
        2 => format!("BUGS,{}", n(0, 50)),
        _ => format!("QNH,{}.{}", n(500, 1199), n(0, 9)),
    };
    format!("PLARS,{source},{setting}").into_bytes()
}
