//! NMEA sentences.

use super::date;
use super::prng::Prng;
use crate::oracle::frame;
use crate::oracle::shape::permitted;

/// A good sentence: RMC, PLARS, one of the paper's, or any body.
pub fn frame(rng: &mut Prng) -> Vec<u8> {
    let mut body = match rng.below(8) {
        0..=2 => rmc(rng),
        3..=5 => plars(rng),
        6 => rng.pick(PRINTED).as_bytes().to_vec(),
        _ => any(rng),
    };
    body.retain(|byte| permitted(*byte));
    body.truncate(76);
    if body.is_empty() {
        body.push(b'~');
    }
    frame::nmea(&body)
}

/// Bodies that the LARUS paper prints.
const PRINTED: &[&str] = &[
    "GPRMC,134943.69,A,4829.57602,N,1026.79034,E,057.0,081.9,170623,,,A",
    "GPGGA,134943.69,4829.57602,N,1026.79034,E,1,24,1.0,2702.7,M,47.3,M,,",
    "PLARW,288,29,I,A",
    "PLARW,288,29,A,A",
    "PLARA,27.5,4.0,69.2",
    "PLARD,922.54,M",
    "PLARB,12.33",
    "PLARV,1.46,2.98,2608,90",
    "PLARS,L,MC,1.3",
    "PLARS,L,BAL,0.752",
    "PLARS,L,BUGS,15",
    "PLARS,L,QNH,1013.2",
    "PLARS,H,BAL,1.000",
    "PLARS,H,BUGS,0",
];

fn any(rng: &mut Prng) -> Vec<u8> {
    let size = if rng.one_in(2) { rng.range(1, 4) } else { rng.range(1, 76) };
    (0..size).map(|_| rng.range(0x20, 0x7E) as u8).collect()
}

/// An RMC sentence, mostly with one field or none that is off.
fn rmc(rng: &mut Prng) -> Vec<u8> {
    let [year, month, day, hour, minute, second] = date(rng, 100);
    let mut fields = vec![
        "GPRMC".to_string(),
        format!("{hour:02}{minute:02}{second:02}.{:02}", rng.below(100)),
        rng.pick(&["A", "V"]).to_string(),
        angle(rng, 90),
        rng.pick(&["N", "S"]).to_string(),
        angle(rng, 180),
        rng.pick(&["E", "W"]).to_string(),
        "057.0".to_string(),
        "081.9".to_string(),
        format!("{day:02}{month:02}{year:02}"),
        String::new(),
        String::new(),
        "A".to_string(),
    ];
    if rng.one_in(2) {
        let place = rng.pick(&[0, 1, 1, 2, 2, 3, 3, 4, 5, 5, 6, 9, 9, 12]);
        fields[place] = bent(rng, &fields[place]);
    }
    if rng.one_in(12) {
        let place = rng.length(fields.len());
        fields.remove(place);
    }
    if rng.one_in(12) {
        fields.insert(rng.length(14).min(fields.len()), String::new());
    }
    fields.join(",").into_bytes()
}

/// An angle up to some degrees or a little over, with fewer or more degree digits.
fn angle(rng: &mut Prng, most: u64) -> String {
    let degrees = if rng.one_in(4) { rng.pick(&[0, 9, most - 1, most, most + 1, 200]) } else { rng.below(most) };
    let minutes = if rng.one_in(4) { rng.pick(&[0, 59, 60, 99]) } else { rng.below(60) };
    let small = if rng.one_in(3) { rng.pick(&[0, 1, 99_999]) } else { rng.below(100_000) };
    let width = rng.pick(&[1, 2, 2, 3]);
    format!("{degrees:0width$}{minutes:02}.{small:05}")
}

/// A PLARS sentence, mostly in form.
fn plars(rng: &mut Prng) -> Vec<u8> {
    let (name, least, most, decimals) =
        rng.pick(&[("MC", 0, 99, 1), ("BAL", 0, 1000, 3), ("BUGS", 0, 50, 0), ("QNH", 5000, 12_000, 1)]);
    let value = match rng.below(6) {
        0 => rng.pick(&[least, most, most + 1, least.max(1) - 1]),
        1 => rng.below(2 * most),
        _ => rng.range(least, most),
    };
    let decimals = if rng.one_in(8) { rng.length(5) } else { decimals };
    let mut fields =
        vec!["PLARS".to_string(), rng.pick(&["L", "H"]).to_string(), name.to_string(), spelled(value, decimals)];
    if rng.one_in(3) {
        let place = rng.pick(&[0, 1, 2, 3, 3, 3]);
        fields[place] = bent(rng, &fields[place]);
    }
    if rng.one_in(12) {
        fields.push(String::new());
    }
    if rng.one_in(12) {
        fields.pop();
    }
    fields.join(",").into_bytes()
}

fn spelled(value: u64, decimals: usize) -> String {
    let scale = 10u64.pow(decimals as u32);
    let whole = value / scale;
    if decimals == 0 {
        format!("{whole}")
    } else {
        format!("{whole}.{:0decimals$}", value % scale)
    }
}

/// A text with one thing wrong, or perhaps not: a byte more, fewer, or another; empty; or spelled in another way.
fn bent(rng: &mut Prng, text: &str) -> String {
    let mut bytes = text.as_bytes().to_vec();
    let at = rng.length(bytes.len().max(1));
    let other = rng.pick(b"0123456789.+- ,ALNSVaW/:~");
    match rng.below(9) {
        0 | 1 => bytes.clear(),
        2 if !bytes.is_empty() => drop(bytes.remove(at)),
        3 => bytes.insert(at.min(bytes.len()), other),
        4 => bytes.insert(0, b'0'),
        5 => bytes.push(b'0'),
        6 if rng.one_in(2) => bytes.make_ascii_lowercase(),
        7 if rng.one_in(2) => bytes.extend(b"0000000000"),
        _ if !bytes.is_empty() => bytes[at] = other,
        _ => bytes.push(other),
    }
    String::from_utf8(bytes).unwrap_or_default()
}
