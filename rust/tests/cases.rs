//! The examples that document 01 and the papers print, each on the library and on the oracle.

#[allow(dead_code)]
mod oracle;

use blossomaxle::nmea::{Parameter, Setting, Source};
use blossomaxle::{bench, mgl, nmea, onflight, Clock, Field, Format, Reader, Refusal, MAX_OUTPUT};
use oracle::reading::{closing, reading};
use oracle::{checksum, frame};

/// Framed, skipped and pending after one piece, which are the same for library and oracle.
fn after_piece(format: Format, bytes: &[u8]) -> (u32, u32, u32) {
    let mut reader = Reader::fresh(format).unwrap();
    let mut out = [0; MAX_OUTPUT];
    let handed = reader.piece(bytes, &mut out).unwrap();
    let found = reading(format.number(), bytes);
    assert_eq!(out[..handed], found.frames);
    let counts = reader.counts();
    let counts = (counts.framed, counts.skipped, counts.pending);
    assert_eq!(counts, (found.frames.len() as u32, found.skipped as u32, found.pending as u32));
    counts
}

/// Framed and skipped after one piece and a close, which are the same for library and oracle.
fn after_close(format: Format, bytes: &[u8]) -> (u32, u32) {
    let mut reader = Reader::fresh(format).unwrap();
    let mut out = [0; MAX_OUTPUT];
    reader.piece(bytes, &mut out).unwrap();
    reader.close(&mut out).unwrap();
    let found = closing(format.number(), bytes);
    let counts = reader.counts();
    assert_eq!((counts.framed, counts.skipped, counts.pending), (found.frames.len() as u32, found.skipped as u32, 0));
    (counts.framed, counts.skipped)
}

/// A start wants so many bytes: it is pending with one fewer, and decided with all of them.
fn wants(start: &[u8], length: usize) {
    let mut bytes = start.to_vec();
    bytes.resize(length - 1, 0);
    assert_eq!(after_piece(Format::Mgl, &bytes), (0, 0, length as u32 - 1));
    bytes.push(0xFF);
    assert_eq!(after_piece(Format::Mgl, &bytes), (0, length as u32, 0));
    let mut body = vec![0; length - 12];
    body[0] = 1;
    assert_eq!(after_piece(Format::Mgl, &frame::mgl([0; 4], &body)), (length as u32, 0, 0));
}

#[test]
fn case_a_and_b_the_length_of_mgl_frames() {
    wants(&[0x05, 0x02, 0x01, 0xFE], 21);
    wants(&[0x05, 0x02, 0x00, 0xFF], 276);
}

#[test]
fn case_c_to_e_starts() {
    assert_eq!(after_piece(Format::Mgl, &[0x05, 0x02, 0x01, 0xFF]), (0, 4, 0));
    assert_eq!(after_piece(Format::Mgl, &[0x05, 0x05, 0x02]), (0, 1, 2));
    assert_eq!(after_piece(Format::OnFlight, &[0x42, 0x42, 0x46]), (0, 1, 2));
}

#[test]
fn case_f_and_published_checksums() {
    assert_eq!(checksum::fletcher(b"BF"), [136, 202]);
    assert_eq!(checksum::crc32(b"123456789"), 0xCBF4_3926);
    assert_eq!(checksum::crc32(b"abc"), 0x3524_41C2);
    assert_eq!(checksum::crc32(b""), 0);
}

#[test]
fn case_g_gyro_numbers() {
    for (number, rate) in [(8945, 8_945), (16953, 34_530), (15000, 15_000), (-32768, -192_680), (14_999, 14_999)] {
        assert_eq!((mgl::gyro(number), oracle::gyro::rate(number)), (rate, rate));
        assert_eq!(mgl::write_gyro(rate), Ok(number));
    }
    for rate in [15_001, 192_680, -192_690, i32::MIN] {
        assert_eq!(mgl::write_gyro(rate), Err(Refusal::OutOfForm));
        assert_eq!(oracle::gyro::write(rate).number, 9);
    }
}

/// The clock of an MGL frame with year, month, day, hour, minute and second.
fn mgl_clock([year, month, day, hour, minute, second]: [u8; 6]) -> Clock {
    let mut body = [0; 32];
    body[24..30].copy_from_slice(&[hour, minute, second, day, month, year]);
    let mut frame = [0; 44];
    mgl::write(mgl::Header { message_type: 1, rate: 0, count: 0, version: 1 }, &body, &mut frame).unwrap();
    mgl::clock(&frame).unwrap()
}

/// The clock of an OnFlight frame.
fn onflight_clock(fields: [u8; 6]) -> Clock {
    let mut payload = [0; 152];
    payload[37..43].copy_from_slice(&fields);
    let mut frame = [0; 158];
    onflight::write(&payload, &mut frame).unwrap();
    onflight::clock(&frame).unwrap()
}

#[test]
fn case_h_to_j_clocks() {
    assert_eq!(mgl_clock([0, 1, 1, 0, 0, 0]), Clock::Good(946_684_800));
    assert_eq!(onflight_clock([30, 1, 1, 0, 0, 0]), Clock::Good(946_684_800));
    assert_eq!(mgl_clock([23, 6, 17, 13, 49, 43]), Clock::Good(1_687_009_783));
    assert_eq!(onflight_clock([53, 6, 17, 13, 49, 43]), Clock::Good(1_687_009_783));
    assert_eq!(onflight_clock([130, 2, 29, 0, 0, 0]), Clock::Wrong(Field::Day));
    assert_eq!(mgl_clock([100, 2, 29, 0, 0, 0]), Clock::Wrong(Field::Day));
    assert_eq!(mgl_clock([104, 2, 29, 0, 0, 0]), Clock::Wrong(Field::Year));
    assert_eq!(mgl_clock([0; 6]), Clock::Unset);
    assert_eq!(onflight_clock([0, 0, 0, 0, 0, 1]), Clock::Wrong(Field::Month));
    assert_eq!(onflight_clock([255, 12, 31, 23, 59, 59]), Clock::Good(8_078_572_799));
}

#[test]
fn case_k_and_the_sheet() {
    let mut out = [0; 82];
    let length = nmea::write(b"PLARB,12.33", &mut out).unwrap();
    assert_eq!(&out[..length], b"$PLARB,12.33*4C\r\n");
    assert_eq!(after_close(Format::Nmea, b"x$$PLARB,12.33*4C\r\n"), (17, 2));
}

#[test]
fn case_l_no_empty_body() {
    assert_eq!(after_piece(Format::Nmea, b"$*00\r\n"), (0, 6, 0));
    assert_eq!(after_close(Format::Nmea, b"$*00\r\n"), (0, 6));
}

#[test]
fn a_frame_inside_a_broken_longer_one() {
    let inner = frame::mgl([1, 2, 3, 4], &[7; 12]);
    let bytes = [&[0x05, 0x02, 0x00, 0xFF], &inner[..]].concat();
    assert_eq!(after_piece(Format::Mgl, &bytes), (0, 0, 28));
    assert_eq!(after_close(Format::Mgl, &bytes), (24, 4));
}

#[test]
#[ignore = "reads four gigabytes"]
fn the_longest_line() {
    let mut reader = Reader::fresh(Format::OnFlight).unwrap();
    let (zeros, mut out) = ([0; 4096], [0; MAX_OUTPUT]);
    for _ in 0..u32::MAX / 4096 {
        reader.piece(&zeros, &mut out).unwrap();
    }
    assert_eq!(reader.piece(&zeros, &mut out), Err(Refusal::LineTooLong));
    assert_eq!(reader.piece(&zeros[..4095], &mut out), Ok(0));
    assert_eq!(reader.counts().skipped, u32::MAX);
    assert_eq!(reader.piece(&zeros[..1], &mut out), Err(Refusal::LineTooLong));
    assert_eq!(reader.piece(&[], &mut []), Ok(0));
    assert_eq!(reader.close(&mut []), Ok(0));
}

/// The sentences of the LARUS paper. Two of them print a wrong checksum.
const PRINTED: [&str; 16] = [
    "$GPRMC,134943.69,A,4829.57602,N,1026.79034,E,057.0,081.9,170623,,,A*67",
    "$GPGGA,134943.69,4829.57602,N,1026.79034,E,1,24,1.0,2702.7,M,47.3,M,,*61",
    "$PLARW,288,29,I,A*69",
    "$PLARW,288,29,A,A*61",
    "$PLARA,27.5,4.0,69.2*45",
    "$PLARD,922.54,M*10",
    "$PLARB,12.33*4C",
    "$PLARV,1.46,2.98,2608,90*5C",
    "$PLARS,L,MC,1.3*1E",
    "$PLARS,L,BAL,0.752*6B",
    "$PLARS,L,BUGS,15*3B",
    "$PLARS,L,QNH,1013.2*74",
    "$PLARS,H,MC,2.1*1B",
    "$PLARS,H,BAL,1.000*68",
    "$PLARS,H,BUGS,0*0B",
    "$PLARS,H,QNH,1031.4*76",
];

#[test]
fn the_sentences_of_the_paper() {
    for text in PRINTED {
        let bytes = format!("{text}\r\n").into_bytes();
        let wrong = text.contains("BAL");
        let length = bytes.len() as u32;
        assert_eq!(after_close(Format::Nmea, &bytes), if wrong { (0, length) } else { (length, 0) });
    }
    assert_eq!(checksum::xor_digits(b"PLARS,L,BAL,0.752"), *b"5D");
    assert_eq!(checksum::xor_digits(b"PLARS,H,BAL,1.000"), *b"58");
}

#[test]
fn the_position_of_the_paper() {
    let frame = format!("{}\r\n", PRINTED[0]).into_bytes();
    let position =
        nmea::Position { latitude: (48 * 60 + 29) * 100_000 + 57_602, longitude: (10 * 60 + 26) * 100_000 + 79_034 };
    assert_eq!(nmea::rmc_position(&frame), Ok(position));
    assert_eq!(nmea::rmc_clock(&frame), Ok(Clock::Good(1_687_009_783)));
    assert_eq!(nmea::rmc_status(&frame), Ok(nmea::Status::Valid));
    assert_eq!(nmea::setting(&frame), Err(Refusal::OtherMessage));
}

#[test]
fn settings_have_one_spelling() {
    let read = |body: &str| nmea::setting(&frame::nmea(body.as_bytes()));
    let setting = |source, parameter, value| Ok(Setting { source, parameter, value });
    assert_eq!(read("PLARS,L,MC,1.3"), setting(Source::Larus, Parameter::MacCready, 13));
    assert_eq!(read("PLARS,H,BAL,0.752"), setting(Source::Host, Parameter::Ballast, 752));
    assert_eq!(read("PLARS,H,BUGS,0"), setting(Source::Host, Parameter::Bugs, 0));
    assert_eq!(read("PLARS,L,QNH,1013.2"), setting(Source::Larus, Parameter::Qnh, 10_132));
    for text in [
        "MC,01.3",
        "MC,1.",
        "MC,.5",
        "MC,1.30",
        "MC,+1.0",
        "MC,-0.1",
        "BUGS,00",
        "BUGS,05",
        "QNH,0500.0",
        "BUGS,51",
        "MC,1.3,",
    ] {
        assert_eq!(read(&format!("PLARS,L,{text}")), Err(Refusal::OutOfForm), "{text}");
    }
    assert_eq!(read("PLARX,L,MC,1.3"), Err(Refusal::OtherMessage));
}

#[test]
fn the_shortest_bench_file() {
    let file = [1, 3, 2, 0, 0, 0, 0];
    let entries: Vec<bench::Entry> = bench::entries(&file, 7).unwrap().collect();
    assert_eq!(entries, [bench::Entry { format: Format::Nmea, port: 2, length: 0, start: 7 }]);
    assert_eq!(bench::count(&[], 0), Err(Refusal::BrokenToc));
    assert_eq!(bench::count(&file[..6], 7), Err(Refusal::BrokenToc));
    assert_eq!(bench::count(&file, 6), Err(Refusal::BrokenToc));
    assert_eq!(bench::count(&[1, 3, 2, 0, 0, 0, 0, 255], 7), Ok(1));
}

#[test]
fn every_refusal_has_its_number_and_text() {
    for number in 1..=11 {
        let refusal = Refusal::from_number(number).unwrap();
        assert_eq!(refusal.number(), number);
        assert!(refusal.to_string().starts_with(&format!("refused {number}: ")));
        assert!(!matches!(refusal, Refusal::Other(_)));
    }
    assert_eq!(Refusal::from_number(12), Some(Refusal::Other(12)));
}
