//! Writers of frames, settings and gyro numbers.

use crate::area::Area;
use crate::generate;
use crate::oracle::{gyro, writer, FORMATS, MGL, NMEA, ONFLIGHT};
use crate::raw;
use crate::run::{Given, Run};
use crate::typed;

/// Once a run: all gyro numbers and all settings, and those a little beyond.
pub fn exhaust(run: &mut Run) {
    for number in i16::MIN..=i16::MAX {
        run.same("gyro", &[Given::Number("number", number.into())], raw::gyro(number), gyro::rate(number));
        run.same("typed gyro", &[], typed::gyro(number), gyro::rate(number));
        run.tally.call("gyro", 0, 0);
    }
    for rate in -200_000..=200_000 {
        write_gyro(run, rate);
    }
    for source in [b'L', b'H', b'l', 0, 255] {
        for parameter in 0..=5 {
            for value in 0..=12_100 {
                write_setting(run, source, parameter, value, 24);
            }
        }
    }
}

/// All writing of a round.
pub fn compare(run: &mut Run) {
    for _ in 0..40 {
        any_frame(run);
        frame_again(run);
        any_setting(run);
        let rate = run.rng.next() as i32;
        let near = (run.rng.below(400_000) as i32) - 200_000;
        write_gyro(run, rate);
        write_gyro(run, near);
    }
}

fn write_gyro(run: &mut Run, rate: i32) {
    let expected = gyro::write(rate);
    let given = [Given::Number("rate", rate.into())];
    run.same("write gyro", &given, raw::write_gyro(rate), expected.clone());
    let typed = typed::write_gyro(rate);
    run.same("typed write gyro", &given, typed, expected.clone());
    run.tally.call("write gyro", expected.number, 0);
}

/// A body that is mostly in form, and an output about as large as the frame.
fn any_frame(run: &mut Run) {
    let rng = &mut run.rng;
    let format = if rng.one_in(12) { rng.pick(&[0, 4, 257, u32::MAX]) } else { rng.pick(&FORMATS) };
    let size = match (format, rng.below(4)) {
        (MGL, 0) => rng.length(300),
        (MGL, _) => rng.pick(&[8, 12, 13, 16, 40, 44, 260, 264, 268]),
        (ONFLIGHT, 0) => rng.length(300),
        (ONFLIGHT, 1) => rng.pick(&[151, 153]),
        (ONFLIGHT, _) => 152,
        (_, 0) => rng.length(90),
        _ => rng.pick(&[0, 1, 2, 20, 75, 76, 77]),
    };
    let mut body = rng.bytes(size);
    if format == NMEA {
        body.iter_mut().for_each(|byte| *byte = 0x20 + *byte % 0x5F);
        body.iter_mut().filter(|byte| b"$*".contains(byte)).for_each(|byte| *byte = b'~');
        if size > 0 && rng.one_in(3) {
            body[rng.length(size)] = rng.pick(b"$*\x1F\x7F\x80\xFF\x00\r ~");
        }
    }
    let header = if rng.one_in(8) { 0 } else { rng.next() as u32 };
    let frame = size + rng.pick(&[12, 6, 6, 0, 24]);
    let out = if rng.one_in(3) { (frame + rng.length(3)).saturating_sub(1) } else { frame };
    write(run, format, header, &body, out);
}

/// The content of a good frame, written: the same frame, or refusal 5.
fn frame_again(run: &mut Run) {
    let format = run.rng.pick(&FORMATS);
    let frame = &generate::frame(&mut run.rng, format);
    let (start, after) = [(8, 4), (4, 2), (1, 5)][format as usize - 1];
    let header = u32::from_le_bytes([frame[4], frame[5], frame[6], if format == MGL { frame[7] } else { 0 }]);
    let body = &frame[start..frame.len() - after];
    let taken = format != MGL || body.len() % 4 == 0;
    let expected = if taken { Ok(frame.to_vec()) } else { Err(5) };
    let given = [Given::Bytes("frame", frame)];
    run.same("the oracle's frame written again", &given, writer::write(format, header, body, 300), expected);
    write(run, format, header, body, frame.len());
}

fn write(run: &mut Run, format: u32, header: u32, body: &[u8], out: usize) {
    let expected = writer::write(format, header, body, out);
    let given = [
        Given::Number("format", format.into()),
        Given::Number("header", header.into()),
        Given::Bytes("body", body),
        Given::Number("output", out as i64),
    ];
    let name = ["write MGL", "write OnFlight", "write NMEA"].get((format as usize).wrapping_sub(1));
    let name = name.copied().unwrap_or("write unknown format");
    written(run, name, &given, out, &expected, |out| raw::write(format, header, body, out));
    if FORMATS.contains(&format) {
        written(run, name, &given, out, &expected, |out| typed::write(format, header, body, out));
    }
}

/// A setting that is mostly in range, and an output about as large as its sentence.
fn any_setting(run: &mut Run) {
    let rng = &mut run.rng;
    let source = if rng.one_in(10) { rng.byte() } else { rng.pick(b"LH") };
    let parameter = if rng.one_in(10) { rng.byte() } else { rng.below(4) as u8 };
    let (least, most) = [(0, 99), (0, 1000), (0, 50), (5000, 12_000)][usize::from(parameter % 4)];
    let value = match rng.below(8) {
        0 => rng.next() as u32,
        1 => rng.pick(&[least, most, most + 1, u32::MAX]),
        _ => rng.range(least.into(), most.into()) as u32,
    };
    let out = if rng.one_in(2) { rng.range(17, 26) as usize } else { 82 };
    write_setting(run, source, parameter, value, out);
}

fn write_setting(run: &mut Run, source: u8, parameter: u8, value: u32, out: usize) {
    let expected = writer::write_setting(source, parameter, value, out);
    let given = [
        Given::Number("source", source.into()),
        Given::Number("parameter", parameter.into()),
        Given::Number("value", value.into()),
        Given::Number("output", out as i64),
    ];
    let name = "write setting";
    written(run, name, &given, out, &expected, |out| raw::write_setting(source, parameter, value, out));
    if typed::is_setting(source, parameter) {
        written(run, name, &given, out, &expected, |out| typed::write_setting(source, parameter, value, out));
    }
}

/// What a writer answers and leaves in its output.
fn written(
    run: &mut Run,
    name: &'static str,
    given: &[Given],
    out: usize,
    expected: &Result<Vec<u8>, u32>,
    write: impl FnOnce(&mut [u8]) -> (u32, usize),
) {
    let mut lent = Area::out(out, run.rng.byte());
    let answer = write(lent.lent());
    let (number, frame) = match expected {
        Ok(frame) => (0, &frame[..]),
        Err(number) => (*number, &[][..]),
    };
    run.same(name, given, answer, (number, frame.len()));
    run.same_bytes("the output of a writer", given, lent.whole(), &lent.expected(frame));
    run.tally.call(name, number, out);
}
