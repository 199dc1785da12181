//! The fields of OnFlight frames. Offsets are those of the paper, from the start of the frame.

use super::answer::{clock_values, one_frame, require, Judged};
use super::calendar::{Clock, Time};
use super::ONFLIGHT;

/// A frame of the log.
struct Log<'a>(&'a [u8]);

impl Log<'_> {
    fn of(frame: &[u8]) -> Result<Log<'_>, u32> {
        one_frame(ONFLIGHT, frame)?;
        Ok(Log(frame))
    }

    fn u8(&self, at: usize) -> i64 {
        self.0[at].into()
    }

    fn u16(&self, at: usize) -> i64 {
        self.u8(at) + 256 * self.u8(at + 1)
    }

    fn u32(&self, at: usize) -> i64 {
        self.u16(at) + 65_536 * self.u16(at + 2)
    }

    fn i16(&self, at: usize) -> i64 {
        signed(self.u16(at), 16)
    }

    fn i32(&self, at: usize) -> i64 {
        signed(self.u32(at), 32)
    }
}

/// Two's complement of some bits.
fn signed(number: i64, bits: u32) -> i64 {
    if number < 1 << (bits - 1) {
        number
    } else {
        number - (1 << bits)
    }
}

pub fn body(frame: &[u8]) -> Judged {
    Log::of(frame)?;
    Ok(vec![4, 156])
}

pub fn status(frame: &[u8]) -> Judged {
    let log = Log::of(frame)?;
    Ok((4..10).map(|at| log.u8(at)).collect())
}

/// Of the sixth byte only the bits 01 and 02 have a name.
pub fn set_bits(frame: &[u8]) -> Judged {
    let log = Log::of(frame)?;
    let named = |bit: &usize| log.u8(4 + bit / 8) >> (bit % 8) & 1 == 1;
    Ok(vec![(0..42).filter(named).count() as i64])
}

pub fn boot_time(frame: &[u8]) -> Judged {
    Ok(vec![Log::of(frame)?.u32(10)])
}

pub fn elapsed(from: &[u8], to: &[u8]) -> Judged {
    let (from, to) = (Log::of(from)?, Log::of(to)?);
    Ok(vec![(to.u32(10) - from.u32(10)).rem_euclid(1 << 32)])
}

pub fn voltages(frame: &[u8]) -> Judged {
    let log = Log::of(frame)?;
    Ok(vec![log.u8(14), log.u8(15)])
}

pub fn input_voltage(frame: &[u8]) -> Result<f64, u32> {
    Ok(Log::of(frame)?.u8(14) as f64 / 25.0)
}

pub fn load_factor(frame: &[u8]) -> Result<f64, u32> {
    Ok(Log::of(frame)?.i16(80) as f64 / 1000.0)
}

pub fn accelerations(frame: &[u8]) -> Judged {
    let log = Log::of(frame)?;
    Ok(vec![log.i16(18), log.i16(20), log.i16(22)])
}

pub fn gyros(frame: &[u8]) -> Judged {
    let log = Log::of(frame)?;
    Ok(vec![log.i16(24), log.i16(26), log.i16(28)])
}

pub fn pressure(frame: &[u8]) -> Judged {
    Ok(vec![Log::of(frame)?.u16(38) * 2])
}

pub fn fix(frame: &[u8]) -> Judged {
    let byte = Log::of(frame)?.u8(40);
    let (fix, satellites) = (byte % 8, byte / 8);
    require([0, 2, 3, 4].contains(&fix), 9)?;
    Ok(vec![fix, satellites])
}

/// Year from 1970, month, day, hour, minute, second.
pub fn clock(frame: &[u8]) -> Judged {
    let log = Log::of(frame)?;
    let fields: [i64; 6] = std::array::from_fn(|k| log.u8(41 + k));
    let [year, month, day, hour, minute, second] = fields;
    let clock = if fields == [0; 6] {
        Clock::Unset
    } else {
        Time { year: 1970 + year, year_right: true, month, day, hour, minute, second }.judge()
    };
    Ok(clock_values(clock))
}

pub fn gnss_position(frame: &[u8]) -> Judged {
    let log = Log::of(frame)?;
    Ok(vec![log.i32(60), log.i32(64)])
}

pub fn ins_position(frame: &[u8]) -> Judged {
    let log = Log::of(frame)?;
    Ok(vec![log.i32(116), log.i32(120)])
}

pub fn gnss_altitude(frame: &[u8]) -> Judged {
    Ok(vec![Log::of(frame)?.u16(56) - 10_000])
}

pub fn ins_altitude(frame: &[u8]) -> Judged {
    Ok(vec![Log::of(frame)?.u16(114) - 10_000])
}
