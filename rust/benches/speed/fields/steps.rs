//! Two MGL field functions by hand, in steps from inlined code to the library's form, of which `exported` is the last.

use super::run::is_frame;
use super::{mgl, Answer};
use blossomaxle::mgl::{Header, Tank};
use blossomaxle::{Format, Refusal};

/// Not inlined.
#[inline(never)]
pub fn header_called(frame: &[u8]) -> Answer<Header> {
    mgl::header(frame)
}

#[inline(never)]
pub fn tank_called(frame: &[u8]) -> Answer<Tank> {
    mgl::fuel_tank(frame, 0)
}

/// Not inlined, and neither is the function that judges the frame.
#[inline(never)]
pub fn header_apart(frame: &[u8]) -> Answer<Header> {
    judge_apart(frame)?;
    mgl::header_of(frame)
}

#[inline(never)]
pub fn tank_apart(frame: &[u8]) -> Answer<Tank> {
    judge_apart(frame)?;
    mgl::fuel_tank_of(frame, 0)
}

fn judge_apart(frame: &[u8]) -> Answer<()> {
    if is_frame(Format::Mgl, frame) {
        Ok(())
    } else {
        Err(Refusal::NotOneFrame)
    }
}
