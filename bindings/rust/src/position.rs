//! Positions in hours and degrees.

use crate::answer::Refusal;
use crate::sys;

/// What an editor types.
#[derive(Clone, Copy, Debug, PartialEq, Eq)]
pub struct Fields {
    pub hours: u32,
    pub minutes: u32,
    /// Of seconds.
    pub thousandths: u32,
    pub minus: bool,
    pub degrees: u32,
    pub arcminutes: u32,
    /// Of arcseconds.
    pub arcthousandths: u32,
}

/// Milliarcseconds.
#[derive(Clone, Copy, Debug, PartialEq, Eq)]
pub struct Position {
    pub ra: i64,
    pub dec: i64,
}

fn answered<T>(said: u32, value: T) -> Result<T, Refusal> {
    match said {
        0 => Ok(value),
        other => Err(Refusal::from(other, 0)),
    }
}

impl Fields {
    pub fn position(self) -> Result<Position, Refusal> {
        let mut position = [0; 16];
        // SAFETY: pointer and length are those of one array.
        let said = unsafe {
            sys::catalogue_position(
                self.hours,
                self.minutes,
                self.thousandths,
                self.minus.into(),
                self.degrees,
                self.arcminutes,
                self.arcthousandths,
                position.as_mut_ptr(),
                position.len(),
            )
        };
        let at = |i: usize| i64::from_le_bytes(position[i..i + 8].try_into().expect("eight bytes"));
        answered(
            said,
            Position {
                ra: at(0),
                dec: at(8),
            },
        )
    }
}

impl Position {
    pub fn fields(self) -> Result<Fields, Refusal> {
        let mut fields = [0; 28];
        // SAFETY: pointer and length are those of one array.
        let said = unsafe {
            sys::catalogue_position_fields(self.ra, self.dec, fields.as_mut_ptr(), fields.len())
        };
        let at =
            |i: usize| u32::from_le_bytes(fields[4 * i..4 * i + 4].try_into().expect("four bytes"));
        answered(
            said,
            Fields {
                hours: at(0),
                minutes: at(1),
                thousandths: at(2),
                minus: at(3) == 1,
                degrees: at(4),
                arcminutes: at(5),
                arcthousandths: at(6),
            },
        )
    }

    /// As a Write or a Search carries it: a count byte and four floats.
    pub fn vector(self) -> Result<[u8; 17], Refusal> {
        let mut vector = [0; 17];
        // SAFETY: pointer and length are those of one array.
        let said = unsafe {
            sys::catalogue_position_vector(self.ra, self.dec, vector.as_mut_ptr(), vector.len())
        };
        answered(said, vector)
    }
}
