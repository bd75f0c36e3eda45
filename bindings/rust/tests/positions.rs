//! A position goes from fields to milliarcseconds, to a vector and back.

use catalogue::{Fields, Position, Refusal};

const RIGEL: Fields = Fields {
    hours: 5,
    minutes: 14,
    thousandths: 32_272,
    minus: true,
    degrees: 8,
    arcminutes: 12,
    arcthousandths: 5_898,
};

#[test]
fn there_and_back() {
    let position = RIGEL.position().expect("fields in range");
    assert_eq!(
        position,
        Position {
            ra: 283_084_080,
            dec: -29_525_898
        }
    );
    assert_eq!(position.fields(), Ok(RIGEL));
}

#[test]
fn both_floats_carry_the_sign_and_zero_is_plus_zero() {
    let vector = Position { ra: 7, dec: -500 }.vector().expect("in range");
    let floats: Vec<f32> = vector[1..]
        .chunks(4)
        .map(|b| f32::from_le_bytes(b.try_into().expect("four bytes")))
        .collect();
    assert_eq!(vector[0], 4);
    assert_eq!(floats, [0.0, 7.0, 0.0, -500.0]);
    assert!(floats[2].is_sign_positive());
}

#[test]
fn refusals() {
    let zero = Fields {
        degrees: 0,
        arcminutes: 0,
        arcthousandths: 0,
        ..RIGEL
    };
    assert_eq!(zero.position(), Err(Refusal::OutOfRange));
    let edge = |ra, dec| Position { ra, dec }.fields();
    assert_eq!(edge(7, 0), Err(Refusal::NoThousandth));
    assert_eq!(edge(7, 324_000_001), Err(Refusal::OutOfRange));
    assert_eq!(edge(1_295_999_986, 0), Err(Refusal::OutOfRange));
    assert_eq!(edge(i64::MIN, i64::MAX), Err(Refusal::OutOfRange));
    assert_eq!(edge(0, i64::MIN), Err(Refusal::OutOfRange));
}
