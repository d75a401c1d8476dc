//! Every turn, held to what documents 01 and 02 say of it.

use crate::turn;

/// All pairs of angles, "-180 to 179".
fn every_pair() -> impl Iterator<Item = (i16, i16)> {
    (-180..=179).flat_map(|a| (-180..=179).map(move |b| (a, b)))
}

/// "The turn lies in -180 to 180"; and it leads from a to b.
#[test]
fn range() {
    for (a, b) in every_pair() {
        let turned = turn(a, b).unwrap();
        assert!((-180..=180).contains(&turned));
        assert_eq!((a + turned - b) % 360, 0);
    }
}

/// "turn a to b is minus turn b to a for all angles"
#[test]
fn there_and_back() {
    for (a, b) in every_pair() {
        assert_eq!(turn(a, b).unwrap(), -turn(b, a).unwrap());
    }
}

/// "Only half turns change": what was -180 is +180 "from an angle of 0 or
/// more"; every other is as document 01 had it, "the one of b-a, b-a+360,
/// b-a-360 that lies in -180 to 179".
#[test]
fn only_half_turns_change() {
    let mut half_turns = 0;
    for (a, b) in every_pair() {
        let former = [b - a, b - a + 360, b - a - 360]
            .into_iter()
            .find(|turn| (-180..=179).contains(turn))
            .expect("one of the three lies in -180 to 179");
        let is_half = former == -180;
        let expected = if is_half && a >= 0 { 180 } else { former };
        assert_eq!(turn(a, b), Ok(expected));
        half_turns += u32::from(is_half);
    }
    // Opposite each angle lies one other.
    assert_eq!(half_turns, 360);
}

/// The fitter's move, and half turns on either side of 0.
#[test]
fn half_turns() {
    assert_eq!((turn(0, -180), turn(-180, 0)), (Ok(180), Ok(-180)));
    assert_eq!((turn(179, -1), turn(-1, 179)), (Ok(180), Ok(-180)));
    assert_eq!((turn(90, -90), turn(-90, 90)), (Ok(180), Ok(-180)));
}

#[test]
fn no_angle() {
    for bad in [-181, 180, 181, 360, -360, i16::MIN, i16::MAX] {
        for good in [-180, 0, 179] {
            assert_eq!(turn(bad, good), Err(3));
            assert_eq!(turn(good, bad), Err(3));
            assert_eq!(turn(bad, bad), Err(3));
        }
    }
}
