//! Angles, modes and the turn.

use crate::refusal::ANGLE_OR_MODE;

/// "an angle in whole degrees, -180 to 179"
pub fn angle_in_range(angle: i16) -> bool {
    (-180..=179).contains(&angle)
}

/// "a mode, 0 to 15"
pub fn mode_in_range(mode: u8) -> bool {
    mode <= 15
}

/// "The turn from angle a to angle b is the one of b-a, b-a+360, b-a-360"
/// (document 01) that lies in -180 to 180; of the half turn, "from an angle of
/// 0 or more it is +180, from a negative one it is -180" (document 02, 2/12).
/// Refusal 3.
pub fn turn(a: i16, b: i16) -> Result<i16, u8> {
    if !angle_in_range(a) || !angle_in_range(b) {
        return Err(ANGLE_OR_MODE);
    }
    // How far b lies from a going up, 0 to 359.
    let up = (b - a).rem_euclid(360);
    Ok(match up {
        0..=179 => up,
        180 if a >= 0 => 180,
        180 => -180,
        _ => up - 360,
    })
}
