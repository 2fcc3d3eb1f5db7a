//! Which fields tell a place: the rule of `edit` in all languages.
use crate::base_type::BaseType;
use crate::field::Field;
use crate::numbers::{BYTES, FLOAT, STRING};

const MEASURED: [&str; 6] = ["semicircles", "semicircle", "deg", "degree", "degrees", "\u{b0}"];
const EARTH: [&str; 6] = ["lat", "latitude", "long", "lon", "lng", "longitude"];
const SPOT: [&str; 10] =
    ["position", "pos", "location", "place", "gps", "geo", "coordinate", "coordinates", "address", "city"];
const ANGLE: [&str; 12] =
    ["heading", "course", "bearing", "azimuth", "yaw", "pitch", "roll", "tilt", "lean", "angle", "slope", "phase"];
/// Texts of places that the profile of the library doesn't name: the location of weather_conditions.
const TEXTS: [(u16, u8); 1] = [(128, 8)];

/// Whether a field of a message tells a place:
///
/// - a whole number of 32 bits with a sign, as latitudes and longitudes are kept, whatever it is called, also by the code that some devices
///   write for it, without its highest bit; but for one with a unit of something else;
/// - any other number of 32 or 64 bits, a text, or bytes, that is named as latitude or longitude;
/// - a float in degrees that isn't named as an angle, and a float, text or bytes named as a position;
/// - a text that is a place by its message and its number.
pub(crate) fn tells_place(message: u16, field: &Field<'_>) -> bool {
    let (name, unit) = (field.name().unwrap_or(""), field.unit().unwrap_or("").to_lowercase());
    let is_measured = MEASURED.contains(&unit.as_str());
    let named = |words: &[&str]| name.split(|of: char| !of.is_ascii_alphabetic()).any(|word| has(words, word));
    if field.base_type() & 0x1F == BaseType::Sint32.code() & 0x1F && (unit.is_empty() || is_measured) {
        return true;
    }
    if field.kind() < STRING && field.width() < 4 {
        return false;
    }
    if named(&EARTH) {
        return true;
    }
    if field.kind() == FLOAT && is_measured {
        return !named(&ANGLE);
    }
    let is_text = [STRING, BYTES].contains(&field.kind()) && field.developer().is_none();
    (is_text && TEXTS.contains(&(message, field.number()))) || (field.kind() >= FLOAT && named(&SPOT))
}

fn has(words: &[&str], word: &str) -> bool {
    words.iter().any(|of| of.eq_ignore_ascii_case(word))
}
