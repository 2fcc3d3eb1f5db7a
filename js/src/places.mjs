/* Which fields tell a place. */
import { FLOAT } from "./numbers.mjs"

const SINT32 = 5
const EARTH = /(^|[^a-z])(lat|latitude|long|lon|lng|longitude)([^a-z]|$)/i
const SPOT = /(^|[^a-z])(position|pos|location|place|gps|geo|coordinates?|address|city)([^a-z]|$)/i
const ANGLE = /(^|[^a-z])(heading|course|bearing|azimuth|yaw|pitch|roll|tilt|lean|angle|slope|phase)([^a-z]|$)/i
const MEASURED = ["semicircles", "semicircle", "deg", "degree", "degrees", "\u00b0"]
const WEATHER = 128, LOCATION = 8

/* Whether a field of a message tells a place: a whole number of 32 bits with a sign, unless it has
 * a unit of something else; what is named as latitude or longitude; a float in degrees that isn't named as an angle; a float, a text or bytes
 * that are named as a position; and the location of weather_conditions. */
export function isPlace(message, entry) {
    const name = entry.name ?? "", unit = (entry.unit ?? "").toLowerCase(), isMeasured = MEASURED.includes(unit)
    if ((entry.baseType & 0x1f) === SINT32 && (unit === "" || isMeasured)) return true
    if (entry.kind <= FLOAT && entry.width < 4) return false
    if (EARTH.test(name)) return true
    if (entry.kind === FLOAT && isMeasured) return !ANGLE.test(name)
    if (entry.kind > FLOAT && message === WEATHER && entry.index === null && entry.number === LOCATION) return true
    return entry.kind >= FLOAT && SPOT.test(name)
}
