/* Times, degrees and bytes, as programs have them. */
const EPOCH = 631065600 // 1989-12-31T00:00:00 UTC, in seconds since 1970
const MOST = 8.64e15 // the milliseconds of the last Date
export const SYSTEM_TIMES = 0x10000000 // A time below is the device's own, which didn't know the time of day.

/* Seconds since 1989-12-31T00:00:00 UTC as milliseconds since 1970, as a Date has them. */
export const milliseconds = seconds => (seconds + EPOCH) * 1000

/* The time that a field of type date_time stands for, in seconds since 1989-12-31T00:00:00 UTC: a Date; below 268,435,456 the text
 * "system+N", as the device didn't know the time; null where there is none, and of a number that is no time. */
export function when(seconds) {
    if (seconds === null || seconds === undefined) return null
    if (typeof seconds !== "number") throw new TypeError(`a time is a number of seconds, and not ${typeof seconds}`)
    if (!(seconds >= 0 && milliseconds(seconds) <= MOST)) return null
    return seconds < SYSTEM_TIMES ? `system+${seconds}` : new Date(milliseconds(seconds))
}

/* The seconds since 1989-12-31T00:00:00 UTC of a Date, the fraction left out. */
export const seconds = time => Math.floor(time.getTime() / 1000) - EPOCH

const TIME = /^(\d{4})-(\d\d)-(\d\d)[T ](\d\d):(\d\d)(?::(\d\d)(?:[.,]\d+)?)?(?:Z|([+-])(\d\d):?(\d\d))?$/i

/* The milliseconds since 1970 of a text with a zone, as 2026-05-17T07:30:00Z. */
function millisecondsOf(text) {
    const told = TIME.exec(text)
    if (told === null) throw new RangeError("that is no time, as 2026-05-17T07:30:00Z")
    const [year, month, day, hour, minute, second, , ahead, more] = told.slice(1).map(part => Number(part ?? 0))
    const date = new Date(Date.UTC(year, month - 1, day))
    if (date.getUTCMonth() !== month - 1 || date.getUTCDate() !== day || hour > 23 || minute > 59 || second > 59 || ahead > 23 || more > 59)
        throw new RangeError("there is no such time")
    if (!/(Z|[+-]\d\d:?\d\d)$/i.test(text)) throw new RangeError("a time needs a zone, as 2026-05-17T07:30:00Z")
    return date.getTime() + 1000 * (3600 * hour + 60 * minute + second - (told[7] === "-" ? -1 : 1) * (3600 * ahead + 60 * more))
}

/* The second that a caller says: seconds since 1989-12-31T00:00:00 UTC, a Date, or a text with a zone; null where it says none. */
export function secondOf(time) {
    if (time === null || time === undefined) return null
    if (Number.isInteger(time)) return time
    if (typeof time === "string") return /^\d+$/.test(time) ? Number(time) : Math.floor(millisecondsOf(time) / 1000) - EPOCH
    if (time instanceof Date && !Number.isNaN(time.getTime())) return seconds(time)
    throw new TypeError("a time is a number of seconds, a Date, or a text as 2026-05-17T07:30:00Z")
}

/* Degrees of semicircles, of which 2^31 are 180 degrees. */
export const degrees = semicircles => semicircles * (180 / 2 ** 31)

/* The semicircles that are nearest to degrees. */
export const semicircles = degrees => Math.round(degrees * (2 ** 31 / 180))

/* Bytes as the CSV text has them. */
export const hex = bytes => `0x${Array.from(bytes, byte => byte.toString(16).toUpperCase().padStart(2, "0")).join("")}`
