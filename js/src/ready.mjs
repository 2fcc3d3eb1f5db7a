/* Values that are ready to use: times as Dates, places in degrees, words, several numbers one by one, bytes as text. */
import { FLOAT, SIGNED } from "./numbers.mjs"
import { degrees, hex, when } from "./plain.mjs"
import { wordOf } from "./words.mjs"

/* Whether a field has places in semicircles. */
export const isPlace = entry => entry.unit === "semicircles" && entry.kind === SIGNED && entry.width === 4 && entry.scale === 1 && entry.offset === 0

/* A time, or null where the device didn't know it. */
function dateOf(seconds) {
    const time = when(seconds)
    return time instanceof Date ? time : null
}

/* A value of a type that databases and JSON have. */
function plain(value) {
    if (value instanceof Uint8Array) return hex(value)
    if (typeof value === "bigint") return String(value)
    return typeof value === "number" && !Number.isFinite(value) ? null : value
}

const textOf = word => (word === null ? null : String(word))

/* The value of a field in a message, whose block begins at a place. */
function valueOf(definition, entry, part, at) {
    const value = entry.read(part, at)
    if (entry.type === "local_date_time") return dateOf(value)?.toISOString().slice(0, 19) ?? null
    if (entry.type !== null) return dateOf(value)
    if (isPlace(entry)) return Array.isArray(value) ? value.map(one => (one === null ? null : degrees(one))) : value === null ? null : degrees(value)
    if (entry.isWord) return Array.isArray(value) ? value.map(textOf) : textOf(value)
    const word = wordOf(definition, entry, part, at)
    if (word !== null) return word
    return definition.choices.get(entry) !== undefined && value !== null ? (Array.isArray(value) ? value.map(textOf) : String(value)) : value
}

/* The values of a message by their labels, several numbers as `name_0`, `name_1` and so on. `seconds` is its time. */
export function readyOf(definition, part, at, seconds) {
    const found = Object.create(null)
    const put = (label, value) => {
        while (label in found) label += "_"
        found[label] = plain(value)
    }
    if (seconds !== null) found.timestamp = dateOf(seconds)
    for (const [label, entry] of definition.labels) {
        if (label === "timestamp" && seconds !== null) continue
        const value = valueOf(definition, entry, part, at)
        if (Array.isArray(value)) for (const [k, item] of value.entries()) put(`${label}_${k}`, item)
        else put(label, value)
    }
    return found
}

/* The columns that a field has, each with its label and what it takes of a message: several numbers one by one,
 * places in degrees, times as milliseconds since 1970, and words, texts and bytes as texts. */
export function readyColumns(label, entry) {
    if (entry.kind > FLOAT || entry.isWord) {
        const told = (part, at) => (Array.isArray(entry.read(part, at)) ? entry.read(part, at).map(textOf) : textOf(plain(entry.read(part, at))))
        if (!entry.isWord || entry.count === 1) return [[label, { ...entry, isNumber: false, read: told }]]
        return Array.from({ length: entry.count }, (_, k) => [`${label}_${k}`, { ...entry, isNumber: false, read: (part, at) => told(part, at)[k] }])
    }
    const own = { ...entry, isNumber: true, count: 1, factor: isPlace(entry) ? degrees(1) : entry.factor, isTime: entry.type !== null }
    if (entry.count <= 1) return [[label, own]]
    return Array.from({ length: entry.count }, (_, k) => [`${label}_${k}`, { ...own, begins: entry.begins + k * entry.width }])
}
