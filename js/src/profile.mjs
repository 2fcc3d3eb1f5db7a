/* The names that the profile has, of messages and of their fields; and names that nothing has. */
import { PROFILE } from "./names_table.mjs"

/* What is said of a field by itself. */
const fieldOf = ([number, name, unit = null, scale = null, offset = null, type = null, base = null]) => ({ number, name, unit, scale, offset, type, base })

const OF_ALL = [[253, "timestamp", "s", null, null, "date_time", "uint32"], [254, "message_index", null, null, null, null, "uint16"]]
const byName = new Map(), byNumber = new Map(), ANY = new Map([[253, fieldOf(OF_ALL[0])]])
for (const [number, name, fields] of PROFILE) {
    const known = { number, name, fields: new Map([...OF_ALL, ...fields].map(row => [row[0], fieldOf(row)])) }
    byName.set(name, known)
    byNumber.set(number, known)
}

/* What the profile says of the fields of a message, by their numbers. */
export const fieldsOf = number => byNumber.get(number)?.fields ?? ANY

/* The names of all messages of the profile. */
export const messageNames = () => byName.keys()
export const nameOf = number => byNumber.get(number)?.name ?? null

/* The number of a message that is named by its name or its number; undefined where nothing names it. */
export const numberOf = (kind, names) => (typeof kind === "number" ? kind : names?.messages.get(kind) ?? byName.get(kind)?.number)

/* A name that neither the profile nor the file has; `nearest` is the one that is most like it, or null. */
export class UnknownName extends RangeError {
    constructor(what, name, others) {
        const begin = name.slice(0, 80), nearest = nearestOf(begin, others)
        super(`${what} ${JSON.stringify(begin)}${nearest === null ? "" : `: is it ${JSON.stringify(nearest)}?`}`)
        this.unknown = name
        this.nearest = nearest
    }
}
Object.defineProperty(UnknownName.prototype, "name", { value: "UnknownName", configurable: true, writable: true })

/* How many letters one name has to change to be another: they are put in, left out or changed. */
function distance(one, other) {
    let row = Array.from({ length: other.length + 1 }, (_, k) => k)
    for (let i = 0; i < one.length; i++) {
        const next = [i + 1]
        for (let k = 0; k < other.length; k++) next.push(Math.min(row[k + 1] + 1, next[k] + 1, row[k] + (one[i] === other[k] ? 0 : 1)))
        row = next
    }
    return row[other.length]
}

/* Of some names the one that is most like a name: that of which the fewest letters are put in, left out or changed. These are at most a third of
 * the letters of the longer one; their case says nothing. Of several it is the first. */
export function nearestOf(name, others) {
    const letters = [...name.toLowerCase()]
    let nearest = null, least = Infinity
    for (const other of [...others].filter(one => one.length <= 80).slice(0, 1000)) {
        const those = [...other.toLowerCase()], steps = distance(letters, those)
        if (steps < least && 3 * steps <= Math.max(letters.length, those.length)) [nearest, least] = [other, steps]
    }
    return nearest
}

/* Throws UnknownName for a name of a message that neither the profile nor the caller has. Numbers are good. */
export function seeMessage(kind, names) {
    if (typeof kind === "string" && numberOf(kind, names) === undefined)
        throw new UnknownName("no message is named", kind, [...byName.keys(), ...(names?.messages.keys() ?? [])])
}

/* The names that the profile, and the caller, have for the fields of a message, which is named or numbered. */
export function namesOf(kind, names) {
    const number = numberOf(kind, names), told = [...fieldsOf(number).values(), ...(names?.fields(number).values() ?? [])]
    return told.map(({ name }) => name).filter(name => name !== null)
}
