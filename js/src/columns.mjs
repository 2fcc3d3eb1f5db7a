/* The columns of messages that are asked for, and what each takes of a message. */
import { TooManyCells } from "./answers.mjs"
import { Column } from "./column.mjs"
import { MERGED, merged } from "./messages.mjs"
import {
    AT_FILE, AT_MESSAGE_CYCLES, AT_MESSAGE_DISTANCE, AT_MESSAGE_LOCAL, AT_MESSAGE_POWER, AT_MESSAGE_SPEED,
    AT_MESSAGE_TIME, AT_PLACE, SIGNED, UNSIGNED,
} from "./numbers.mjs"
import { degrees } from "./plain.mjs"
import { UnknownName, namesOf } from "./profile.mjs"
import { readyColumns } from "./ready.mjs"
import { labelOf, scaler } from "./values.mjs"

/* So many cells may be there, however few of them have something, and so many times those that have. */
const FEW_CELLS = 1 << 22
const MOST_EMPTY = 16

/* A place of a whole number in each block, whose greatest stands for no value. */
function placed(begins, width, scale = 1) {
    const entry = { kind: UNSIGNED, count: 1, isNumber: true, begins, width, scale, offset: 0, invalid: width === 8 ? 2n ** 64n - 1n : 256 ** width - 1 }
    return { ...entry, scaled: scaler(entry) }
}

/* A position in semicircles as one in degrees. */
function inDegrees(entry) {
    if (entry === undefined || entry.kind !== SIGNED || entry.width !== 4 || entry.count !== 1) return undefined
    return { ...entry, isNumber: true, factor: degrees(1) }
}

/* What a message tells of itself, by the names of its attributes: where it stands in each block, and in those that have counters. */
const OWN = {
    ".file": placed(AT_FILE, 4), ".place": placed(AT_PLACE, 8), ".local": placed(AT_MESSAGE_LOCAL, 1),
    ".seconds": placed(AT_MESSAGE_TIME, 4),
}
const TIME = { ...placed(AT_MESSAGE_TIME, 4), isTime: true }
const COUNTED = {
    ".speed": placed(AT_MESSAGE_SPEED, 8, 100), ".distance": placed(AT_MESSAGE_DISTANCE, 8, 16),
    ".total_cycles": placed(AT_MESSAGE_CYCLES, 8), ".accumulated_power": placed(AT_MESSAGE_POWER, 8),
}
const POSITIONS = { ".latitude": "position_lat", ".longitude": "position_long" }
const TIMES = ["timestamp", ".time"]
const TABLE = Object.fromEntries(Object.keys(MERGED).map(name => [`.${name}`, name]))
const SELF = [...Object.keys(OWN), ...Object.keys(COUNTED), ...Object.keys(TABLE), ...Object.keys(POSITIONS), ".time"]

/* What a column takes of each message of a definition. */
function entryOf(definition, key) {
    if (Object.hasOwn(OWN, key)) return OWN[key]
    if (Object.hasOwn(TABLE, key)) {
        const counted = definition.isCounted && Object.hasOwn(COUNTED, key) ? [COUNTED[key]] : []
        const [first, ...others] = [...merged(definition, TABLE[key]), ...counted]
        return first && { ...first, isNumber: true, others }
    }
    if (Object.hasOwn(COUNTED, key)) return definition.isCounted ? COUNTED[key] : undefined
    return Object.hasOwn(POSITIONS, key) ? inDegrees(definition.entry(POSITIONS[key])) : definition.entry(key)
}

/* Messages of one definition in some blocks: where each begins, and its row. */
function partsOf(runs, first) {
    const parts = new Map()
    let row = first
    for (const { definition, begin, end, length } of runs) {
        let part = parts.get(definition)
        if (part === undefined) parts.set(definition, part = { places: [], rows: [] })
        for (let at = begin; at < end; at += length) {
            part.places.push(at)
            part.rows.push(row++)
        }
    }
    return [parts, row]
}

const isField253 = entry => entry.number === 253 && entry.index === null

/* The columns of some fields, or of all that the messages have. */
export class Columns {
    #columns = new Map()
    #keys
    #parts = new Map() // of each definition what it adds to, and by which entry
    #rows = 0
    #filled = 0 // cells of fields that have bytes
    #message
    #names
    #ready
    #asked = new Set() // the labels of those keys that have a column

    constructor(message, fields, { ready = false, names = null } = {}) {
        this.#ready = ready
        if (typeof fields === "string" || typeof fields === "number") throw new TypeError("the fields are a list of names, and not one name")
        this.#keys = fields === undefined || fields === null ? null : [...fields]
        for (const key of this.#keys ?? ["timestamp"]) if (!ready || TIMES.includes(key)) this.#column(labelOf(key))
        this.#message = message
        this.#names = names
    }

    #column(label) {
        if (!this.#columns.has(label)) this.#columns.set(label, new Column())
        return this.#columns.get(label)
    }

    /* Takes the messages of some blocks, where they lie. */
    take(bytes, runs) {
        if (runs.length === 0) return
        const memory = { bytes, view: new DataView(bytes.buffer, bytes.byteOffset, bytes.byteLength) }
        const [parts, rows] = partsOf(runs, this.#rows), taken = []
        for (const [definition, part] of parts) for (const [column, entry] of this.#of(definition)) {
            taken.push([column, part, entry])
            if (entry.count !== 0) this.#filled += part.rows.length
        }
        this.#rows = rows
        this.#see()
        for (const [column, part, entry] of taken) column.take(memory, part, rows, entry)
    }

    #see() {
        const cells = this.#rows * this.#columns.size
        if (this.#keys === null && cells > FEW_CELLS && cells > MOST_EMPTY * this.#filled)
            throw new TooManyCells(`nearly all cells of ${this.#columns.size} columns of ${this.#rows} messages would be empty: name the fields`)
    }

    /* The columns to which the messages of a definition add, each with what it takes of a message. */
    #of(definition) {
        let found = this.#parts.get(definition)
        if (found === undefined) {
            const labels = Array.from(definition.labels).filter(([, entry]) => !isField253(entry)).map(([label]) => label)
            found = (this.#keys ?? ["timestamp", ...labels])
                .map(key => [labelOf(key), TIMES.includes(key) ? TIME : entryOf(definition, key)])
                .filter(([, entry]) => entry !== undefined)
                .flatMap(([label, entry]) => this.#spread(label, entry))
                .map(([label, entry]) => [this.#column(label), entry])
            this.#parts.set(definition, found)
        }
        return found
    }

    /* The columns of a field, of which there may be several where they are ready to use. */
    #spread(label, entry) {
        this.#asked.add(label)
        return this.#ready && entry !== TIME ? readyColumns(label, entry) : [[label, entry]]
    }

    /* Throws UnknownName for a name that neither the profile has for these messages nor one of those that came. */
    #seeNames() {
        const known = new Set([...namesOf(this.#message, this.#names), ...SELF])
        for (const definition of this.#parts.keys()) for (const name of [...definition.labels.keys(), ...definition.byName.keys()]) known.add(name)
        for (const key of this.#keys ?? [])
            if (typeof key === "string" && !known.has(key) && !/^(field_\d+|dev_\d+_\d+)$/.test(key))
                throw new UnknownName("no such message has a field", key, known)
    }

    done() {
        this.#seeNames()
        for (const key of this.#keys ?? []) if (!this.#asked.has(labelOf(key))) this.#column(labelOf(key))
        const found = Object.create(null)
        for (const [label, column] of this.#columns) found[label] = column.done(this.#rows)
        if (this.#keys === null && found.timestamp.every(Number.isNaN)) delete found.timestamp
        return found
    }
}
