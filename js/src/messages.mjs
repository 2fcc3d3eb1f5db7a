/* Messages as values, made from the blocks of docs/BLOCKS.md. */
import { added, replaced } from "./changed.mjs"
import {
    AT_DEFINITION_LOCAL, AT_DEFINITION_NUMBER, AT_FILE, AT_KIND, AT_LENGTH, AT_MESSAGE_BITS,
    AT_MESSAGE_CYCLES, AT_MESSAGE_DEFINITION, AT_MESSAGE_DISTANCE, AT_MESSAGE_HEADER_TIME, AT_MESSAGE_LOCAL,
    AT_MESSAGE_OFFSET, AT_MESSAGE_POWER, AT_MESSAGE_SPEED, AT_MESSAGE_TIME, AT_PLACE, DEFINITION, MESSAGE, NO_OFFSET,
    TOLD_CYCLES, TOLD_DISTANCE, TOLD_HEADER_TIME, TOLD_POWER, TOLD_SPEED, TOLD_TIME,
} from "./numbers.mjs"
import { SYSTEM_TIMES, degrees, hex, milliseconds, when } from "./plain.mjs"
import { seeMessage } from "./profile.mjs"
import { readyOf } from "./ready.mjs"
import { definitionOf, sameIn } from "./shared.mjs"
import { exactOf, partOf, rawOf, whole } from "./values.mjs"
import { wordOf } from "./words.mjs"

export { SYSTEM_TIMES, degrees, milliseconds, when }

/* What the table has of a record: the fields by their numbers, the first that has a value, and else what is accumulated. */
const RECORD = 20
export const MERGED = { altitude: [78, 2], speed: [73, 6], distance: [5] }

/* Those of these fields that the messages of a definition have as one number. */
export function merged(definition, name) {
    if (definition.number !== RECORD) return []
    return MERGED[name].map(number => definition.entry(number)).filter(entry => entry?.isNumber)
}

/* A field of a message. */
export class Field {
    #definition
    #entry
    #part
    #at

    constructor(definition, entry, part, at) {
        this.#definition = definition
        this.#entry = entry
        this.#part = part
        this.#at = at
    }

    get name() { return this.#entry.name }
    get number() { return this.#entry.number }
    get developer() { return this.#entry.index }
    get unit() { return this.#entry.unit }
    get baseType() { return this.#entry.baseType }
    get value() { return this.#entry.read(this.#part, this.#at) }
    get word() { return wordOf(this.#definition, this.#entry, this.#part, this.#at) }
    get exact() { return exactOf(this.#entry, this.#part, this.#at) }
    get raw() { return rawOf(this.#entry, this.#part, this.#at) }
    toString() { return `${this.name ?? this.#entry.numbers}=${this.value}${this.unit === null ? "" : ` ${this.unit}`}` }
}

let read

/* What a message is made of: its definition, the bytes in which its block stands, and where it begins there. */
export const insideOf = message => read(message)
export const messageOf = ({ definition, part, at }) => new Message(definition, part, at)

/* A data message. It keeps the bytes of the messages that came with it, and makes a value when it is asked for it. */
export class Message {
    #definition
    #part
    #at

    static {
        read = message => ({ definition: message.#definition, part: message.#part, at: message.#at })
    }

    constructor(definition, part, at) {
        this.#definition = definition
        this.#part = part
        this.#at = at
    }

    /* The message with other values of some of its fields. */
    replace(values) { return messageOf(replaced(read(this), values)) }

    /* The same, and with fields that it hasn't had. */
    adding(values) { return messageOf(added(read(this), values)) }

    /* The value of a field; null where it has none, undefined where the message has no such field. */
    get(key) { return this.#definition.entry(key)?.read(this.#part, this.#at) }
    has(key) { return this.#definition.entry(key) !== undefined }
    unit(key) { return this.#definition.entry(key)?.unit }

    /* The word for the number of a field, as "cycling"; null where there is none, undefined where the message has no such field. */
    word(key) { return this.field(key)?.word }

    /* The values of a field as an array: of a lone number that one, without those that stand for no value. */
    values(key) {
        const value = this.get(key) ?? []
        return (Array.isArray(value) ? value : [value]).filter(item => item !== null)
    }

    field(key) {
        const entry = this.#definition.entry(key)
        return entry && new Field(this.#definition, entry, this.#part, this.#at)
    }

    get fields() { return this.#definition.entries.map(entry => new Field(this.#definition, entry, this.#part, this.#at)) }
    get name() { return this.#definition.name }
    get number() { return this.#definition.number }
    get local() { return this.#part.bytes[this.#at + AT_MESSAGE_LOCAL] }
    get file() { return this.#part.view.getUint32(this.#at + AT_FILE, true) }
    get place() { return Number(this.#part.view.getBigUint64(this.#at + AT_PLACE, true)) }
    get seconds() { return this.#told(TOLD_TIME) ? this.#part.view.getUint32(this.#at + AT_MESSAGE_TIME, true) : null }
    get time() { return when(this.seconds) }

    get headerTime() {
        return this.#told(TOLD_HEADER_TIME) ? when(this.#part.view.getUint32(this.#at + AT_MESSAGE_HEADER_TIME, true)) : null
    }

    get timeOffset() {
        const offset = this.#part.bytes[this.#at + AT_MESSAGE_OFFSET]
        return offset === NO_OFFSET ? null : offset
    }

    #told(bit) { return (this.#part.bytes[this.#at + AT_MESSAGE_BITS] & bit) !== 0 }
    #amount(bit, at) { return this.#told(bit) ? this.#part.view.getBigUint64(this.#at + at, true) : null }

    get #ownSpeed() { return this.#told(TOLD_SPEED) ? Number(this.#amount(TOLD_SPEED, AT_MESSAGE_SPEED)) / 100 : null }
    get #ownDistance() { return this.#told(TOLD_DISTANCE) ? Number(this.#amount(TOLD_DISTANCE, AT_MESSAGE_DISTANCE)) / 16 : null }

    /* The first of the fields that the table asks which has a value, as a number. */
    #merged(name) {
        for (const entry of merged(this.#definition, name)) {
            const value = entry.read(this.#part, this.#at)
            if (value !== null) return Number(value)
        }
        return null
    }

    get altitude() { return this.#merged("altitude") }
    get speed() { return this.#merged("speed") ?? this.#ownSpeed }
    get distance() { return this.#merged("distance") ?? this.#ownDistance }
    get totalCycles() { return this.#told(TOLD_CYCLES) ? whole(this.#amount(TOLD_CYCLES, AT_MESSAGE_CYCLES)) : null }
    get accumulatedPower() { return this.#told(TOLD_POWER) ? whole(this.#amount(TOLD_POWER, AT_MESSAGE_POWER)) : null }

    /* Where a record was made, in degrees; null where it doesn't say. */
    get position() {
        const latitude = this.get("position_lat"), longitude = this.get("position_long")
        if (typeof latitude !== "number" || typeof longitude !== "number") return null
        return { latitude: degrees(latitude), longitude: degrees(longitude) }
    }

    /* Names and values, each field once: without a name by `field_N`, or `dev_I_N`, I being the developer data index. */
    *[Symbol.iterator]() {
        for (const [label, entry] of this.#definition.labels) yield [label, entry.read(this.#part, this.#at)]
    }

    toObject() {
        const found = Object.create(null)
        for (const [label, value] of this) found[label] = value
        return found
    }

    /* The values by their labels, each of a type that databases and JSON have. */
    ready() { return readyOf(this.#definition, this.#part, this.#at, this.seconds) }

    /* As JSON has it: bytes as hexadecimal digits, whole numbers that are no exact number as text, and null for what is no finite number. */
    toJSON() {
        const { number, file, place, local, time } = this, fields = Object.create(null), units = Object.create(null)
        for (const [label, value] of this) fields[label] = plain(value)
        for (const [label, entry] of this.#definition.labels) if (entry.unit !== null) units[label] = entry.unit
        const told = { message: this.name ?? `message_${number}`, number, file, place, local, time: time instanceof Date ? isoText(time) : time }
        const counted = { speed: this.#ownSpeed, distance: this.#ownDistance, totalCycles: this.totalCycles, accumulatedPower: this.accumulatedPower }
        for (const [name, amount] of Object.entries(counted)) if (amount !== null) told[name] = plain(amount)
        return { ...told, fields, units }
    }
}

// As Node prints them.
const inspected = Symbol.for("nodejs.util.inspect.custom")
Field.prototype[inspected] = function () { return `Field ${this}` }
Message.prototype[inspected] = function () { return this.toJSON() }

const isoText = time => time.toISOString().replace(".000Z", "Z")

function plain(value) {
    if (Array.isArray(value)) return value.map(plain)
    if (typeof value === "bigint") return String(value)
    return value instanceof Uint8Array ? hex(value) : value
}

const MOST = 1 << 20, LEAST = 512 // So many bytes of definitions are kept beside the current ones; each counts as that many more.

/* What tells by its number and its name whether a message is asked for. */
function wants(only, names) {
    if (only === undefined || only === null) return () => true
    const kinds = typeof only === "string" || typeof only === "number" ? [only] : [...only]
    for (const kind of kinds) {
        if (typeof kind !== "string" && typeof kind !== "number") throw new TypeError(`a message is named by its name or its number, and not by ${typeof kind}`)
        seeMessage(kind, names)
    }
    return definition => kinds.includes(definition.number) || (definition.name !== null && kinds.includes(definition.name))
}

/* Goes through blocks, which may come in parts, and knows the definitions that came with earlier ones. */
export class Walk {
    #wants
    #all
    #current = new Map() // of each local message type the last definition, where it is asked for, and its number among all
    #known = new Map() // what some definitions say, so that one which comes again isn't looked into again
    #most
    #room
    #told

    /* `told` says whether values are words, and the names of the caller. Of definitions so many bytes are kept, beside the current ones. */
    constructor(only, told = {}, most = MOST) {
        this.#told = told
        this.#room = this.#most = most
        this.#wants = wants(only, told.names)
        this.#all = only === undefined || only === null
    }

    /* The messages that are asked for, those of one definition that follow one another together: where the first begins, where the last
     * ends, and how long each is. With `all` also each other block, which has no definition. */
    runs(bytes, all = false) {
        const view = new DataView(bytes.buffer, bytes.byteOffset, bytes.byteLength), found = []
        for (let at = 0; at < bytes.length;) {
            const length = view.getUint32(at + AT_LENGTH, true)
            let end = at + length
            if (bytes[at + AT_KIND] === MESSAGE) {
                const local = bytes[at + AT_MESSAGE_LOCAL], current = this.#current.get(local)
                while (end < bytes.length && bytes[end + AT_KIND] === MESSAGE && bytes[end + AT_MESSAGE_LOCAL] === local) end += length
                const number = view.getBigUint64(at + AT_MESSAGE_DEFINITION, true)
                if (current?.number !== number) throw new Error("gazhdor: a message without its definition")
                if (current.definition !== null) found.push({ definition: current.definition, begin: at, end, length })
            } else if (bytes[at + AT_KIND] === DEFINITION) {
                const number = view.getBigUint64(at + AT_DEFINITION_NUMBER, true)
                this.#current.set(bytes[at + AT_DEFINITION_LOCAL], { number, definition: this.#definition(bytes.subarray(at, end)) })
            }
            if (all && bytes[at + AT_KIND] !== MESSAGE) found.push({ definition: null, begin: at, end, length })
            at = end
        }
        return found
    }

    /* The messages of some blocks, with a copy of what they need. */
    messages(bytes) {
        const found = [], runs = this.runs(bytes)
        const shared = this.#all && runs.length > 0 ? partOf(bytes.slice()) : null
        for (const { definition, begin, end, length } of runs) {
            const part = shared ?? partOf(bytes.slice(begin, end)), first = shared ? begin : 0
            for (let at = first; at < first + end - begin; at += length) found.push(new Message(definition, part, at))
        }
        return found
    }

    #definition(block) {
        const same = sameIn(block)
        let found = this.#known.get(same)
        if (found === undefined) {
            this.#room -= same.length + LEAST
            if (this.#room < 0) {
                this.#known.clear()
                this.#room = this.#most - same.length - LEAST
            }
            const definition = definitionOf(block, this.#told, same)
            found = this.#wants(definition) ? definition : null
            this.#known.set(same, found)
        }
        return found
    }
}
