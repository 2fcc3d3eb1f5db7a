/* The distances of records, which go on from one ride to the next one, and what a reader accumulates of them. */
import { WrongValue } from "./answers.mjs"
import { insideOf } from "./messages.mjs"
import {
    AT_MESSAGE_BITS, AT_MESSAGE_CYCLES, AT_MESSAGE_DISTANCE, AT_MESSAGE_POWER, TOLD_CYCLES, TOLD_DISTANCE, TOLD_POWER,
} from "./numbers.mjs"

const RECORD = 20, DISTANCE = 5, CYCLES = 19, POWER = 29, MOST_FIELDS = 255

/* Fields of records that have the low bits of what a reader accumulates: the shape, what the number is divided by, how far it counts, what a reader
 * is told by which bit, where, in which part of a unit, and the field that has it whole. */
const COUNTERS = [
    { field: 8, width: 1, count: 3, divisor: 4096, modulus: 4096, bit: TOLD_DISTANCE, at: AT_MESSAGE_DISTANCE, part: 1 / 16, whole: DISTANCE },
    { field: 18, width: 1, count: 1, divisor: 1, modulus: 256, bit: TOLD_CYCLES, at: AT_MESSAGE_CYCLES, part: 1, whole: CYCLES },
    { field: 28, width: 2, count: 1, divisor: 1, modulus: 65536, bit: TOLD_POWER, at: AT_MESSAGE_POWER, part: 1, whole: POWER },
]
const TOLD = TOLD_DISTANCE | TOLD_CYCLES | TOLD_POWER
const countersOf = new WeakMap() // by definitions

/* The counters that the messages of a definition have, each with where its items begin in a block. */
function counters(definition) {
    if (definition.number !== RECORD) return []
    if (!countersOf.has(definition)) {
        const found = COUNTERS.map(counter => ({ ...counter, entry: definition.entry(counter.field) }))
        const counts = ({ entry, width, count }) => entry !== undefined && entry.width === width && entry.count === count
        countersOf.set(definition, found.filter(counts).map(counter => ({ ...counter, begins: counter.entry.begins, size: counter.width * counter.count })))
    }
    return countersOf.get(definition)
}

/* What a reader of a file accumulates over its records. */
export class Amounts {
    #sums = new Map() // by the fields that are counters

    /* The sum with a message; null where that has no value of it. */
    #next({ field, divisor, modulus, begins, size }, bytes, at) {
        const before = this.#sums.get(field) ?? 0
        let number = 0
        for (let k = size - 1; k >= 0; k--) number = 256 * number + bytes[at + begins + k]
        const step = (Math.floor(number / divisor) - before) % modulus
        return number === 256 ** size - 1 ? null : before + (step < 0 ? step + modulus : step)
    }

    /* Takes in messages that are written, by their blocks. */
    take(definition, blocks) {
        for (const counter of counters(definition)) {
            for (let at = 0; at < blocks.length; at += definition.messageLength) {
                const sum = this.#next(counter, blocks, at)
                if (sum !== null) this.#sums.set(counter.field, sum)
            }
        }
    }

    /* A message whose sums are read as they were: where a reader wouldn't accumulate what is told of it, as where messages before it are left out,
     * with the fields that have them whole, if these have room for them. */
    kept(message) {
        const { definition, part, at } = insideOf(message), values = new Map()
        if (!(part.bytes[at + AT_MESSAGE_BITS] & TOLD)) return message
        for (const counter of counters(definition)) {
            if (!(part.bytes[at + AT_MESSAGE_BITS] & counter.bit) || (message.get(counter.whole) ?? null) !== null) continue
            const told = Number(part.view.getBigUint64(at + counter.at, true))
            if (this.#next(counter, part.bytes, at) !== told) values.set(counter.whole, told * counter.part)
        }
        return values.size === 0 ? message : withValues(message, values)
    }
}

/* A message with some values; as it is where it has no room for them. */
function withValues(message, values) {
    const { definition } = insideOf(message), own = definition.entries.filter(({ index }) => index === null)
    if (own.length + values.size > MOST_FIELDS) return message
    try {
        return message.adding(values)
    } catch (error) {
        if (error instanceof WrongValue) return message
        throw error
    }
}

/* Moves the distances of records, so that the first one is where the ride before them ended. What a reader accumulates over a file it would tell
 * otherwise where records before aren't those of the ride: so distance, cycles and power that are accumulated are written as they are told, into
 * the fields that have them whole. */
export class Odometer {
    #begin
    #first = 0
    #isBegun = false

    constructor(begin = 0) { this.#begin = begin }

    /* A record, with its distance from where the ride before ended. One that is less than the first counts from 0 again. */
    moved(record) {
        const values = new Map(), told = [[CYCLES, record.totalCycles], [POWER, record.accumulatedPower]]
        for (const [field, value] of told) if (value !== null && (record.get(field) ?? null) === null) values.set(field, value)
        const { distance } = record
        if (distance !== null && !Number.isNaN(distance)) values.set(DISTANCE, this.#moved(distance))
        return [...values].some(([field, value]) => record.get(field) !== value) ? record.adding(values) : record
    }

    #moved(distance) {
        if (!this.#isBegun || distance < this.#first) {
            this.#first = this.#isBegun ? 0 : distance
            this.#isBegun = true
        }
        return distance - this.#first + this.#begin
    }
}
