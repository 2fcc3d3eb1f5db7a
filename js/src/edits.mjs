/* Changes of whole files: fields emptied, times moved, a part cut out. */
import { WrongValue, judge } from "./answers.mjs"
import { blockOf, packerOf } from "./changed.mjs"
import { Copier } from "./copying.mjs"
import { Cut, Span } from "./cuts.mjs"
import { Files } from "./events.mjs"
import { insideOf, messageOf } from "./messages.mjs"
import { EXTRA } from "./names.mjs"
import {
    AT_MESSAGE_BITS, AT_MESSAGE_HEADER_TIME, AT_MESSAGE_OFFSET, AT_MESSAGE_TIME, FILE_END, NO_OFFSET, NO_TIME, TOLD_CYCLES, TOLD_DISTANCE,
    TOLD_HEADER_TIME, TOLD_POWER, TOLD_SPEED, TOLD_TIME,
} from "./numbers.mjs"
import { isPlace } from "./places.mjs"
import { SYSTEM_TIMES, secondOf } from "./plain.mjs"
import { UnknownName, messageNames, namesOf, numberOf } from "./profile.mjs"
import { numberIn } from "./shapes.mjs"
import { filesOf } from "./sources.mjs"
import { Anew, RECORD } from "./summaries.mjs"
import { partOf } from "./values.mjs"

const POSITION = "position", TIMESTAMP = 253, TIMES = ["timestamp", "start_time", "local_timestamp"]
/* Of fields of records, by their numbers, what a reader tells of them beside their values: speed and sums. */
const TOLD = new Map([[8, TOLD_SPEED | TOLD_DISTANCE], [18, TOLD_CYCLES], [28, TOLD_POWER]])
/* The same of the fields that have these sums whole. */
const WHOLE = [["distance", 5, TOLD_DISTANCE], ["total_cycles", 19, TOLD_CYCLES], ["accumulated_power", 29, TOLD_POWER]]

/* Whether a word names a field: FIELD, or MESSAGE.FIELD, each a name or a number. */
function isNamed(word, { message, messageNumber, field, number }) {
    if (word === field) return true
    const dot = word.lastIndexOf("."), of = word.slice(0, Math.max(dot, 0)), own = word.slice(dot + 1)
    if (of !== "" && of !== message && of !== String(messageNumber)) return false
    return own === field || (number !== null && own === String(number))
}

/* A time, moved; the device's own time, and no time, stay. */
function later(time, shift, field) {
    if (time === NO_TIME || time < SYSTEM_TIMES) return time
    const moved = time + shift
    if (!(moved >= SYSTEM_TIMES && moved < NO_TIME))
        throw new WrongValue(`${time} seconds, moved by ${shift}, are no time any more`, { field, value: moved, least: SYSTEM_TIMES, most: NO_TIME - 1 })
    return moved
}

/* Makes the changes of messages. */
class Editor {
    #drop
    #shift
    #plans = new WeakMap()
    #met = new Set()
    counts = new Map()

    constructor(drop, shift) {
        this.#drop = drop
        this.#shift = shift
    }

    /* What is emptied in the messages of a definition, which of their fields are times, whether times in headers are left out, the bits of what a
     * reader tells of the fields that are emptied, and of what isn't written whole. */
    #plan(definition) {
        let plan = this.#plans.get(definition)
        if (plan === undefined) {
            const entries = definition.entries.filter(entry => this.#drops(definition, entry)), dropped = entries.map(entry => packerOf(definition, entry))
            const own = definition.number === RECORD ? entries.filter(entry => entry.index === null) : []
            const told = own.reduce((bits, entry) => bits | (TOLD.get(entry.number) ?? 0), 0)
            const times = definition.entries.filter(entry => entry.type !== null && entry.scale === 1 && entry.offset === 0)
            const drops = (field, number) => this.#drop.some(word => isNamed(word, { message: definition.name, messageNumber: definition.number, field, number }))
            const wholes = WHOLE.reduce((bits, [field, number, bit]) => (drops(field, number) ? bits | bit : bits), 0)
            this.#plans.set(definition, plan = { dropped, times, told, wholes, dropsHeaders: drops("timestamp", TIMESTAMP) })
        }
        return plan
    }

    #drops(definition, entry) {
        const number = entry.index === null ? entry.number : null
        const named = { message: definition.name, messageNumber: definition.number, field: entry.name, number }
        const words = this.#drop.filter(word => (word === POSITION ? isPlace(definition.number, entry) : isNamed(word, named)))
        for (const word of words) this.#met.add(word)
        return words.length > 0
    }

    /* A message that was made anew, of records whose fields are emptied. Its own are left out, and its times moved. */
    anew({ message, values }) {
        const messageNumber = numberOf(message)
        const named = field => ({ message, messageNumber, field, number: numberIn(messageNumber, field, EXTRA) })
        const stay = Object.entries(values).filter(([field]) => !this.#drop.some(word => isNamed(word, named(field))))
        return new Anew(message, Object.fromEntries(stay.map(([field, value]) => [field, TIMES.includes(field) ? later(value, this.#shift, field) : value])))
    }

    /* A message of which no sum is told that a reader makes of a field which is emptied. */
    untold(message) {
        return this.#drop.length === 0 ? message : without(message, this.#plan(insideOf(message).definition).told)
    }

    /* A message with the changes, of which no sum is written into a field that is emptied. */
    put(message) {
        const made = this.changed(message)
        return this.#drop.length === 0 ? made : without(made, this.#plan(insideOf(made).definition).wholes)
    }

    changed(message) {
        const { definition } = insideOf(message), { dropped, times, told, dropsHeaders } = this.#plan(definition)
        if (dropped.length === 0 && this.#shift === 0 && !dropsHeaders) return message
        const part = partOf(blockOf(insideOf(message)))
        for (const pack of dropped) if (pack.empty(part.bytes, 0)) this.#count(definition, pack.label)
        part.bytes[AT_MESSAGE_BITS] &= ~told
        if (dropsHeaders && part.bytes[AT_MESSAGE_OFFSET] !== NO_OFFSET) {
            part.bytes[AT_MESSAGE_OFFSET] = NO_OFFSET
            this.#count(definition, "timestamp")
        }
        if (this.#shift !== 0) this.#move(part, times)
        return messageOf({ definition, part, at: 0 })
    }

    #count(definition, field) {
        const message = definition.name ?? `message_${definition.number}`, label = JSON.stringify([message, field])
        const found = this.counts.get(label) ?? { message, field, count: 0 }
        found.count++
        this.counts.set(label, found)
    }

    #move({ bytes, view }, times) {
        const shift = this.#shift, move = (at, field) => view.setUint32(at, later(view.getUint32(at, true), shift, field), true)
        for (const entry of times) move(entry.begins, entry.name ?? entry.numbers)
        if (bytes[AT_MESSAGE_BITS] & TOLD_HEADER_TIME && view.getUint32(AT_MESSAGE_HEADER_TIME, true) >= SYSTEM_TIMES) {
            bytes[AT_MESSAGE_OFFSET] = bytes[AT_MESSAGE_OFFSET] + shift & 31
            move(AT_MESSAGE_HEADER_TIME, "timestamp")
        }
        if (bytes[AT_MESSAGE_BITS] & TOLD_TIME) move(AT_MESSAGE_TIME, "timestamp")
    }

    /* Throws UnknownName for a word that names nothing that the file, the profile or EXTRA has. */
    seeMet() {
        for (const word of this.#drop.filter(word => word !== POSITION && !this.#met.has(word))) {
            const dot = word.lastIndexOf("."), message = word.slice(0, Math.max(dot, 0)), field = word.slice(dot + 1)
            if (message !== "" && !/^\d+$/.test(message) && numberOf(message, EXTRA) === undefined)
                throw new UnknownName("no message is named", message, [...messageNames(), ...EXTRA.messages.keys()])
            if (!/^\d+$/.test(field) && !allFields().has(field)) throw new UnknownName("neither the profile nor the file has a field", field, allFields())
        }
    }
}

/* A message that doesn't tell what these bits stand for. */
function without(message, bits) {
    if (bits === 0) return message
    const part = partOf(blockOf(insideOf(message)))
    part.bytes[AT_MESSAGE_BITS] &= ~bits
    return messageOf({ definition: insideOf(message).definition, part, at: 0 })
}

/* The names of all fields that the profile and EXTRA have. */
function allFields() {
    const messages = [...messageNames(), ...EXTRA.messages.keys()]
    return new Set(messages.flatMap(message => namesOf(message, EXTRA)))
}

/* Changes files of a chain one after another. */
class Edited {
    #gazhdor
    #span
    #editor
    #unmoved // makes what records say when they are summed up
    #out

    constructor(gazhdor, { words, shift, span }, out) {
        this.#gazhdor = gazhdor
        this.#span = span
        this.#editor = new Editor(words, shift)
        this.#unmoved = new Editor(words, 0)
        this.#out = out
    }

    /* Some files, and what stays of them; null where that is all. */
    read(bytes) {
        const files = new Files(this.#gazhdor, bytes, EXTRA)
        return { files, cut: this.#span === null ? null : new Cut(files, this.#span, record => this.#unmoved.changed(record)) }
    }

    /* Of some parts the first of which something stays. */
    first(parts) {
        for (const [k, bytes] of parts.entries()) {
            const read = this.read(bytes)
            if (read.cut === null || !read.cut.isEmpty) return { k, read }
        }
        throw new RangeError("no record has a time in that span")
    }

    add({ files, cut }) {
        for (const event of files.events()) {
            if (cut !== null && event.kind === FILE_END) for (const anew of cut.rest(event.file)) this.#put(anew)
            if (event.message === undefined) this.#out.event(event)
            else this.#put(cut === null ? event.message : cut.of(event.file).kept(this.#editor.untold(event.message)))
        }
    }

    /* Puts what stands where a message was. */
    #put(found) {
        if (found instanceof Anew) this.#editor.anew(found).write(this.#out)
        else if (found !== null) this.#out.message(this.#editor.put(found))
    }

    /* The bytes of all, and how many values were emptied of each field. */
    made() {
        this.#editor.seeMet()
        return { bytes: this.#out.finish(), emptied: [...this.#editor.counts.values()] }
    }
}

/* The bytes of files with such changes, and how many values were emptied of each field. */
export function edited(gazhdor, bytes, { drop = [], shift = 0, begin, end } = {}) {
    if (!Number.isSafeInteger(shift)) throw new RangeError("a shift is a whole number of seconds")
    const words = typeof drop === "string" ? [drop] : [...drop], all = new Span(secondOf(begin), secondOf(end))
    judge(gazhdor.check(bytes))
    const out = new Copier(gazhdor), parts = [...filesOf(bytes)], span = all.begin === null && all.end === null ? null : all
    try {
        const made = new Edited(gazhdor, { words, shift, span }, out)
        let first = made.first(parts)
        for (const [k, some] of parts.entries()) {
            if (k !== first?.k) made.add(made.read(some))
            else {
                made.add(first.read)
                first = null // Nothing of it is held any more.
            }
        }
        return made.made()
    } finally {
        out.close()
    }
}
