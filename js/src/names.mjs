/* Names, units and scales that the profile of the library doesn't have: the caller's own, and EXTRA. */
import { EXTRA_ROWS } from "./names_table.mjs"
import { numberOf } from "./profile.mjs"
import { WORDS } from "./words_table.mjs"

const TIMES = ["date_time", "local_date_time"]
/* What is kept for attributes of a message, for its time, and for what has no name. */
export const RESERVED = /^(\.[^]*|timestamp|field_\d+|dev_\d+_\d+|message_\d+)$/
const HIDDEN = /[\p{C}\p{Zl}\p{Zp}]|(?! )\p{Zs}/u
const CELLS = ["field name", "unit", "scale", "offset", "type", "base type"], COLUMNS = ["message", "message name", "field", ...CELLS]

/* What is said of a field; null leaves what the library says of it. */
const NOT_NAMED = Object.freeze({ name: null, unit: null, scale: null, offset: null, type: null, base: null })

/* Whether a type is that of a time. */
export const isTimeType = type => TIMES.includes(type)

function seeName(name) {
    if (typeof name !== "string") throw new TypeError(`a name is a text, and not ${typeof name}`)
    if (name === "" || HIDDEN.test(name) || RESERVED.test(name))
        throw new RangeError(`${JSON.stringify(name)} can't be a name: it is empty, or has letters that aren't shown, or means something else`)
}

function seeNumber(what, number, most) {
    if (typeof number !== "number") throw new TypeError(`${what} is a number, and not ${typeof number}`)
    if (!Number.isInteger(number) || number < 0 || number > most) throw new RangeError(`${what} is 0 to ${most}, and not ${number}`)
    return number
}

function seeScale(what, number) {
    if (number === null) return
    if (typeof number !== "number") throw new TypeError(`${what} is a number, and not ${typeof number}`)
    if (!(Math.abs(number) < 2 ** 63) || (what === "a scale" && number === 0)) throw new RangeError(`${what} can't be ${number}`)
}

/* What is told of a field, if it can be. */
function namedOf(told) {
    const named = { ...NOT_NAMED, ...(typeof told === "string" ? { name: told } : Object(told)) }
    for (const key of Object.keys(named)) {
        if (!Object.hasOwn(NOT_NAMED, key)) throw new TypeError(`a field has ${Object.keys(NOT_NAMED).join(", ")}, and no ${key}`)
        named[key] ??= null
    }
    if (named.name !== null) seeName(named.name)
    for (const [what, text] of [["a unit", named.unit], ["a base type", named.base]])
        if (text !== null && typeof text !== "string") throw new TypeError(`${what} is a text, and not ${typeof text}`)
    seeScale("a scale", named.scale)
    seeScale("an offset", named.offset)
    if (named.type !== null && !TIMES.includes(named.type) && !Object.hasOwn(WORDS, named.type))
        throw new RangeError(`a type is ${TIMES.join(", ")} or one of words, as sport, and not ${JSON.stringify(named.type)}`)
    return Object.freeze(named)
}

let fieldsOfNames

/* Names, units and scales of fields, and names of messages, by their numbers: gazhdor.d.ts says how they are told. */
export class Names {
    #messages = new Map() // the numbers of messages by their names
    #names = new Map()
    #fields = new Map()

    static {
        fieldsOfNames = names => names.#fields
    }

    constructor(told = []) {
        if (typeof told === "string") this.#read(told)
        else for (const one of told) this.#take(one)
    }

    #message(kind) {
        const number = typeof kind === "string" ? numberOf(kind, this) : kind
        if (number === undefined) throw new RangeError(`no message is named ${JSON.stringify(kind)}: name it first, by its number`)
        return seeNumber("a message", number, 65535)
    }

    #take(told) {
        if (!Array.isArray(told) || told.length < 2 || told.length > 3) throw new TypeError("names are told as [message, name] or [message, field, name]")
        if (told.length === 2) return this.#nameMessage(...told)
        const number = this.#message(told[0]), fields = this.#fields.get(number) ?? new Map()
        fields.set(seeNumber("a field", told[1], 255), namedOf(told[2]))
        this.#fields.set(number, fields)
    }

    #nameMessage(kind, name) {
        seeName(name)
        const number = seeNumber("a message", kind, 65535), of = numberOf(name, this)
        if (of !== undefined && of !== number) throw new RangeError(`${JSON.stringify(name)} is the name of another message`)
        this.#messages.delete(this.#names.get(number))
        this.#messages.set(name, number)
        this.#names.set(number, name)
    }

    /* Takes in a text with tabs between its cells. */
    #read(text) {
        const lines = [...text.replace(/^\ufeff/, "").split(/\r\n|[\n\r]/).entries()].filter(([, line]) => line !== "" && !line.startsWith("#"))
        const head = lines.length > 0 ? lines[0][1].split("\t") : []
        if (!head.includes("message") || new Set(head).size < head.length || head.some(name => !COLUMNS.includes(name)))
            throw new RangeError(`the first line has "message" and some of ${COLUMNS.slice(1).join(", ")}, with tabs between them`)
        for (const [k, line] of lines.slice(1)) {
            try {
                this.#readRow(head, line.split("\t"))
            } catch (error) {
                throw new RangeError(`line ${k + 1}: ${error.message}`)
            }
        }
    }

    #readRow(head, cells) {
        if (cells.length > head.length) throw new RangeError("it has more cells than the first line")
        const cell = name => cells[head.indexOf(name)] || null, told = cell("message") ?? ""
        const message = this.#message(/^\d+$/.test(told) ? Number(told) : told), name = cell("message name")
        if (name !== null && numberOf(name) !== message) this.#nameMessage(message, name)
        if (cell("field") === null) return
        const numbers = ["scale", "offset"].map(name => (cell(name) === null ? null : Number(cell(name))))
        this.#take([message, Number(cell("field")), {
            name: cell("field name"), unit: cell("unit"), scale: numbers[0], offset: numbers[1], type: cell("type"), base: cell("base type"),
        }])
    }

    /* The numbers of the messages that are named, by their names. */
    get messages() { return new Map(this.#messages) }

    /* The name of a message, or null where it isn't named. */
    message(number) { return this.#names.get(number) ?? null }

    /* What is said of the fields of a message, by their numbers. */
    fields(number) { return new Map(fieldsIn(this, number)) }

    /* Names that have what both have, and of what both name what the others have. */
    with(others) {
        const both = new Names()
        for (const names of [this, seeNames(others)]) {
            for (const [name, number] of names.#messages) both.#nameMessage(number, name)
            for (const [number, fields] of names.#fields) both.#fields.set(number, new Map([...both.#fields.get(number) ?? [], ...fields]))
        }
        return both
    }
}

const NONE = new Map()

/* What names say of the fields of a message, by their numbers: not to be changed. */
export const fieldsIn = (names, number) => (names ? fieldsOfNames(names).get(number) : undefined) ?? NONE

/* What a caller gives as `names`: Names, what they are made of, or nothing. */
export const seeNames = told => (told === undefined || told === null || told instanceof Names ? told ?? null : new Names(told))

function* extra() {
    for (const [number, message, fields] of EXTRA_ROWS) {
        if (message !== null && numberOf(message) !== number) yield [number, message]
        for (const [field, name, unit, scale, offset, type, base] of fields) yield [number, field, { name, unit, scale, offset, type, base }]
    }
}

/* The fields and messages that recordings have and the proved profile hasn't. */
export const EXTRA = new Names(extra())
