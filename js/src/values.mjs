/* What the items of a field stand for, and the field as its definition has it: an entry of docs/BLOCKS.md. */

import { codeOf, invalidOf, numberAt } from "./items.mjs"
import {
    AT_DEFINITION_BITS, AT_DEFINITION_DEVELOPERS, AT_DEFINITION_FIELDS, AT_DEFINITION_MESSAGE, AT_DEFINITION_MESSAGE_LENGTH, AT_DEFINITION_NAME,
    AT_ENTRY_BASE_TYPE, AT_ENTRY_COUNT, AT_ENTRY_DECIMALS, AT_ENTRY_DEVELOPER, AT_ENTRY_INDEX, AT_ENTRY_INVALID,
    AT_ENTRY_ITEMS, AT_ENTRY_KIND, AT_ENTRY_LENGTH, AT_ENTRY_NAME, AT_ENTRY_NUMBER, AT_ENTRY_OFFSET, AT_ENTRY_SCALE,
    AT_ENTRY_UNIT, AT_ENTRY_WIDTH, BYTES, FLOAT, IS_COUNTED, SIGNED, STRING, UNSIGNED,
} from "./numbers.mjs"
import { RESERVED, fieldsIn, isTimeType } from "./names.mjs"
import { fieldsOf } from "./profile.mjs"
import { tellWords } from "./words.mjs"

const utf8 = new TextDecoder("utf-8", { ignoreBOM: true })

/* The text that begins at a place and ends before a zero, or before an end; null where it is empty. */
export function textAt(bytes, at, end = bytes.length) {
    const zero = bytes.subarray(at, end).indexOf(0)
    return utf8.decode(bytes.subarray(at, zero < 0 ? end : at + zero)) || null
}

/* A whole number of 64 bits: a number where it is exact as one, else a BigInt. */
export const whole = item => (Number.isSafeInteger(Number(item)) ? Number(item) : item)

/* The number that is nearest to a quotient of BigInts: of its first bits, the last of which also says whether something is left, so that it
 * is rounded once. */
function quotient(item, by) {
    const scaled = (item < 0n ? -item : item) << 128n
    const nearest = Number(scaled / by | (scaled % by === 0n ? 0n : 1n)) / 2 ** 128
    return item < 0n ? -nearest : nearest
}

/* What makes the value of an item: `item / scale - offset`, the number that is nearest to it. */
export function scaler(entry) {
    const { scale, offset } = entry, shift = scale * offset
    if (scale === 1 && offset === 0) return entry.kind === FLOAT || entry.width < 8 ? item => item : whole
    if (entry.kind === FLOAT) return item => item / scale - offset
    if (entry.width < 8 || !Number.isInteger(scale) || !Number.isInteger(offset)) return item => (Number(item) - shift) / scale
    return item => (scale === 1 ? whole(item - BigInt(offset)) : quotient(item - BigInt(shift), BigInt(scale)))
}

/* What reads an item in the view of a block, as a number or, of eight bytes, as a BigInt; of a float the number that it is. */
function itemReader({ kind, width }) {
    if (kind === FLOAT) return width === 4 ? (view, at) => view.getFloat32(at, true) : (view, at) => view.getFloat64(at, true)
    if (kind === SIGNED)
        return {
            1: (view, at) => view.getInt8(at), 2: (view, at) => view.getInt16(at, true), 4: (view, at) => view.getInt32(at, true),
            8: (view, at) => view.getBigInt64(at, true),
        }[width]
    return bitsReader(width)
}

/* What reads the bits of an item. */
function bitsReader(width) {
    return {
        1: (view, at) => view.getUint8(at), 2: (view, at) => view.getUint16(at, true), 4: (view, at) => view.getUint32(at, true),
        8: (view, at) => view.getBigUint64(at, true),
    }[width]
}

/* How many decimals a number of this scale has at most; -1 where it may have ever more. */
function decimalsOf(scale, offset) {
    if (!Number.isSafeInteger(scale) || !Number.isSafeInteger(offset)) return -1
    for (let count = 0, ten = 1n; count < 64; count++, ten *= 10n) if (ten % BigInt(scale) === 0n) return count
    return -1
}

/* What a definition says of a field: its name and unit, its number, and where and how its items stand in a message's block. `index` is the
 * developer data index of a developer field, else null; `type` is "date_time" or "local_date_time" of a number that is such a time, else null.
 * What `named` says of it goes before what the block says. */
export class Entry {
    constructor(view, bytes, at, named = null, type = null) {
        const size = view.getUint16(at + AT_ENTRY_LENGTH, true)
        this.number = bytes[at + AT_ENTRY_NUMBER]
        this.index = bytes[at + AT_ENTRY_DEVELOPER] === 1 ? bytes[at + AT_ENTRY_INDEX] : null
        this.baseType = bytes[at + AT_ENTRY_BASE_TYPE]
        this.kind = bytes[at + AT_ENTRY_KIND]
        this.width = bytes[at + AT_ENTRY_WIDTH]
        this.count = bytes[at + AT_ENTRY_COUNT]
        this.decimals = bytes[at + AT_ENTRY_DECIMALS]
        this.begins = view.getUint32(at + AT_ENTRY_ITEMS, true)
        this.scale = view.getUint32(at + AT_ENTRY_SCALE, true)
        this.offset = view.getUint32(at + AT_ENTRY_OFFSET, true)
        const invalid = view.getBigUint64(at + AT_ENTRY_INVALID, true)
        this.invalid = this.width === 8 ? invalid : Number(invalid)
        this.name = textAt(bytes, at + AT_ENTRY_NAME)
        this.unit = textAt(bytes, at + view.getUint16(at + AT_ENTRY_UNIT, true))
        this.size = size
        if (named !== null) this.#rename(named)
        const isNumber = this.kind === UNSIGNED && this.width === 4 && this.count === 1 && this.index === null
        this.told = named?.type ?? null // the type that the caller says
        this.type = isNumber && isTimeType(this.told ?? type) ? this.told ?? type : null
        this.bits = bitsReader(this.width)
        this.item = itemReader(this)
        this.scaled = scaler(this)
        this.read = reader(this)
        this.isWord = false
    }

    #rename({ name, unit, scale, offset }) {
        this.name = name ?? this.name
        this.unit = unit === null ? this.unit : unit || null
        // Floats stand for themselves, as in the profile.
        if (this.kind > SIGNED || (scale === null && offset === null)) return
        this.scale = scale ?? this.scale
        this.offset = offset ?? this.offset
        this.decimals = decimalsOf(this.scale, this.offset)
    }

    /* Whether its value is one number, and not several, a text, bytes or a word. */
    get isNumber() { return this.kind <= FLOAT && this.count === 1 && !this.isWord }

    /* As the CSV text names a field without a name. */
    get numbers() { return this.index === null ? `field_${this.number}` : `dev_${this.index}_${this.number}` }
}

/* What reads the value of a field in the block of a message, which begins at a place. */
function reader(entry) {
    const { begins, count, width, invalid } = entry
    if (count === 0) return () => null
    if (entry.kind === STRING) return ({ bytes }, at) => textAt(bytes, at + begins, at + begins + count)
    if (entry.kind === BYTES)
        return ({ bytes }, at) => {
            const data = bytes.slice(at + begins, at + begins + count)
            return invalid === 0xff && data.every(byte => byte === 0xff) ? null : data
        }
    if (entry.kind <= SIGNED && width < 8) return narrowReader(entry)
    const one = (view, at) => (entry.bits(view, at) === invalid ? null : entry.scaled(entry.item(view, at)))
    if (count === 1) return ({ view }, at) => one(view, at + begins)
    return ({ view }, at) => Array.from({ length: count }, (_, k) => one(view, at + begins + k * width))
}

/* The same for whole numbers of less than eight bytes. */
function narrowReader(entry) {
    const { begins, count, width, scale } = entry, code = codeOf(entry), invalid = invalidOf(entry), shift = scale * entry.offset
    const one = (view, at) => {
        const item = numberAt(view, code, invalid, at)
        return Number.isNaN(item) ? null : (item - shift) / scale
    }
    if (count === 1) return ({ view }, at) => one(view, at + begins)
    return ({ view }, at) => {
        const found = new Array(count) // of a list that grows the engine keeps more room
        for (let k = 0, place = at + begins; k < count; k++, place += width) found[k] = one(view, place)
        return found
    }
}

/* The items as the file has them, of floats their bits; all bytes of a text or of bytes. */
export function rawOf(entry, { view, bytes }, at) {
    if (entry.kind >= STRING) return bytes.slice(at + entry.begins, at + entry.begins + entry.count)
    const read = entry.kind === FLOAT ? entry.bits : entry.item
    const items = Array.from({ length: entry.count }, (_, k) => {
        const item = read(view, at + entry.begins + k * entry.width)
        return typeof item === "bigint" ? whole(item) : item
    })
    return entry.count === 1 ? items[0] : items
}

/* A whole number in the unit of its field, as text with the decimals that its scale needs; where it may have ever more, with those of the number. */
function decimal(entry, item) {
    if (entry.decimals < 0) return String(entry.scaled(item))
    const ten = 10n ** BigInt(entry.decimals), scale = BigInt(entry.scale)
    const number = (BigInt(item) - scale * BigInt(entry.offset)) * ten / scale
    const digits = String(number < 0n ? -number : number).padStart(entry.decimals + 1, "0"), point = digits.length - entry.decimals
    return (number < 0n ? "-" : "") + digits.slice(0, point) + (entry.decimals ? `.${digits.slice(point)}` : "")
}

/* A value, but whole numbers as text, with as many decimals as `toCsv` writes. */
export function exactOf(entry, part, at) {
    const value = entry.read(part, at)
    if (entry.kind >= FLOAT) return value
    const raw = rawOf(entry, part, at), exact = (one, item) => (one === null || typeof one === "string" ? one : decimal(entry, item))
    return Array.isArray(value) ? value.map((one, k) => exact(one, raw[k])) : exact(value, raw)
}

/* Where the first field is described in the block of a definition, after the name of its message. */
export function firstEntry(bytes, at = 0) {
    const name = at + AT_DEFINITION_NAME
    return name + ((bytes.subarray(name).indexOf(0) + 8) & ~7)
}

/* What the messages of a definition have: the number and name of the message, and its fields, each by its keys. With `words` values are words
 * where there are such; `names` are those of the caller. */
export class Definition {
    constructor(bytes, told = {}) {
        const { words = false, names = null } = told
        this.block = bytes.slice()
        this.told = told
        const view = new DataView(bytes.buffer, bytes.byteOffset, bytes.byteLength)
        const count = view.getUint16(AT_DEFINITION_FIELDS, true) + view.getUint16(AT_DEFINITION_DEVELOPERS, true)
        this.number = view.getUint16(AT_DEFINITION_MESSAGE, true)
        this.messageLength = view.getUint32(AT_DEFINITION_MESSAGE_LENGTH, true)
        this.isCounted = (view.getUint16(AT_DEFINITION_BITS, true) & IS_COUNTED) !== 0
        this.name = names?.message(this.number) ?? textAt(bytes, AT_DEFINITION_NAME)
        this.entries = []
        const fields = fieldsOf(this.number), own = fieldsIn(names, this.number)
        for (let k = 0, at = firstEntry(bytes); k < count; k++) {
            const number = bytes[at + AT_ENTRY_DEVELOPER] === 1 ? null : bytes[at + AT_ENTRY_NUMBER]
            this.entries.push(new Entry(view, bytes, at, own.get(number) ?? null, fields.get(number)?.type ?? null))
            at += this.entries[k].size
        }
        this.byName = new Map()
        this.byNumbers = new Map()
        // Of several fields with one key the first counts.
        for (const entry of this.entries) {
            if (!this.byNumbers.has(entry.numbers)) this.byNumbers.set(entry.numbers, entry)
            // A file may give a developer field a name that means something else. It has its numbers, then.
            const hides = entry.index !== null && RESERVED.test(entry.name ?? "")
            if (entry.name !== null && !hides && !this.byName.has(entry.name)) this.byName.set(entry.name, entry)
        }
        this.labels = this.#labels()
        if (words) tellWords(this)
    }

    /* Each field once, by its name where it has one of its own that is taken for nothing else, and else by its numbers. */
    #labels() {
        const labels = new Map()
        for (const entry of this.byNumbers.values()) {
            labels.set(this.byName.get(entry.name) === entry ? entry.name : entry.numbers, entry)
        }
        return labels
    }

    /* The field that a key names, or undefined: a label or a name, a number, or of a developer field [index, number]. */
    entry(key) {
        return typeof key === "string" ? this.labels.get(key) ?? this.byName.get(key) : this.byNumbers.get(labelOf(key))
    }
}

/* A key as text: a name as it is, a number as `field_N`, and [index, number] as `dev_I_N`. */
export function labelOf(key) {
    if (typeof key === "string") return key
    if (typeof key === "number") return `field_${key}`
    if (Array.isArray(key) && key.length === 2) return `dev_${key[0]}_${key[1]}`
    throw new TypeError("a field is named by its name, its number, or [developer data index, number]")
}

/* Bytes that blocks are read from. */
export const partOf = bytes => ({ bytes, view: new DataView(bytes.buffer, bytes.byteOffset, bytes.byteLength) })
