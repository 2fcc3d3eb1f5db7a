/* The items of a field that stand for a value: the way back of what values.mjs reads. */
import { WrongValue } from "./answers.mjs"
import { noValue } from "./definitions.mjs"
import { BYTES, FLOAT, SIGNED, STRING } from "./numbers.mjs"
import { SYSTEM_TIMES, seconds } from "./plain.mjs"

/* Below this a double has all halves exactly, so that only what is nearly one has to be looked at closely. */
const SURE = 2 ** 36, CLEAR = .4999
const SYSTEM = /^system\+(\d{1,9})$/
const LONE = /[\ud800-\udfff]/u // half of a letter, which UTF-8 hasn't
const utf8 = new TextEncoder()

/* A value in a few words. */
export function shown(value) {
    if (typeof value === "string") return JSON.stringify(value.slice(0, 40)) + (value.length > 40 ? "..." : "")
    if (typeof value === "number" || typeof value === "bigint") return String(value).slice(0, 40)
    if (value instanceof Date) return Number.isNaN(value.getTime()) ? "no time" : value.toISOString()
    return typeof value === "object" ? `a ${value?.constructor?.name ?? "object"}` : `a ${typeof value}`
}

/* A finite number as a quotient of BigInts. */
function fraction(number) {
    let bottom = 1n
    for (; !Number.isInteger(number); number *= 2) bottom *= 2n
    return [BigInt(number), bottom]
}

/* The whole number that is nearest to a quotient; of two the one that is further from zero. */
function rounded(top, bottom) {
    const up = 2n * (top < 0n ? -top : top) + bottom, near = up / (2n * bottom)
    return top < 0n ? -near : near
}

/* A whole number as one of 64 bits, of which the nearest of 32 bits is that of the whole number: its first bits, the last of which also says
 * whether something is left. */
function nearly(whole) {
    const size = whole < 0n ? -whole : whole, more = BigInt(Math.max(0, size.toString(2).length - 50))
    const number = Number(size >> more | (size & ((1n << more) - 1n) ? 1n : 0n)) * 2 ** Number(more)
    return whole < 0n ? -number : number
}

/* What makes the items of a field of a value. */
export class Packer {
    #entry
    #none
    #least
    #most

    constructor(entry) {
        this.#entry = entry
        this.begins = entry.begins
        this.size = entry.count * entry.width
        this.#none = noValue(entry)
        const bits = BigInt(8 * entry.width)
        this.#least = entry.kind === SIGNED ? -(1n << (bits - 1n)) : 0n
        this.#most = (1n << (entry.kind === SIGNED ? bits - 1n : bits)) - 1n
    }

    get entry() { return this.#entry }
    get label() { return this.#entry.name ?? this.#entry.numbers }

    /* Puts a value into the block of a message that begins at a place. */
    put(block, at, value) { block.set(this.bytes(value), at + this.begins) }

    /* Empties the field in a block, and says whether it had a value. */
    empty(block, at) {
        const held = block.subarray(at + this.begins, at + this.begins + this.size)
        if (held.every((byte, k) => byte === this.#none[k])) return false
        held.set(this.#none)
        return true
    }

    /* All bytes of the field. */
    bytes(value) {
        if (value === null || value === undefined) return this.#none
        if (this.#entry.kind === STRING) return this.#text(value)
        if (this.#entry.kind === BYTES) return this.#bytes(value)
        const items = Array.isArray(value) || ArrayBuffer.isView(value) ? [...value] : [value]
        if (items.length > this.#entry.count) throw this.#wrong(value, `it has ${items.length} items, and the field ${this.#entry.count}`)
        const found = this.#none.slice(), view = new DataView(found.buffer)
        for (const [k, item] of items.entries()) this.#one(view, k * this.#entry.width, item)
        return found
    }

    #one(view, at, value) {
        const { kind, width } = this.#entry
        if (value === null || value === undefined || Number.isNaN(value)) return
        if (kind !== FLOAT) {
            const item = BigInt.asUintN(64, this.item(value))
            if (width === 8) view.setBigUint64(at, item, true)
            else view[`setUint${8 * width}`](at, Number(BigInt.asUintN(8 * width, item)), true)
            return
        }
        const number = width === 4 && typeof value === "bigint" ? nearly(value) : typeof value === "bigint" ? Number(value) : value
        const made = width === 4 && typeof number === "number" ? Math.fround(number) : number
        const isInfinite = typeof made === "number" && Math.abs(made) === Infinity
        if (typeof made !== "number" || (isInfinite && made !== value))
            throw this.#wrong(value, `${shown(value)} is no number that ${8 * width} bits of a float can have`)
        if (width === 4) view.setFloat32(at, made, true)
        else view.setFloat64(at, made, true)
    }

    /* The item of a whole number field that a value stands for, as a BigInt. */
    item(value) {
        const number = value instanceof Date || typeof value === "string" ? this.#seconds(value) : value, { scale, offset, invalid, width } = this.#entry
        if (typeof number !== "number" && typeof number !== "bigint") throw this.#wrong(value)
        if (typeof number === "number" && !Number.isFinite(number)) throw this.#wrong(value)
        const item = this.#steps(number, scale, offset)
        if (item < this.#least || item > this.#most || BigInt.asUintN(8 * width, item) === BigInt(invalid)) throw this.#wrong(value)
        return item
    }

    #steps(number, scale, offset) {
        if (typeof number === "number") {
            const steps = number * scale, item = steps + scale * offset, near = Math.round(item)
            if (Math.abs(steps) < SURE && Math.abs(item) < SURE && Math.abs(item - near) < CLEAR) return BigInt(near)
        }
        const [top, bottom] = typeof number === "bigint" ? [number, 1n] : fraction(number)
        const [of, under] = fraction(scale), [more, below] = fraction(offset)
        return rounded(of * (top * below + more * bottom), under * bottom * below)
    }

    /* The seconds that a time is, the fraction of a second left out. */
    #seconds(value) {
        const { type, scale, offset } = this.#entry
        if (type === null || scale !== 1 || offset !== 0) throw this.#wrong(value)
        if (typeof value === "string") {
            const told = SYSTEM.exec(value)
            if (told === null || Number(told[1]) >= SYSTEM_TIMES) throw this.#wrong(value)
            return Number(told[1])
        }
        if (type === "local_date_time") throw this.#wrong(value, "a time by the clock of the place is a number of seconds: a Date is one in UTC")
        const number = seconds(value)
        if (!(number >= SYSTEM_TIMES)) throw this.#wrong(value)
        return number
    }

    #text(value) {
        if (typeof value !== "string") throw this.#wrong(value, `it has a text, and ${shown(value)} is none`)
        if (value.includes("\0")) throw this.#wrong(value, `${shown(value)} has a zero, which ends a text`)
        if (LONE.test(value)) throw this.#wrong(value, `${shown(value)} has a letter that UTF-8 hasn't`)
        return this.#filled(value, textBytes(value), `${shown(value)} has `)
    }

    #bytes(value) {
        if (!(value instanceof Uint8Array)) throw this.#wrong(value, `it has bytes, and ${shown(value)} is none`)
        if (value.length !== this.size) throw this.#wrong(value, `the field has ${this.size} bytes, and these are ${value.length}`)
        return value.slice()
    }

    #filled(value, data, what) {
        if (data.length > this.size) throw this.#wrong(value, `${what}${data.length} bytes, and the field ${this.size}`)
        const made = new Uint8Array(this.size)
        made.set(data)
        return made
    }

    /* What is to be thrown for a value. */
    #wrong(value, what) {
        const [least, most] = this.#limits()
        return new WrongValue(what ?? `${shown(value)} is not within ${least} to ${most}`, { field: this.label, value, least, most })
    }

    /* The least and the greatest value that the field can have, in its unit. */
    #limits() {
        const { kind, invalid, width, scale, offset } = this.#entry
        if (kind >= FLOAT) return [null, null]
        const none = kind === SIGNED ? BigInt.asIntN(8 * width, BigInt(invalid)) : BigInt(invalid)
        const items = [this.#least + (none === this.#least ? 1n : 0n), this.#most - (none === this.#most ? 1n : 0n)]
        const values = items.map(item => (scale === 1 && offset === 0 && width === 8 ? item : Number(item) / scale - offset))
        return scale < 0 ? values.reverse() : values
    }
}

/* The first bytes of a text. */
export const textBytes = text => utf8.encode(text.slice(0, 256))
