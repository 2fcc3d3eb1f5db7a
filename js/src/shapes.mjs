/* What a caller says of a message that is to be written: its fields, and how many items each has. */
import { baseNamed } from "./definitions.mjs"
import { EXTRA, fieldsIn } from "./names.mjs"
import { BYTES, STRING } from "./numbers.mjs"
import { textBytes } from "./packing.mjs"
import { UnknownName, fieldsOf, namesOf, nameOf, numberOf, seeMessage } from "./profile.mjs"

/* A developer field that a file describes, of `Writer.describe`: it names the field in `define`. */
export class DeveloperField {
    constructor(index, number, { name = null, unit = null, base }) {
        Object.assign(this, { index, number, name, unit, base: base.name, key: [index, number] })
        Object.freeze(this)
    }
}

/* The number of a message that a caller names. */
export function messageNumber(message, names) {
    if (typeof message !== "string" && typeof message !== "number")
        throw new TypeError(`a message is named by its name or its number, and not by ${typeof message}`)
    seeMessage(message, names)
    const number = numberOf(message, names)
    if (!Number.isInteger(number) || number < 0 || number > 0xffff) throw new RangeError(`a message is 0 to 65535, and not ${number}`)
    return number
}

/* A whole number of one byte. */
export function byte(what, number) {
    if (!Number.isInteger(number) || number < 0 || number > 255) throw new RangeError(`${what} is 0 to 255, and not ${String(number).slice(0, 20)}`)
    return number
}

/* A field of a message that is to be written. `size` is null where it is that of what is written. */
class Shape {
    constructor(told) { Object.assign(this, { index: null, size: null, name: null, unit: null, scale: 1, offset: 0, ...told }) }

    get key() { return this.index === null ? this.number : [this.index, this.number] }

    /* The size that it has where nothing is written. */
    get least() { return this.size ?? this.base.width }

    /* The size that a value needs. */
    needed(value, size) {
        if (this.size !== null || value === null || value === undefined) return size
        if (this.base.kind === STRING) return typeof value === "string" ? Math.min(255, Math.max(size, textBytes(value).length + 1)) : size
        if (this.base.kind === BYTES) return value instanceof Uint8Array ? Math.min(255, value.length) : size
        const count = Array.isArray(value) || ArrayBuffer.isView(value) ? value.length : 1, { width } = this.base
        return Math.min(Math.floor(255 / width) * width, Math.max(size, count * width))
    }

    of(size) { return { ...this, size } }
}

const isSpec = spec => Array.isArray(spec) && typeof spec[1] === "string"

const MOST = 64 // So many lists of named fields are kept.
const kept = new Map()

/* The shapes of fields, the developer fields last. A field is named by its name, its number or a developer field, or given as [one of these, base
 * type, count]. `developers` are the developer fields that the file describes, by their keys. */
export function shapesOf(message, told, { names, developers }) {
    const specs = typeof told === "string" ? told.split(/\s+/).filter(Boolean) : [...told]
    if ((names !== null && names !== EXTRA) || !specs.every(spec => typeof spec === "string" && numberIn(message, spec, names) !== undefined))
        return shapesIn(message, specs, { names, developers })
    // What the profile or EXTRA names is the same in each file.
    const label = `${names !== null} ${message} ${specs.join(" ")}`, found = kept.get(label) ?? shapesIn(message, specs, { names, developers })
    if (kept.size === MOST) kept.clear()
    kept.set(label, found)
    return found
}

function shapesIn(message, specs, { names, developers }) {
    const shapes = specs.map(spec => shapeOf(message, spec, { names, developers }))
    const labels = shapes.map(({ index, number }) => `${index} ${number}`), twice = labels.findIndex((label, k) => labels.indexOf(label) !== k)
    if (twice >= 0) throw new RangeError(`a field is named twice: ${shapes[twice].name ?? shapes[twice].key}`)
    const count = shapes.filter(({ index }) => index !== null).length
    if (count > 255 || shapes.length - count > 255) throw new RangeError("a message has at most 255 fields, and 255 developer fields")
    return shapes.sort((one, other) => (one.index !== null) - (other.index !== null))
}

function shapeOf(message, spec, { names, developers }) {
    const [key, type, count] = isSpec(spec) ? spec : [spec]
    const shape = developerShape(message, key, type, { names, developers }) ?? fieldShape(message, key, type, names)
    if (count !== undefined) shape.size = byte("a size", byte("a count", count) * shape.base.width)
    return shape
}

/* A developer field that is named by itself, by its numbers or by its name, where that isn't one of the profile. */
function developerShape(message, key, type, { names, developers }) {
    const found = key instanceof DeveloperField ? key : developers.get(Array.isArray(key) ? key.join(" ") : key)
    if (found === undefined || (typeof key === "string" && numberIn(message, key, names) !== undefined)) {
        if (Array.isArray(key)) throw new UnknownName("the file describes no developer field", String(key), described(developers))
        return null
    }
    if (type !== undefined && baseNamed(type).name !== found.base) throw new RangeError(`${found.name} is described as ${found.base}`)
    return new Shape({ index: found.index, number: found.number, base: baseNamed(found.base), name: found.name, unit: found.unit })
}

const described = developers => [...developers.values()].map(({ name }) => name).filter(name => name !== null)

const numbers = new WeakMap(), NOBODY = {} // of each caller's names, or of nobody's, the numbers of the fields of messages, by their names

/* The number of the field of a message that has a name. */
export function numberIn(message, name, names) {
    const of = names ?? NOBODY
    if (!numbers.has(of)) numbers.set(of, new Map())
    const byMessage = numbers.get(of)
    if (!byMessage.has(message)) byMessage.set(message, numbersIn(message, names))
    return byMessage.get(message).get(name)
}

function numbersIn(message, names) {
    const own = new Map([...fieldsIn(names, message)].filter(([, named]) => named.name)), found = new Map()
    const known = [...fieldsOf(message)].filter(([number]) => !own.has(number))
    // Of several fields of one name the first counts, and what the caller says before the profile.
    for (const [number, { name }] of [...own, ...known]) if (!found.has(name)) found.set(name, number)
    return found
}

function fieldShape(message, key, type, names) {
    const number = typeof key === "string" ? numberIn(message, key, names) : byte("a field", key)
    if (number === undefined)
        throw new UnknownName(`neither the profile nor the file has in ${nameOf(message) ?? `message ${message}`} a field`, key, namesOf(message, names))
    const known = fieldsOf(message).get(number), named = fieldsIn(names, message).get(number), usual = named?.base ?? known?.base
    if (type === undefined && (usual ?? null) === null)
        throw new RangeError(`nobody knows the base type of field ${key}: give it, as [${JSON.stringify(key)}, "uint16"]`)
    const { name = null, unit = null, scale, offset } = known ?? {}
    return new Shape({ number, base: type === undefined ? baseNamed(usual) : baseNamed(type), name, unit, scale: scale ?? 1, offset: offset ?? 0 })
}
