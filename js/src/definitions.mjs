/* What a definition message says of its fields, and its block (docs/BLOCKS.md). */
import {
    AT_DEFINITION_ARCHITECTURE, AT_DEFINITION_BITS, AT_DEFINITION_DEVELOPERS, AT_DEFINITION_FIELDS, AT_DEFINITION_LOCAL,
    AT_DEFINITION_MESSAGE, AT_DEFINITION_MESSAGE_LENGTH, AT_DEFINITION_NAME, AT_DEFINITION_RESERVED, AT_ENTRY_BASE_TYPE,
    AT_ENTRY_COUNT, AT_ENTRY_DEVELOPER, AT_ENTRY_INDEX, AT_ENTRY_INVALID, AT_ENTRY_ITEMS, AT_ENTRY_KIND, AT_ENTRY_NAME,
    AT_ENTRY_NUMBER, AT_ENTRY_OFFSET, AT_ENTRY_SCALE, AT_ENTRY_UNIT, AT_ENTRY_WIDTH, AT_HEADER_PROFILE, AT_HEADER_PROTOCOL,
    AT_HEADER_REST, AT_HEADER_SIZE, AT_HEADER_SUM, AT_KIND, AT_MESSAGE_COUNTED_ITEMS, AT_MESSAGE_HEADER_TIME,
    AT_MESSAGE_ITEMS, AT_MESSAGE_LOCAL, AT_MESSAGE_OFFSET, AT_MESSAGE_TIME, BASE_TYPES, BIG_ENDIAN, BYTES, DEFINITION,
    FILE_HEADER, FLOAT, IS_COUNTED, LITTLE_ENDIAN, MESSAGE, NO_OFFSET, NO_TIME, OWN_SUM, SAYS_DEVELOPERS,
} from "./numbers.mjs"
import { nameOf } from "./profile.mjs"

const BASES = BASE_TYPES.map(([name, code, kind, width, invalid]) => ({ name, code, kind, width, invalid }))
const byName = new Map(BASES.map(base => [base.name, base])), byCode = new Map(BASES.map(base => [base.code, base]))
const PROTOCOL = 0x20, PROFILE_VERSION = 21158 // the release that the names of the module are of
const MOST_LETTERS = 1 << 12

/* The base type of a code; any other code is as byte, and keeps its number. */
export const baseOf = code => byCode.get(code) ?? { ...byName.get("byte"), code }

/* The base type that a caller names, by its name or its code. */
export function baseNamed(told) {
    if (byName.has(told)) return byName.get(told)
    if (Number.isInteger(told) && told >= 0 && told <= 255) return baseOf(told)
    throw new RangeError(`${String(told).slice(0, 40)} is no base type: ${[...byName.keys()].join(", ")}, or a code of 0 to 255`)
}

const utf8 = new TextEncoder()
const filled = length => length + (-length & 7)

/* A text as blocks have it: with a zero, and more up to a multiple of 8. No file has names, so a very long one is cut. */
function textOf(words) {
    const bytes = utf8.encode((words ?? "").slice(0, MOST_LETTERS)), made = new Uint8Array(filled(bytes.length + 1))
    made.set(bytes)
    return made
}

/* A block of a kind and a length, and the view of it. */
function begun(kind, length) {
    const bytes = new Uint8Array(length), view = new DataView(bytes.buffer)
    view.setUint32(0, length, true)
    bytes[AT_KIND] = kind
    return [bytes, view]
}

/* The block of the header of a new file. */
export function newHeader() {
    const [bytes, view] = begun(FILE_HEADER, AT_HEADER_REST)
    bytes[AT_HEADER_SIZE] = 14
    bytes[AT_HEADER_PROTOCOL] = PROTOCOL
    bytes[AT_HEADER_SUM] = OWN_SUM
    view.setBigUint64(AT_HEADER_PROFILE, BigInt(PROFILE_VERSION), true)
    return bytes
}

/* The base type by which the items of a field of a size are read: bytes, where their width doesn't divide the size. */
const shapeOf = ({ base, size }) => (size % base.width === 0 ? base : { ...base, kind: BYTES, width: 1 })

/* The entry of a field, whose items begin at a place in the blocks of messages. */
function entryOf(field, begins) {
    const shape = shapeOf(field), name = textOf(field.name), unit = textOf(field.unit)
    const bytes = new Uint8Array(AT_ENTRY_NAME + name.length + unit.length), view = new DataView(bytes.buffer)
    const isScaled = shape.kind < FLOAT && Number.isInteger(field.scale) && field.scale > 0 && Number.isInteger(field.offset) && field.offset >= 0
    view.setUint16(0, bytes.length, true)
    view.setUint16(AT_ENTRY_UNIT, AT_ENTRY_NAME + name.length, true)
    bytes[AT_ENTRY_NUMBER] = field.number
    bytes[AT_ENTRY_DEVELOPER] = field.index === null ? 0 : 1
    bytes[AT_ENTRY_INDEX] = field.index ?? 0
    bytes[AT_ENTRY_BASE_TYPE] = field.base.code
    bytes[AT_ENTRY_KIND] = shape.kind
    bytes[AT_ENTRY_WIDTH] = shape.width
    bytes[AT_ENTRY_COUNT] = field.size / shape.width
    view.setUint32(AT_ENTRY_ITEMS, begins, true)
    view.setUint32(AT_ENTRY_SCALE, isScaled ? field.scale : 1, true)
    view.setUint32(AT_ENTRY_OFFSET, isScaled ? field.offset : 0, true)
    view.setBigUint64(AT_ENTRY_INVALID, shape.invalid, true)
    bytes.set(name, AT_ENTRY_NAME)
    bytes.set(unit, AT_ENTRY_NAME + name.length)
    return bytes
}

/* The block of a definition message with such fields, the developer fields last; each has a number, the developer data index or null, a base type,
 * a size, and what is said of it: name, unit, scale and offset. */
export function definitionBlock(number, fields, { local = 0, isBig = false, reserved = 0, isCounted = false } = {}) {
    let begins = isCounted ? AT_MESSAGE_COUNTED_ITEMS : AT_MESSAGE_ITEMS
    const parts = [textOf(nameOf(number))]
    for (const field of fields) {
        parts.push(entryOf(field, begins))
        begins += filled(field.size)
    }
    const developers = fields.filter(({ index }) => index !== null).length
    const [bytes, view] = begun(DEFINITION, parts.reduce((sum, part) => sum + part.length, AT_DEFINITION_NAME))
    bytes[AT_DEFINITION_LOCAL] = local
    bytes[AT_DEFINITION_ARCHITECTURE] = isBig ? BIG_ENDIAN : LITTLE_ENDIAN
    bytes[AT_DEFINITION_RESERVED] = reserved
    view.setUint32(AT_DEFINITION_MESSAGE_LENGTH, begins, true)
    view.setUint16(AT_DEFINITION_MESSAGE, number, true)
    view.setUint16(AT_DEFINITION_FIELDS, fields.length - developers, true)
    view.setUint16(AT_DEFINITION_DEVELOPERS, developers, true)
    view.setUint16(AT_DEFINITION_BITS, (developers > 0 ? SAYS_DEVELOPERS : 0) | (isCounted ? IS_COUNTED : 0), true)
    parts.reduce((at, part) => (bytes.set(part, at), at + part.length), AT_DEFINITION_NAME)
    return bytes
}

/* The bytes of a field without a value: its item that says so, as many times as it has items. */
export function noValue({ count, width, invalid, kind }) {
    const bytes = new Uint8Array(count * width), view = new DataView(bytes.buffer)
    if (kind === BYTES) return bytes.fill(0xff)
    for (let k = 0; k < count; k++) {
        if (width === 8) view.setBigUint64(8 * k, invalid, true)
        else view[`setUint${8 * width}`](width * k, invalid, true)
    }
    return bytes
}

/* The block of a message of a definition, by its entries, whose fields have no values. */
export function emptyMessage(definition, block, local) {
    const length = new DataView(block.buffer, block.byteOffset).getUint32(AT_DEFINITION_MESSAGE_LENGTH, true), [bytes, view] = begun(MESSAGE, length)
    bytes[AT_MESSAGE_LOCAL] = local
    bytes[AT_MESSAGE_OFFSET] = NO_OFFSET
    view.setUint32(AT_MESSAGE_TIME, NO_TIME, true)
    view.setUint32(AT_MESSAGE_HEADER_TIME, NO_TIME, true)
    for (const entry of definition.entries) bytes.set(noValue(entry), entry.begins)
    return bytes
}

/* What a definition has of a field, as one to make another definition of. */
export const fieldOf = ({ number, index, baseType, count, width, name, unit, scale, offset }) =>
    ({ number, index, base: baseOf(baseType), size: count * width, name, unit, scale, offset })
