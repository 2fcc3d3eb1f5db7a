/* Messages with other values, and with fields that they don't have. */
import { definitionBlock, emptyMessage, fieldOf } from "./definitions.mjs"
import {
    AT_DEFINITION_ARCHITECTURE, AT_DEFINITION_LOCAL, AT_DEFINITION_RESERVED, AT_KIND, AT_MESSAGE_BITS, AT_MESSAGE_COUNTED_ITEMS,
    AT_MESSAGE_ITEMS, AT_MESSAGE_TIME, BIG_ENDIAN, NO_TIME, TOLD_TIME,
} from "./numbers.mjs"
import { Packer } from "./packing.mjs"
import { UnknownName } from "./profile.mjs"
import { shapesOf } from "./shapes.mjs"
import { Definition, labelOf, partOf } from "./values.mjs"
import { numbered } from "./worded.mjs"

/* What packs the fields of a definition, made once. */
export function packerOf(definition, entry) {
    definition.packers ??= new Map()
    if (!definition.packers.has(entry)) definition.packers.set(entry, new Packer(entry))
    return definition.packers.get(entry)
}

/* A copy of the block of a message, which has a definition, the bytes in which its block stands, and a place there. */
export const blockOf = ({ definition, part, at }) => part.bytes.slice(at, at + definition.messageLength)

/* The pairs of keys and values that a caller gives. */
const pairs = values => (values instanceof Map ? [...values] : Object.entries(values))

export function replaced(inside, values) {
    const { definition } = inside, part = partOf(blockOf(inside))
    for (const [key, value] of numbered(definition, pairs(values), part)) {
        const entry = definition.entry(key)
        const what = `this ${definition.name ?? `message ${definition.number}`} hasn't the field`
        if (entry === undefined) throw new UnknownName(what, labelOf(key), definition.labels.keys())
        packerOf(definition, entry).put(part.bytes, 0, value)
        if (isStamp(entry)) tellTime(part, entry)
    }
    return { definition, part, at: 0 }
}

const isStamp = entry => entry.index === null && entry.number === 253 && entry.type !== null

/* Has a message tell the time that its timestamp has now. */
function tellTime({ bytes, view }, entry) {
    const time = view.getUint32(entry.begins, true)
    view.setUint32(AT_MESSAGE_TIME, time, true)
    if (time === NO_TIME) bytes[AT_MESSAGE_BITS] &= ~TOLD_TIME
    else bytes[AT_MESSAGE_BITS] |= TOLD_TIME
}

export function added({ definition, part, at }, values) {
    const all = pairs(values)
    const fresh = all.filter(([key]) => definition.entry(key) === undefined)
    if (fresh.length === 0) return replaced({ definition, part, at }, values)
    const shapes = shapesOf(definition.number, fresh.map(([key]) => key), { names: definition.told.names, developers: new Map() })
    const byKey = new Map(fresh.map(([key, value]) => [labelOf(key), value]))
    const fields = shapes.map(shape => shape.of(shape.needed(byKey.get(shape.name) ?? byKey.get(labelOf(shape.key)), shape.least)))
    const made = wider(definition, fields), bytes = emptyMessage(made, made.block, 0)
    bytes.set(part.bytes.subarray(at + AT_KIND, at + (definition.isCounted ? AT_MESSAGE_COUNTED_ITEMS : AT_MESSAGE_ITEMS)), AT_KIND)
    const more = fields.filter(({ index }) => index === null).length
    for (const [k, old] of definition.entries.entries()) {
        const entry = made.entries[old.index === null ? k : k + more]
        bytes.set(part.bytes.subarray(at + old.begins, at + old.begins + old.count * old.width), entry.begins)
    }
    return replaced({ definition: made, part: partOf(bytes), at: 0 }, new Map(all))
}

const MOST = 64 // So many wider definitions are kept with each one.

/* The definition with more fields. */
function wider(definition, more) {
    const label = JSON.stringify(more.map(({ index, number, base, size }) => [index, number, base.code, size]))
    definition.wider ??= new Map()
    if (!definition.wider.has(label)) {
        const fields = [...definition.entries.map(fieldOf), ...more].sort((one, other) => (one.index !== null) - (other.index !== null))
        const { block } = definition
        const kept = { local: block[AT_DEFINITION_LOCAL], isBig: block[AT_DEFINITION_ARCHITECTURE] === BIG_ENDIAN, reserved: block[AT_DEFINITION_RESERVED] }
        if (definition.wider.size === MOST) definition.wider.clear()
        definition.wider.set(label, new Definition(definitionBlock(definition.number, fields, { ...kept, isCounted: definition.isCounted }), definition.told))
    }
    return definition.wider.get(label)
}
