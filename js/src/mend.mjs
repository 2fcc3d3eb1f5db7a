/* Mends what was broken off or damaged: all good records of it, and an end. */
import { OutOfMemory } from "./answers.mjs"
import {
    AT_DEFINITION_BITS, AT_DEFINITION_DEVELOPERS, AT_DEFINITION_FIELDS, AT_DEFINITION_LOCAL, AT_ENTRY_COUNT,
    AT_ENTRY_LENGTH, AT_ENTRY_WIDTH, AT_KIND, AT_LENGTH, AT_MESSAGE_LOCAL, AT_PLACE, DEFINITION, FILE_END, MESSAGE,
    NO_MEMORY, SAYS_DEVELOPERS,
} from "./numbers.mjs"
import { Pipe } from "./streams.mjs"
import { firstEntry } from "./values.mjs"

const MOST = 2 ** 32 - 1 // the size of the largest data section

const SUMS = Uint16Array.from({ length: 256 }, (_, byte) => {
    for (let bit = 0; bit < 8; bit++) byte = byte >> 1 ^ (byte & 1 ? 0xa001 : 0)
    return byte
})

/* The checksum that the FIT protocol has after some bytes. */
function checksum(...parts) {
    let sum = 0
    for (const part of parts) for (let k = 0; k < part.length; k++) sum = sum >> 8 ^ SUMS[(sum ^ part[k]) & 0xff]
    return Uint8Array.of(sum & 0xff, sum >> 8)
}

function joined(...parts) {
    const all = new Uint8Array(parts.reduce((sum, part) => sum + part.length, 0))
    let at = 0
    for (const part of parts) {
        all.set(part, at)
        at += part.length
    }
    return all
}

/* Where the last whole file and the last whole record end, of the blocks up to now. */
class Ends {
    file = 0
    record = 0
    #sizes = new Map()

    take(blocks) {
        const view = new DataView(blocks.buffer, blocks.byteOffset, blocks.byteLength)
        for (let at = 0, length; at < blocks.length; at += length) {
            length = view.getUint32(at + AT_LENGTH, true)
            const kind = blocks[at + AT_KIND], place = Number(view.getBigUint64(at + AT_PLACE, true))
            if (kind === MESSAGE) this.record = place + 1 + this.#sizes.get(blocks[at + AT_MESSAGE_LOCAL])
            else if (kind === DEFINITION) this.record = place + this.#define(blocks, view, at)
            else if (kind === FILE_END) this.file = place + 2
        }
    }

    /* How many bytes a definition message has. */
    #define(blocks, view, at) {
        const fields = view.getUint16(at + AT_DEFINITION_FIELDS, true), developer = view.getUint16(at + AT_DEFINITION_DEVELOPERS, true)
        let entry = firstEntry(blocks, at), size = 0
        for (let k = 0; k < fields + developer; k++) {
            size += blocks[entry + AT_ENTRY_WIDTH] * blocks[entry + AT_ENTRY_COUNT]
            entry += view.getUint16(entry + AT_ENTRY_LENGTH, true)
        }
        this.#sizes.set(blocks[at + AT_DEFINITION_LOCAL], size)
        return 6 + 3 * fields + (view.getUint16(at + AT_DEFINITION_BITS, true) & SAYS_DEVELOPERS ? 1 + 3 * developer : 0)
    }
}

/* The ends in some bytes, up to the first fault. A few bytes are looked at first, and then ever more, as the first may be refused. */
function endsOf(core, ...parts) {
    const ends = new Ends(), pipe = new Pipe(core, "blocks")
    try {
        for (let size = 256, [part, ...more] = parts; part !== undefined; size = Math.min(2 * size, 1 << 18)) {
            const [answer] = pipe.feed(part.subarray(0, size), blocks => ends.take(blocks))
            if (answer.status === NO_MEMORY) throw new OutOfMemory()
            if (!answer.good) break
            part = part.subarray(size)
            if (part.length === 0) [part, ...more] = more
        }
        return ends
    } finally {
        pipe.close()
    }
}

/* A header with another size of the data section, and its checksum. */
function headerOf(old, size) {
    const head = old.slice(0, 12)
    new DataView(head.buffer).setUint32(4, size, true)
    return old.length > 13 ? joined(head, checksum(head), old.subarray(14)) : head
}

const beginsFile = bytes => bytes.length >= 12 && String.fromCharCode(...bytes.subarray(8, 12)) === ".FIT"
const same = (one, other) => one.length === other.length && one.every((byte, k) => byte === other[k])

/* Header and data section of the file that these bytes begin, as far as they are there, and what comes after it; null where they begin no header. */
function split(bytes) {
    const length = bytes[0], none = bytes.subarray(0, 0)
    if (length < 12 || bytes.length < length || !beginsFile(bytes)) return null
    const head = bytes.subarray(0, length), body = bytes.subarray(length)
    const size = new DataView(head.buffer, head.byteOffset).getUint32(4, true), after = body.subarray(size + 2)
    if (size > 0 && body.length >= size + 2 && (after.length === 0 || beginsFile(after))) return { head, body: body.subarray(0, size), after }
    if (body.length < 2 || size > body.length) return { head, body, after: none }
    // The size was never filled in, or is wrong; there may be a checksum all the same.
    const records = body.subarray(0, -2), sum = body.subarray(-2)
    const isSummed = same(sum, checksum(head, records)) || same(sum, checksum(headerOf(head, records.length), records))
    return { head, body: isSummed ? records : body, after: none }
}

/* The file that these bytes begin, with its good records, or nothing; and what comes after it. */
function mendedFile(core, bytes) {
    const parts = split(bytes)
    if (parts === null) return [bytes.subarray(0, 0), bytes.subarray(0, 0)]
    const { head, body, after } = parts
    // With a larger size none of the records is refused for what can't follow it.
    const end = endsOf(core, headerOf(head, MOST), body).record - head.length
    if (end <= 0) return [bytes.subarray(0, 0), after]
    const whole = [headerOf(head, end), body.subarray(0, end)]
    return [joined(...whole, checksum(...whole)), after]
}

/* Of each file that some bytes begin its records up to the first that isn't whole or can't be, with the size and the checksums that belong to
 * them; files that are good stay as they are. It may be nothing. */
export function mended(core, bytes) {
    const made = []
    for (let rest = bytes; rest.length > 0;) {
        const end = endsOf(core, rest).file
        if (end > 0) {
            made.push(rest.subarray(0, end))
            rest = rest.subarray(end)
        } else {
            const [file, after] = mendedFile(core, rest)
            made.push(file)
            rest = after
        }
    }
    return joined(...made)
}
