/* A module whose memory has a maximum. */
import { WrongModule } from "./answers.mjs"
import { bytesOf } from "./sources.mjs"

const PAGE = 65536
const MEMORY = 5 // the section of a module that says how many pages its memory has

function numberAt(bytes, at) {
    let value = 0
    for (let shift = 1; ; shift *= 128) {
        const byte = bytes[at++]
        value += (byte & 127) * shift
        if (!(byte & 128)) return [value, at]
    }
}

function written(value) {
    const bytes = []
    for (; value > 127; value = Math.floor(value / 128)) bytes.push(value % 128 | 128)
    return [...bytes, value]
}

/* The bytes of a module, whose memory may have at most so many bytes. */
export function limited(source, maximum) {
    const bytes = bytesOf(source), pages = Math.floor(maximum / PAGE)
    for (let at = 8; at < bytes.length;) {
        const [length, begins] = numberAt(bytes, at + 1)
        if (bytes[at] === MEMORY) {
            const [least] = numberAt(bytes, begins + 2)
            if (!(pages >= least && pages <= PAGE)) throw new RangeError(`the memory has at least ${least * PAGE} bytes and at most 2^32, and not ${maximum}`)
            const body = [1, 1, ...written(least), ...written(pages)]
            const parts = [bytes.subarray(0, at), Uint8Array.of(MEMORY, ...written(body.length), ...body), bytes.subarray(begins + length)]
            const all = new Uint8Array(parts.reduce((sum, part) => sum + part.length, 0))
            parts.reduce((to, part) => (all.set(part, to), to + part.length), 0)
            return all
        }
        at = begins + length
    }
    throw new WrongModule("this is no module with a memory")
}
