/* What may be given as bytes. */

const typed = Object.getPrototypeOf(Uint8Array.prototype)
const own = (kind, name, source) => Object.getOwnPropertyDescriptor(kind, name).get.call(source)

function isBuffer(source) {
    const kinds = [ArrayBuffer.prototype]
    if (typeof SharedArrayBuffer !== "undefined") kinds.push(SharedArrayBuffer.prototype)
    return kinds.some(kind => {
        try {
            own(kind, "byteLength", source)
            return true
        } catch {
            return false
        }
    })
}

/* The bytes of a source, where they are: an ArrayBuffer, a SharedArrayBuffer or a view of one, as a Uint8Array and Node's Buffer are. Its
 * own length counts, whatever a subclass says of it, and it may come from another window. */
export function bytesOf(source) {
    if (ArrayBuffer.isView(source)) {
        const kind = own(typed, Symbol.toStringTag, source) === undefined ? DataView.prototype : typed
        return new Uint8Array(own(kind, "buffer", source), own(kind, "byteOffset", source), own(kind, "byteLength", source))
    }
    if (isBuffer(source)) return new Uint8Array(source)
    const name = source === null ? "null" : typeof source === "object" ? source.constructor?.name ?? "an object" : typeof source
    throw new TypeError(`gazhdor takes bytes, as an ArrayBuffer or a Uint8Array, and not ${name}`)
}

/* So many bytes are handed to a stream at once. */
export const PIECE = 1 << 18

export function* pieces(bytes) {
    for (let at = 0; at < bytes.length; at += PIECE) yield bytes.subarray(at, at + PIECE)
}

const PART = 128, LEAST = 1 << 11

/* The same for what is made of them as blocks, which may be 180 times as long: a piece is that part of all. */
export function* smallPieces(bytes) {
    const size = Math.min(PIECE, Math.max(LEAST, Math.ceil(bytes.length / PART)))
    for (let at = 0; at < bytes.length; at += size) yield bytes.subarray(at, at + size)
}

const MOST = 1 << 14

/* The files of a good chain, one after another, and short ones together, up to so many bytes. */
export function* filesOf(bytes) {
    const view = new DataView(bytes.buffer, bytes.byteOffset, bytes.byteLength)
    let begin = 0
    for (let at = 0; at < bytes.length;) {
        const end = at + bytes[at] + view.getUint32(at + 4, true) + 2 // header, data section and checksum
        if (at > begin && end - begin > MOST) {
            yield bytes.subarray(begin, at)
            begin = at
        }
        at = end
    }
    if (begin < bytes.length) yield bytes.subarray(begin)
}
