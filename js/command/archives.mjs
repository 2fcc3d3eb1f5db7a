/* What is packed: one FIT file in a gzip file or in a zip file. */
import { createGunzip, inflateRawSync } from "node:zlib"
import { Readable } from "node:stream"

export const MOST = 2 ** 28 // A file may unpack to so many bytes, and a zip file may have so many.
const MOST_TEXT = MOST.toLocaleString("en-US"), LONGEST_LIST = 2 ** 20
const END = 0x06054b50, ENTRY = 0x02014b50, LOCAL = 0x04034b50

/* A gzip or zip file of which nothing can be read, or not all. It says why. */
export class NotUnpacked extends Error {}

/* A zip file without any FIT file. */
export class NoFitFile extends NotUnpacked {}

const damaged = why => new NotUnpacked(`the zip file is damaged: ${why}`)
const tooMuch = kind => new NotUnpacked(`the ${kind} has more than ${MOST_TEXT} bytes in it: unpack it, if it may have`)

/* The bytes that a gzip file has, piece by piece. */
export async function* gunzipped(pieces) {
    let left = MOST
    const failed = error => new NotUnpacked(error.code === "Z_BUF_ERROR" ? "the gzip file ends too soon" : `the gzip file is damaged: ${error.message}`)
    const source = Readable.from(pieces), unpacking = createGunzip()
    source.on("error", error => unpacking.destroy(error))
    try {
        for await (const piece of source.pipe(unpacking)) {
            left -= piece.length
            if (left < 0) throw tooMuch("gzip file")
            yield piece
        }
    } catch (error) {
        throw String(error.code).startsWith("Z_") ? failed(error) : error
    }
}

/* All bytes of a zip file. */
async function whole(pieces) {
    const parts = []
    let size = 0
    for await (const piece of pieces) {
        parts.push(piece)
        size += piece.length
        if (size > MOST) throw new NotUnpacked(`a zip file of more than ${MOST_TEXT} bytes isn't read`)
    }
    return Buffer.concat(parts)
}

/* The names of the files in a zip file, and where they are. */
function entriesOf(bytes) {
    let end = bytes.length - 22
    while (end >= 0 && bytes.length - end < 22 + 65536 && bytes.readUInt32LE(end) !== END) end--
    if (end < 0 || bytes.readUInt32LE(end) !== END) throw damaged("it has no list of files")
    const size = bytes.readUInt32LE(end + 12), begin = end - size
    if (size > LONGEST_LIST) throw damaged("the list of its files is too long")
    // What stands before the file, as in a program that unpacks itself, moves all places.
    const moved = begin - bytes.readUInt32LE(end + 16), found = []
    for (let at = begin; at < end;) {
        if (at < 0 || at + 46 > end || bytes.readUInt32LE(at) !== ENTRY) throw damaged("its list of files isn't whole")
        const [name, more, comment] = [28, 30, 32].map(place => bytes.readUInt16LE(at + place))
        found.push({
            name: bytes.toString("utf8", at + 46, at + 46 + name), isLocked: (bytes.readUInt16LE(at + 8) & 1) !== 0, packing: bytes.readUInt16LE(at + 10),
            sum: bytes.readUInt32LE(at + 16), packed: bytes.readUInt32LE(at + 20), size: bytes.readUInt32LE(at + 24), at: bytes.readUInt32LE(at + 42) + moved,
        })
        at += 46 + name + more + comment
    }
    return found
}

const isBeside = name => name.startsWith("__MACOSX/") || name.split("/").at(-1).startsWith("._") // what macOS puts beside each file

function oneOf(bytes) {
    const found = entriesOf(bytes).filter(({ name }) => name.toLowerCase().endsWith(".fit") && !isBeside(name))
    if (found.length === 0) throw new NoFitFile("a zip file without a FIT file")
    if (found.length > 1) throw new NotUnpacked(`a zip file with ${found.length} FIT files: unpack it`)
    if (found[0].isLocked) throw new NotUnpacked("a zip file with a password: unpack it")
    if (found[0].packing !== 0 && found[0].packing !== 8) throw new NotUnpacked("a zip file that is packed in an unusual way: unpack it")
    return found[0]
}

/* The checksum that a zip file has of each file. */
function sumOf(bytes) {
    const table = Int32Array.from({ length: 256 }, (_, byte) => {
        for (let k = 0; k < 8; k++) byte = byte & 1 ? byte >>> 1 ^ 0xedb88320 : byte >>> 1
        return byte
    })
    let sum = -1
    for (const byte of bytes) sum = sum >>> 8 ^ table[(sum ^ byte) & 255]
    return ~sum >>> 0
}

/* The bytes of the one FIT file in a zip file. */
export async function* unzipped(pieces) {
    const bytes = await whole(pieces), one = oneOf(bytes)
    if (one.at < 0 || one.at + 30 > bytes.length || bytes.readUInt32LE(one.at) !== LOCAL) throw damaged("the file isn't where it says")
    const begin = one.at + 30 + bytes.readUInt16LE(one.at + 26) + bytes.readUInt16LE(one.at + 28)
    if (begin + one.packed > bytes.length) throw damaged("it ends too soon")
    const packed = bytes.subarray(begin, begin + one.packed)
    const made = one.packing === 0 ? packed : inflated(packed)
    if (made.length !== one.size || sumOf(made) !== one.sum) throw damaged("the file in it isn't what its checksum says")
    yield made
}

function inflated(packed) {
    try {
        return inflateRawSync(packed, { maxOutputLength: MOST })
    } catch (error) {
        throw error.code === "ERR_BUFFER_TOO_LARGE" ? tooMuch("zip file") : damaged(error.message)
    }
}
