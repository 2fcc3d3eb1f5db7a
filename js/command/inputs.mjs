/* What is read: files by their paths, those of folders, standard input; packed ones are unpacked. */
import { createReadStream, fstatSync, readdirSync, statSync } from "node:fs"
import { join } from "node:path"
import { gunzipped, unzipped } from "./archives.mjs"
import { FRONT, isFit, kindOf } from "./kinds.mjs"

const ENDINGS = [".fit", ".fit.gz", ".zip"]

/* What the system says of a call that failed. */
export function faultOf(error) {
    const told = /^[A-Z0-9]+: (.*?)(?:, [a-z]+(?: '|$).*)?$/s.exec(error.message)?.[1]
    if (error.code === "EISDIR") return "Is a directory"
    return told === undefined ? error.message : told[0].toUpperCase() + told.slice(1)
}

const isFolder = name => {
    try {
        return statSync(name).isDirectory()
    } catch {
        return false
    }
}

/* The files of these names, in their order; with `recursive` those of folders, in the order of their names. `error` says why a folder can't be
 * read, `found` that nobody named the file itself. */
export function* pathsOf(names, recursive) {
    for (const name of names.length === 0 ? ["-"] : names) {
        if (!recursive || name === "-" || !isFolder(name)) {
            yield { name }
            continue
        }
        let isEmpty = true
        for (const path of inFolder(name)) {
            isEmpty = false
            yield path
        }
        if (isEmpty) yield { name, error: "there is no FIT file in it" }
    }
}

/* The FIT files in a folder and those in it. Links to folders aren't followed, and what is no file, as a pipe, is passed over. */
function* inFolder(top) {
    const left = [{ name: top, isFolder: true }]
    while (left.length > 0) {
        const { name, isFolder } = left.pop()
        if (!isFolder) {
            yield { name, found: true }
            continue
        }
        try {
            const inside = readdirSync(name, { withFileTypes: true }).sort((one, other) => (one.name < other.name ? -1 : 1))
            left.push(...inside.map(entry => ({ name: join(name, entry.name), isFolder: entry.isDirectory() })).filter(isWanted).reverse())
        } catch (error) {
            yield { name, error: faultOf(error) }
        }
    }
}

function isWanted({ name, isFolder }) {
    if (isFolder) return true
    try {
        return ENDINGS.some(ending => name.toLowerCase().endsWith(ending)) && statSync(name).isFile()
    } catch {
        return false
    }
}

/* The pieces of a file or of standard input, as they come. */
async function* piecesOf(name, progress) {
    if (name !== "-" && isFolder(name)) throw Object.assign(new Error("Is a directory"), { code: "EISDIR" })
    const stream = name === "-" ? process.stdin : createReadStream(name, { highWaterMark: 65536 })
    progress.begin(name, sizeOf(name))
    for await (const piece of stream) yield piece
}

function sizeOf(name) {
    try {
        const told = name === "-" ? fstatSync(0) : statSync(name)
        return told.isFile() ? told.size : null
    } catch {
        return null
    }
}

/* The pieces of what is given in pieces, of which the first has at least two bytes, unless there aren't so many. */
async function* begun(pieces) {
    let first = Buffer.alloc(0)
    for await (const piece of pieces) {
        if (first === null) yield piece
        else {
            first = Buffer.concat([first, piece])
            if (first.length < 2) continue
            yield first
            first = null
        }
    }
    if (first !== null && first.length > 0) yield first
}

/* A file that is asked for: its bytes, unpacked, are gone through once. */
export class Input {
    #path
    #progress
    #packed

    constructor(path, progress, packed = true) {
        this.front = Buffer.alloc(0) // its first bytes
        this.#path = path
        this.#progress = progress
        this.#packed = packed
    }

    async *#unpacked() {
        const pieces = begun(piecesOf(this.#path.name, this.#progress)), first = await pieces.next()
        const all = (async function* () {
            if (!first.done) yield first.value
            yield* pieces
        })()
        const mark = this.#packed && !first.done ? first.value.toString("latin1", 0, 2) : ""
        if (mark === "\x1f\x8b" || mark === "PK") this.#progress.forgetSize()
        yield* mark === "\x1f\x8b" ? gunzipped(all) : mark === "PK" ? unzipped(all) : all
    }

    async *[Symbol.asyncIterator]() {
        if (this.#path.error !== undefined) throw new Error(this.#path.error)
        for await (const piece of this.#unpacked()) {
            if (this.front.length < FRONT) this.front = Buffer.concat([this.front, piece.subarray(0, FRONT - this.front.length)])
            this.#progress.step(piece.length)
            yield piece
        }
    }

    async bytes() {
        const parts = []
        for await (const piece of this) parts.push(piece)
        return Buffer.concat(parts)
    }

    /* What it is, where it is known to be no FIT file. */
    get kind() { return kindOf(this.front) }

    /* What it is, where it is known to be no CSV text. */
    get kindOfText() {
        const kind = isFit(this.front) ? "a FIT file" : this.kind
        return kind === "text" ? null : kind
    }
}
