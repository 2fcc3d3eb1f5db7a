/* Calls into the module: bytes are copied into its memory, a call of the proved library is made, and what that made is handed out where it
 * lies, and then freed. */
import { Answer, OutOfMemory, Trapped, WrongModule } from "./answers.mjs"
import { NO_MEMORY } from "./numbers.mjs"

export const VERSION = "0.10.0"

const CALLS = ["check", "table", "to_csv", "show", "messages", "from_csv", "from_messages", "open", "feed", "finish", "close", "alloc", "free", "version"]
const WRITER_CALLS = ["open", "file", "definition", "messages", "finish", "close"].map(name => `writer_${name}`)

/* Beside each call stand 40 bytes of its answer and 16 of its text: where that lies, and its length. */
const TEXT_AT = 40
const PLACE = 56

const NONE = new Uint8Array(0)
const nothing = () => NONE

/* One instance of the module, and its memory. */
export class Core {
    #calls
    #place
    #beside = null
    #trap

    constructor(instance) {
        this.#calls = instance.exports
        this.#seeCalls(CALLS)
        if (!(this.#calls.memory instanceof WebAssembly.Memory)) throw new WrongModule("this is no module of gazhdor: it has no memory")
        const told = this.#version()
        if (told !== VERSION) throw new WrongModule(`the module is of version ${told}, and gazhdor.mjs of version ${VERSION}`)
        this.#place = this.#taken(PLACE)
        if (this.#place === 0n) throw new OutOfMemory()
    }

    #seeCalls(names) {
        const lacks = names.find(name => typeof this.#calls[`gazhdor_${name}`] !== "function")
        if (lacks !== undefined) throw new WrongModule(`this is no module of gazhdor: it has no gazhdor_${lacks}`)
    }

    #version() {
        const at = Number(this.#enter("gazhdor_version"))
        const bytes = new Uint8Array(this.#calls.memory.buffer, at)
        return new TextDecoder().decode(bytes.subarray(0, bytes.subarray(0, 20).indexOf(0)))
    }

    /* Bytes of the module's memory now. It never shrinks. */
    get size() { return this.#calls.memory.buffer.byteLength }

    #enter(name, ...words) {
        if (this.#trap !== undefined) throw this.#trap
        try {
            return this.#calls[name](...words)
        } catch (error) {
            throw this.#trap = new Trapped(name, error)
        }
    }

    #taken(length) { return this.#enter("gazhdor_alloc", BigInt(length)) }
    #free(at) { if (at !== 0n && this.#trap === undefined) this.#enter("gazhdor_free", at) }

    /* Some bytes in the module's memory; 0 where that is refused. */
    #put(bytes) {
        const at = this.#taken(Math.max(bytes.length, 1))
        if (at !== 0n) new Uint8Array(this.#calls.memory.buffer, Number(at), bytes.length).set(bytes)
        return at
    }

    /* What stands beside each call. The memory is another buffer once it has grown. */
    #view() {
        const { buffer } = this.#calls.memory
        if (this.#beside?.buffer !== buffer) this.#beside = new DataView(buffer, Number(this.#place), PLACE)
        return this.#beside
    }

    /* Makes a call, and returns its answer and what `use` makes of the bytes that the call made, where they lie: it keeps none of them, and
     * makes no call. `words` are those after the place of the answer, and before that of the text. */
    #made(name, words, use) {
        let text = 0n
        const before = this.#view()
        before.setBigUint64(TEXT_AT, this.#place, true)
        before.setBigUint64(TEXT_AT + 8, 0n, true)
        this.#enter(name, this.#place, ...words, this.#place + BigInt(TEXT_AT))
        const answer = this.#answer()
        const length = Number(this.#view().getBigUint64(TEXT_AT + 8, true))
        if (length === 0) return [answer, use(NONE)]
        try {
            text = this.#view().getBigUint64(TEXT_AT, true)
            return [answer, use(new Uint8Array(this.#calls.memory.buffer, Number(text), length))]
        } finally {
            this.#free(text)
        }
    }

    #answer() {
        const view = this.#view(), number = at => view.getUint32(at, true) + view.getUint32(at + 4, true) * 2 ** 32
        return new Answer({
            status: view.getUint32(0, true), reason: view.getUint32(4, true), place: number(8), row: number(16), column: number(24), files: number(32),
        })
    }

    /* With some bytes in the memory, what `call` returns of where they are and how many; else that memory was refused. */
    #with(bytes, call, use) {
        const at = this.#put(bytes)
        if (at === 0n) return [new Answer({ status: NO_MEMORY }), use(NONE)]
        try {
            return call(at, BigInt(bytes.length))
        } finally {
            this.#free(at)
        }
    }

    check(bytes) {
        return this.#with(bytes, (at, length) => {
            this.#enter("gazhdor_check", this.#place, at, length)
            return [this.#answer()]
        }, nothing)[0]
    }

    /* A call that makes a text of bytes: table, to_csv, show, messages, from_csv, from_messages. */
    make(name, bytes, use) {
        return this.#with(bytes, (at, length) => this.#made(`gazhdor_${name}`, [at, length], use), use)
    }

    /* Opens a stream, and returns where it is; 0 where memory was refused. */
    open(kind) { return this.#opened("gazhdor_open", kind) }

    #opened(name, ...words) {
        const at = this.#put(new Uint8Array(8))
        if (at === 0n) return 0n
        this.#enter(name, this.#place, at, ...words)
        if (this.#answer().good) return at
        this.#free(at)
        return 0n
    }

    feed(stream, bytes, use) {
        return this.#with(bytes, (at, length) => this.#made("gazhdor_feed", [stream, at, length], use), use)
    }

    finish(stream, use) { return this.#made("gazhdor_finish", [stream], use) }
    close(stream) { this.#closed("gazhdor_close", stream) }

    #closed(name, at) {
        if (this.#trap !== undefined) return
        this.#enter(name, at)
        this.#free(at)
    }

    /* The same of a writer. */
    openWriter() {
        this.#seeCalls(WRITER_CALLS)
        return this.#opened("gazhdor_writer_open")
    }

    finishWriter(writer, use) { return this.#made("gazhdor_writer_finish", [writer], use) }
    closeWriter(writer) { this.#closed("gazhdor_writer_close", writer) }

    /* What a call of a writer answers of some bytes: `file` of the block of a header, `definition` of that of a definition, `messages` of that and
     * the blocks of messages. */
    put(call, writer, bytes, ...more) {
        const words = [], put = (at, length) => {
            words.push(at, length)
            if (more.length > 0) return this.#with(more.shift(), put, nothing)
            this.#enter(`gazhdor_writer_${call}`, this.#place, writer, ...words)
            return [this.#answer()]
        }
        return this.#with(bytes, put, nothing)[0]
    }
}

/* A copy of bytes that lie in a module's memory. */
export function copied(bytes) {
    try {
        return bytes.slice()
    } catch {
        throw new OutOfMemory(`no memory for ${bytes.length} bytes outside the module`)
    }
}

const utf8 = new TextDecoder("utf-8", { ignoreBOM: true })

/* The text of bytes that lie in a module's memory. */
export function decoded(bytes) {
    try {
        return utf8.decode(bytes)
    } catch {
        throw new OutOfMemory(`a text of ${bytes.length} bytes is too long for a string here: take it as bytes, or in pieces`)
    }
}
