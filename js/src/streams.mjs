/* Bytes that come in pieces: what is made of each piece. */
import { FitError, OutOfMemory, judge } from "./answers.mjs"
import { copied, decoded } from "./core.mjs"
import { Walk } from "./messages.mjs"
import { seeNames } from "./names.mjs"
import { STREAM_CHECK, STREAM_MESSAGES, STREAM_SHOW, STREAM_TABLE, STREAM_TO_CSV } from "./numbers.mjs"
import { bytesOf } from "./sources.mjs"

const KINDS = {
    check: STREAM_CHECK, show: STREAM_SHOW, table: STREAM_TABLE, toCsv: STREAM_TO_CSV, blocks: STREAM_MESSAGES, messages: STREAM_MESSAGES,
}

/* A stream that nobody closed is closed once nothing uses it any more. Where the module traps there, the next call says so. */
const forgotten = new FinalizationRegistry(({ core, at }) => {
    try {
        core.close(at)
    } catch {}
})

/* A stream of the library, of one of its kinds. */
export class Pipe {
    #core
    #at

    constructor(core, kind) {
        this.#core = core
        this.#at = core.open(KINDS[kind])
        if (this.#at === 0n) throw new OutOfMemory()
        forgotten.register(this, { core, at: this.#at }, this)
    }

    /* What was found, and what `use` makes of what the piece completes, where that lies. */
    feed(bytes, use) { return this.#core.feed(this.#at, bytes, use) }
    finish(use) { return this.#core.finish(this.#at, use) }

    close() {
        forgotten.unregister(this)
        this.#core.close(this.#at)
    }
}

/* What makes a kind's result of the bytes of the library, where they lie. */
function maker(kind, only, told) {
    if (kind === "blocks") return copied
    if (kind !== "messages") return decoded
    const walk = new Walk(only, told)
    return bytes => walk.messages(bytes)
}

/* Where a Gazhdor has its module. */
export const coreOf = new WeakMap()

/* FIT files that come in pieces. It keeps what the next piece needs, and no more for more bytes. */
export class Stream {
    #make
    #pipe
    #fault = null
    #files = 0

    constructor(gazhdor, kind, { only, words = false, names } = {}) {
        if (!Object.hasOwn(KINDS, kind)) throw new TypeError(`a stream is one of ${Object.keys(KINDS).join(", ")}, and not ${String(kind)}`)
        if (only !== undefined && kind !== "messages") throw new TypeError(`a stream of ${kind} has no messages of which there may be only some`)
        if (words && kind !== "messages") throw new TypeError(`a stream of ${kind} has no messages whose numbers may be words`)
        if (names !== undefined && kind !== "messages") throw new TypeError(`a stream of ${kind} has no messages whose fields may have names`)
        const core = coreOf.get(gazhdor)
        if (core === undefined) throw new TypeError("a stream is of what `open` gives")
        this.#make = maker(kind, only, { words, names: seeNames(names) })
        this.#pipe = new Pipe(core, kind)
    }

    /* How many files have ended so far. */
    get files() { return this.#files }

    /* Takes the next bytes, of any length, and returns what they complete. */
    feed(piece) {
        const bytes = bytesOf(piece)
        return this.#made(pipe => pipe.feed(bytes, this.#make))
    }

    /* Says that no more bytes come, closes the stream, and returns what is still to come. */
    finish() {
        const made = this.#made(pipe => pipe.finish(this.#make))
        this.close()
        return made
    }

    close() {
        const pipe = this.#pipe
        this.#pipe = null
        pipe?.close()
    }

    /* What a call made, where its answer is good; else the fault is kept, and the stream closed. Where the call itself throws, what it made is
     * lost, so the stream is of no more use, and says the same again. */
    #made(call) {
        if (this.#fault !== null) throw this.#fault
        if (this.#pipe === null) throw new TypeError("the stream is closed")
        let answer, made
        try {
            [answer, made] = call(this.#pipe)
            this.#files = answer.good ? answer.files : this.#files
            judge(answer)
        } catch (fault) {
            this.#fault = fault
            this.close()
            if (fault instanceof FitError) fault.before = made
            throw fault
        }
        return made
    }
}

if (Symbol.dispose !== undefined) Stream.prototype[Symbol.dispose] = Stream.prototype.close

/* The items to hand on of what a call of a stream made: messages one by one, texts and blocks as they are, none that is empty. */
const items = made => (Array.isArray(made) ? made : made.length > 0 ? [made] : [])

/* What is between the two ends of a pair of streams: items that were made and not yet taken, and a fault that comes after them. */
class Between {
    ready = []
    fault = undefined
    ended = false
    #wake = () => {}
    #drained = () => {}

    /* Items are there, or the end. */
    tell() { this.#wake() }
    wait() { return new Promise(wake => { this.#wake = wake }) }

    /* All items were taken. */
    take() {
        const taken = this.ready
        this.ready = []
        this.#drained()
        return taken
    }

    emptied() { return this.ready.length === 0 || this.ended ? undefined : new Promise(drained => { this.#drained = drained }) }

    end(fault) {
        this.ended = true
        this.fault ??= fault
        this.#wake()
        this.#drained()
    }
}

/* The end that is read: all items in their order, and then the fault. */
function readable(between, stream) {
    return new ReadableStream({
        async pull(controller) {
            while (between.ready.length === 0 && !between.ended) await between.wait()
            if (between.ready.length > 0) for (const item of between.take()) controller.enqueue(item)
            else if (between.fault !== undefined) controller.error(between.fault)
            else controller.close()
        },
        cancel(reason) {
            stream.close()
            between.end(reason ?? new Error("nobody reads any more"))
        },
    }, { highWaterMark: 0 })
}

/* A pair of streams for `pipeThrough`, as a TransformStream is: bytes go in, and come out as the messages, the texts or the blocks that they
 * make. A stream that `passes` lets the bytes through. At a fault all that came before it comes out first; the end that is written fails at
 * once, so that no more is sent. */
export function transform(stream, passes = false) {
    const between = new Between()
    const step = async (make, passed) => {
        if (between.fault !== undefined) throw between.fault
        try {
            const made = make()
            between.ready.push(...items(passes ? passed : made))
        } catch (fault) {
            for (const item of items(fault.before ?? [])) between.ready.push(item)
            between.end(fault)
            throw fault
        }
        between.tell()
        await between.emptied()
    }
    const writable = new WritableStream({
        write: piece => step(() => stream.feed(piece), [piece]),
        async close() {
            await step(() => stream.finish(), [])
            between.end()
        },
        abort(reason) {
            stream.close()
            between.end(reason ?? new Error("the bytes were cut off"))
        },
    })
    return { readable: readable(between, stream), writable }
}
