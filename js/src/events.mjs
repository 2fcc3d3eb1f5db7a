/* All that files have, in their order: headers, definition messages, messages, ends. */
import { judge } from "./answers.mjs"
import { copied } from "./core.mjs"
import { Walk, messageOf } from "./messages.mjs"
import { AT_FILE, AT_KIND } from "./numbers.mjs"
import { smallPieces } from "./sources.mjs"
import { Pipe, coreOf } from "./streams.mjs"
import { partOf } from "./values.mjs"

/* Of definitions so many bytes are kept: what is made of them takes some thirty times as many. */
const PART = 16, LEAST = 1 << 15
/* What is made of files of so many bytes is kept for the next time, up to so many bytes of blocks, where what is made beside them counts too. */
const SHORT = 1 << 15, MOST = 1 << 20
const RUN = 64, WIDER = 16

/* Good files, which may be read several times: of short ones what was made of them is kept. */
export class Files {
    #core
    #bytes
    #names
    #kept = null

    constructor(gazhdor, bytes, names = null) {
        this.#core = coreOf.get(gazhdor)
        this.#bytes = bytes
        this.#names = names
    }

    * #blocks() {
        const pipe = new Pipe(this.#core, "blocks")
        try {
            for (const piece of smallPieces(this.#bytes)) {
                const [answer, blocks] = pipe.feed(piece, copied)
                judge(answer)
                yield blocks
            }
            const [answer, blocks] = pipe.finish(copied)
            judge(answer)
            yield blocks
        } finally {
            pipe.close()
        }
    }

    /* Blocks, with what follows there on what. */
    * #parts() {
        if (this.#kept !== null) return yield* this.#kept
        const walk = new Walk(undefined, { names: this.#names }, Math.max(LEAST, this.#bytes.length / PART))
        let kept = this.#bytes.length > SHORT ? null : [], room = MOST
        for (const blocks of this.#blocks()) {
            const part = { part: partOf(blocks), runs: walk.runs(blocks, true) }
            room -= part.runs.reduce((sum, { definition, begin, end }) => sum + RUN + (end - begin) * (definition === null ? WIDER : 1), 0)
            if (room < 0) kept = null
            kept?.push(part)
            yield part
        }
        this.#kept = kept
    }

    /* Each event: of a message `message`, of others `kind` and `block`; and `file`, the number of its file. */
    * events() {
        for (const { part, runs } of this.#parts()) {
            for (const { definition, begin, end, length } of runs) {
                for (let at = begin; at < end; at += length) {
                    const file = part.view.getUint32(at + AT_FILE, true)
                    if (definition === null) yield { kind: part.bytes[at + AT_KIND], block: part.bytes.subarray(at, end), file }
                    else yield { message: messageOf({ definition, part, at }), file }
                }
            }
        }
    }

    /* The messages of some numbers. */
    * messages(...numbers) {
        for (const { part, runs } of this.#parts()) {
            for (const { definition, begin, end, length } of runs) {
                if (definition === null || !numbers.includes(definition.number)) continue
                for (let at = begin; at < end; at += length) yield messageOf({ definition, part, at })
            }
        }
    }
}
