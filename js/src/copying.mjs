/* Puts events into a writer, and messages of one definition that follow one another together. */
import { Amounts } from "./distances.mjs"
import { insideOf } from "./messages.mjs"
import { EXTRA } from "./names.mjs"
import { AT_MESSAGE_LOCAL, DEFINITION, FILE_HEADER } from "./numbers.mjs"
import { Writer } from "./writer.mjs"

const MOST = 1 << 16 // So many bytes are put at once.

export class Copier {
    #writer
    #definition = null
    #local = null
    #blocks = new Uint8Array(MOST)
    #length = 0
    #amounts = new Amounts()

    constructor(gazhdor) { this.#writer = new Writer(gazhdor, { names: EXTRA, learns: false }) }

    take(event) {
        if (event.message === undefined) this.event(event)
        else this.message(event.message)
    }

    /* A header, a definition message or the end of a file, which comes with the next header or with the end of all. */
    event({ kind, block }) {
        this.flush()
        if (kind === FILE_HEADER) {
            this.#writer.begin(block)
            this.#amounts = new Amounts()
        } else if (kind === DEFINITION) this.#writer.putDefinition(block)
    }

    message(message) {
        const { definition, part, at } = insideOf(this.#amounts.kept(message)), length = definition.messageLength, local = part.bytes[at + AT_MESSAGE_LOCAL]
        if (definition !== this.#definition || local !== this.#local || this.#length + length > this.#blocks.length) this.flush()
        if (length > this.#blocks.length) this.#blocks = new Uint8Array(length)
        this.#definition = definition
        this.#local = local
        const block = part.bytes.subarray(at, at + length)
        this.#amounts.take(definition, block)
        this.#blocks.set(block, this.#length)
        this.#length += length
    }

    /* A message that is made of values. */
    write(name, values) {
        this.flush()
        this.#writer.write(name, values)
    }

    flush() {
        const length = this.#length
        this.#length = 0
        if (length > 0) this.#writer.put(this.#definition, this.#blocks.subarray(0, length))
    }

    finish() {
        this.flush()
        return this.#writer.finish()
    }

    close() { this.#writer.close() }
}
