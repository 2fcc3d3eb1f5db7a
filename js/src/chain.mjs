/* Files in the making, which a writer of the library keeps: messages are put into them one after another. */
import { OutOfMemory, judge, judgeBlocks } from "./answers.mjs"
import { copied } from "./core.mjs"

/* A writer that nobody closed is closed once nothing uses it any more. Where the module traps there, the next call says so. */
const forgotten = new FinalizationRegistry(({ core, at }) => {
    try {
        core.closeWriter(at)
    } catch {}
})

export class Chain {
    #core
    #at

    constructor(core) {
        this.#core = core
        this.#at = core.openWriter()
        if (this.#at === 0n) throw new OutOfMemory()
        forgotten.register(this, { core, at: this.#at }, this)
    }

    /* Begins a file by the block of a header; the file before it ends. */
    begin(header) { judgeBlocks(this.#core.put("file", this.#at, header)) }

    /* Puts a definition message as its block has it. */
    define(definition) { judgeBlocks(this.#core.put("definition", this.#at, definition)) }

    /* Puts messages by the block of their definition, and a definition message where they need one; what was found. */
    put(definition, blocks) { return this.#core.put("messages", this.#at, definition, blocks) }

    /* The bytes of all files. */
    finish() {
        const [answer, bytes] = this.#core.finishWriter(this.#at, copied)
        judgeBlocks(answer)
        judge(answer)
        return bytes
    }

    close() {
        forgotten.unregister(this)
        this.#core.closeWriter(this.#at)
    }
}
