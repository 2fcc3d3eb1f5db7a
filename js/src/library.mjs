/* The calls, each with the bytes of a file or a chain of files. */
import { FitError, judge, judgeBlocks } from "./answers.mjs"
import { Columns } from "./columns.mjs"
import { Core, copied, decoded } from "./core.mjs"
import { edited } from "./edits.mjs"
import { Track, gpxOf } from "./gpx.mjs"
import { joinedFiles } from "./joins.mjs"
import { mended } from "./mend.mjs"
import { Walk } from "./messages.mjs"
import { seeNames } from "./names.mjs"
import { when } from "./plain.mjs"
import { PIECE, bytesOf, pieces } from "./sources.mjs"
import { Pipe, Stream, coreOf, transform } from "./streams.mjs"
import { completed } from "./wholes.mjs"

/* The text of a call, of what comes before a fault where that is asked for. */
function converted(core, call, source, { partial = false, encoded = false } = {}) {
    const [answer, made] = core.make(call, bytesOf(source), bytes => [encoded ? copied(bytes) : decoded(bytes)])
    judge(answer, partial)
    return made[0]
}

/* An instance of the module. It works on one call at a time, and keeps nothing of what it is given but what its streams need. */
export class Gazhdor {
    #core

    constructor(instance) {
        this.#core = new Core(instance)
        coreOf.set(this, this.#core)
    }

    /* Whether some bytes are a FIT file or several, one after another: it throws nothing where they aren't good, the answer says it. */
    check(source) {
        const bytes = bytesOf(source)
        const answer = bytes.length <= PIECE ? this.#core.check(bytes) : this.#checked(bytes)
        judge(answer, true)
        return answer
    }

    /* As `check` of all bytes, which are copied piece by piece. */
    #checked(bytes) {
        const pipe = new Pipe(this.#core, "check"), nothing = () => {}
        try {
            for (const piece of pieces(bytes)) {
                const [answer] = pipe.feed(piece, nothing)
                if (!answer.good) return answer
            }
            return pipe.finish(nothing)[0]
        } finally {
            pipe.close()
        }
    }

    tableText(source, options) { return converted(this.#core, "table", source, options) }
    toCsv(source, options) { return converted(this.#core, "to_csv", source, options) }
    show(source, options) { return converted(this.#core, "show", source, options) }

    /* The track as GPX 1.1. */
    gpx(source, { partial = false, encoded = false } = {}) {
        const text = gpxOf(this, bytesOf(source), { partial })
        return encoded ? new TextEncoder().encode(text) : text
    }

    /* The bytes of the FIT file or files that a CSV text describes. */
    fromCsv(text) {
        const bytes = typeof text === "string" ? new TextEncoder().encode(text) : bytesOf(text)
        const [answer, made] = this.#core.make("from_csv", bytes, copied)
        judge(answer)
        return made
    }

    /* All that the files have as blocks of bytes, one after another: docs/BLOCKS.md of the project. */
    blocks(source, { partial = false } = {}) { return converted(this.#core, "messages", source, { partial, encoded: true }) }

    /* The bytes of the FIT file or files that blocks say. */
    fromBlocks(blocks) {
        const [answer, made] = this.#core.make("from_messages", bytesOf(blocks), copied)
        judgeBlocks(answer)
        return made
    }

    /* A good file, or chain of files, of one that was broken off or is damaged. Where there is no good record, its fault is thrown. With `whole`
     * a file that has records and no session gets what it lacks. */
    mend(source, { whole = false } = {}) {
        const bytes = bytesOf(source), answer = this.check(bytes), made = answer.good ? copied(bytes) : mended(this.#core, bytes)
        if (!answer.good && (made.length === 0 || !this.check(made).good)) judge(answer)
        return whole ? completed(this, made) : made
    }

    /* The bytes of a file, or a chain of files, with changes, and how many values were emptied of each field. */
    edit(source, changes) { return edited(this, bytesOf(source), changes) }

    /* Several files as a chain or, with `one`, as one activity. */
    join(sources, { one = false } = {}) { return joinedFiles(this, [...sources].map(bytesOf), one) }

    /* An object for each record message. */
    table(source, options) {
        const rows = this.#each("table", source, options, text => text.split("\n").slice(0, -1))
        return rowsOf(rows)
    }

    /* A Message for each data message, or for those that are asked for; with `ready` an object of its values. */
    messages(source, options = {}) {
        const walk = new Walk(options.only, { words: options.words, names: seeNames(options.names) })
        const made = blocks => walk.messages(blocks)
        return this.#each("messages", source, options, options.ready ? blocks => made(blocks).map(message => message.ready()) : made)
    }

    /* What is made of all bytes, piece by piece. Without `partial` a fault is thrown at once, else after what comes before it. */
    #each(kind, source, { partial = false } = {}, make) {
        const bytes = bytesOf(source), read = kind === "table" ? view => make(decoded(view)) : make
        if (!partial) judge(this.check(bytes))
        return each(new Pipe(this.#core, kind), bytes, read)
    }

    /* A typed array for each of some fields of the messages of one name or number. */
    columns(source, message, fields, { partial = false, words = false, ready = false, names } = {}) {
        if (typeof message !== "string" && typeof message !== "number") throw new TypeError("a message is named by its name or its number")
        const told = { words: words || ready, names: seeNames(names) }, bytes = bytesOf(source)
        const walk = new Walk(message, told), columns = new Columns(message, fields, { ready, names: told.names })
        try {
            for (const _ of each(new Pipe(this.#core, "blocks"), bytes, blocks => [columns.take(blocks, walk.runs(blocks))]));
        } catch (error) {
            if (!partial || !(error instanceof FitError)) throw error
        }
        return columns.done()
    }

    /* A pair of streams, for `pipeThrough`. */
    stream(kind, options) { return transform(kind === "gpx" ? new Track(this) : new Stream(this, kind, options), kind === "check") }

    /* Bytes of the module's memory now. It grows with the longest call, and never shrinks: what isn't used any more is freed as a whole. */
    get size() { return this.#core.size }
}

/* Yields what is made of each piece of some bytes, one by one, and throws a fault after what comes before it. */
function* each(pipe, bytes, make) {
    try {
        for (const piece of pieces(bytes)) {
            const [answer, made] = pipe.feed(piece, make)
            yield* made
            judge(answer)
        }
        const [answer, made] = pipe.finish(make)
        yield* made
        judge(answer)
    } finally {
        pipe.close()
    }
}

/* Rows of the table, whose first line has the names. */
function* rowsOf(lines) {
    const { value } = lines.next()
    const names = value?.split(",")
    for (const line of lines) {
        const cells = line.split(","), row = {}
        for (const [k, name] of names.entries()) row[name] = cells[k] === "" ? null : name === "timestamp" ? timeOf(cells[k]) : Number(cells[k])
        yield row
    }
}

const timeOf = cell => (cell.endsWith("Z") ? new Date(cell) : when(Number(cell.slice("system+".length))))

export { Stream }
