/* What the library found, and the errors that say so. */
import { BLOCK, CLOSED, GOOD, NO_KIND, NO_MEMORY, REFUSED, TEXT, TRUNCATED, UNWRITABLE } from "./numbers.mjs"

const PLACED = [REFUSED, TRUNCATED, BLOCK]
const TEXTS = {
    [GOOD]: "ok", [NO_MEMORY]: "out of memory", [UNWRITABLE]: "no file has such rows", [CLOSED]: "closed", [NO_KIND]: "no such kind",
}

const EXPLANATIONS = {
    [NO_MEMORY]: "Memory was refused, which says nothing of the bytes.",
    [UNWRITABLE]: "The rows are those of files that have no bytes: one is too long, or has zeros in place of a checksum of 0.",
    [CLOSED]: "The stream is closed.",
    [NO_KIND]: "There is no such kind of stream.",
}

const NO_SUCH_FILES = "The blocks are those of files that have no bytes: one is too long, or has zeros in place of a checksum of 0."

/* What each reason says of the byte, as profile/reasons.tsv of the project has it. */
export const REASONS = {
    HeaderSize: "begins a header of 0 to 11 or 13 bytes",
    Protocol: "has a major version above 2",
    NoFit: "leaves 1 to 5 bytes of the data section that no records can fill",
    Signature: "isn't that of .FIT",
    HeaderSum: "begins neither the header checksum (the protocol's CRC of the header) nor two zeros",
    ReservedBit: "is a normal record header with bit 4 set, or one of a data message with bit 5 set",
    UndefinedLocal: "is the record header of a data message whose local message type isn't defined",
    Overrun: "begins a message, or is a number of fields, for which too few bytes of the data section remain",
    Architecture: "is neither 0 nor 1",
    FileSum: "isn't that of the closing checksum (the protocol's CRC of the file)",
    TooManyFiles: "follows the 16,777,215th file of a chain",
}

/* What each reason says of the block, as profile/block_reasons.tsv of the project has it. */
export const BLOCK_REASONS = {
    Cut: "isn't whole: its length isn't a multiple of 8 from 24 on, or goes past the end; or it is missing there, before a file has begun or has ended",
    Kind: "is of a kind that can't stand there",
    Header: "is a header of a size, a protocol version, a profile version or a kind of checksum that no file has",
    Local: "has a local message type above 15, or above 3 beside a time offset",
    Architecture: "has an architecture that is neither 0 nor 1",
    Entries: "is a definition that its entries don't fill as its counts say",
    Size: "has a field of more than 255 bytes, or with items of another width than a reader gives them",
    Offset: "has a time offset of 32 to 254",
    Undefined: "is a message whose local message type isn't defined",
    Items: "is a message that ends before the items of its fields do",
    NoFile: "comes before a file has begun",
    Files: "begins one file more than a chain may have",
    Full: "is a message of 255 fields that needs a timestamp",
    Time: "is a message that needs a timestamp, and whose time is the number that stands for none",
    Described: "is a message of which a developer field can't be described with its base type, name and unit",
    TooLong: "would make the data of its file longer than a file may have",
}

/* What a call found. It is `good` where the bytes are a FIT file or several, one after another; as text it is the finding. */
export class Answer {
    constructor(told) {
        this.status = told.status
        this.good = told.status === GOOD
        this.files = this.good ? told.files : 0
        this.place = PLACED.includes(told.status) ? told.place : null
        const reasons = told.status === REFUSED ? REASONS : told.status === BLOCK ? BLOCK_REASONS : null
        this.reason = reasons === null ? null : Object.keys(reasons)[told.reason - 1] ?? null
        this.block = told.status === BLOCK ? told.row : null
        this.row = told.status === TEXT ? told.row : null
        this.column = told.status === TEXT && told.column !== 0 ? told.column : null
        Object.freeze(this)
    }

    /* The finding in words, or null where it is good. */
    get explanation() {
        if (this.block !== null) return `Block ${this.block}, which begins at ${this.place}, ${BLOCK_REASONS[this.reason]}.`
        if (this.reason !== null) return `The byte at ${this.place} ${REASONS[this.reason]}.`
        if (this.place !== null) return `The bytes end at ${this.place}, before the file does.`
        if (this.column !== null) return `The cell in row ${this.row}, column ${this.column} isn't allowed there.`
        if (this.row !== null) return `Row ${this.row} isn't allowed there.`
        return EXPLANATIONS[this.status] ?? null
    }

    toString() {
        if (this.block !== null) return `block ${this.block} at ${this.place} refused: ${this.reason}`
        if (this.reason !== null) return `refused at byte ${this.place}: ${this.reason}`
        if (this.place !== null) return `truncated at byte ${this.place}`
        if (this.row !== null) return this.column === null ? `row ${this.row} refused` : `row ${this.row} column ${this.column} refused`
        return TEXTS[this.status]
    }
}

/* The bytes or the text are no FIT file. `before` is what a call of a Stream made before it found that, and else null. */
export class FitError extends Error {
    constructor(answer) {
        super(answer.toString())
        this.answer = answer
        this.place = answer.place
        this.reason = answer.reason
        this.row = answer.row
        this.column = answer.column
        this.before = null
    }

    get explanation() { return this.answer.explanation }
}

/* The byte at `place` is the first that cannot belong to any FIT file; `reason` says why. */
export class Refused extends FitError {}

/* The bytes end too soon, at `place`. */
export class Truncated extends FitError {}

/* A text that `fromCsv` can't read, at `row` and `column`, or whose files have no bytes; then these are null. */
export class TextRefused extends FitError {}

/* Blocks of which `fromBlocks` makes no file: the block `block`, counted from 0, which begins at `place`, can't stand where it is, and `reason` says
 * why; or they say files that have no bytes, then these are null. */
export class BlocksRefused extends FitError {
    constructor(answer) {
        super(answer)
        this.block = answer.block
        if (answer.status === UNWRITABLE) this.message = "no file has such blocks"
    }

    get explanation() { return this.block === null ? NO_SUCH_FILES : super.explanation }
}

/* A value that a field can't have: `field` is what the field is called, `value` the value, `least` and `most` what it can have, if that is a
 * number. */
export class WrongValue extends RangeError {
    constructor(what, { field, value, least = null, most = null }) {
        super(`${field}: ${what}`)
        this.field = field
        this.value = value
        this.least = least
        this.most = most
    }
}

/* A message can't be put into a file: its developer field `field` isn't described where it comes from, and is in this file, or can't be described. */
export class NotDescribed extends Error {
    constructor(field, isTold) {
        const what = "can't be described: its name or its unit can't be written, or another of its numbers has others"
        super(`the developer field ${field} ${isTold ? what : "isn't described where it comes from, and is in this file"}`)
        this.field = field
    }
}

/* The engine gave no more memory, to the module or for what it made. This says nothing of the bytes. */
export class OutOfMemory extends RangeError {
    constructor(text = "out of memory") { super(`gazhdor: ${text}`) }
}

/* Nearly all of very many cells of the columns of all fields would be empty: name the fields, or take the messages. */
export class TooManyCells extends RangeError {}

/* The module stopped within a call, which it never should. Its memory is as it was left, so each later call says the same, and so do its
 * streams: `open` another. */
export class Trapped extends Error {
    constructor(call, cause) {
        super(`gazhdor: the module stopped within ${call} (${cause?.message ?? cause}): open another one`, { cause })
    }
}

/* What was opened is no module of gazhdor, or one of another version. */
export class WrongModule extends Error {}

for (const kind of [FitError, Refused, Truncated, TextRefused, BlocksRefused, WrongValue, NotDescribed, OutOfMemory, TooManyCells, Trapped, WrongModule])
    Object.defineProperty(kind.prototype, "name", { value: kind.name, configurable: true, writable: true })

/* Throws what is wrong; of what may be had in part, only that memory was refused. */
export function judge(answer, partial = false) {
    if (answer.status === NO_MEMORY) throw new OutOfMemory()
    if (answer.good || partial) return
    if (answer.status === REFUSED) throw new Refused(answer)
    if (answer.status === TRUNCATED) throw new Truncated(answer)
    if (answer.status === TEXT || answer.status === UNWRITABLE) throw new TextRefused(answer)
    throw new Error(`gazhdor: ${answer}`)
}

/* The same of an answer to blocks. */
export function judgeBlocks(answer) {
    if (answer.status === BLOCK || answer.status === UNWRITABLE) throw new BlocksRefused(answer)
    judge(answer)
}
