/* The commands that write FIT files of others: edit, join and mend. */
import { existsSync, statSync } from "node:fs"
import { FitError, OutOfMemory } from "../gazhdor.mjs"
import { NotUnpacked } from "./archives.mjs"
import { Input, faultOf } from "./inputs.mjs"
import { NotWritten, Usage, seeNoTerminal, writeWhole } from "./outputs.mjs"
import { shown } from "./progress.mjs"

/* Reads files, and says of a fault in which of them it is. */
class Sources {
    #progress
    #last = null

    constructor(progress) { this.#progress = progress }

    async bytes(path) {
        this.#last = { path, input: new Input({ name: path }, this.#progress) }
        return this.#last.input.bytes()
    }

    told(fault) {
        const { path, input } = this.#last, { kind } = input
        return `${shown(path)}: ${fault}${kind === null ? "" : ` (this is ${kind})`}`
    }

    get path() { return this.#last?.path }
}

async function edit(gazhdor, asked, sources) {
    if (asked.files.length !== 2) throw new Usage("edit: it takes IN and OUT")
    const [from, into] = asked.files
    seeNoTerminal("edit", into)
    const { drop, shift, from: begin, to: end } = asked
    const { bytes, emptied } = gazhdor.edit(await sources.bytes(from), { drop, shift, begin, end })
    await writeWhole(into, bytes)
    const lines = emptied.map(({ message, field, count }) => `emptied: ${shown(message)} ${shown(field)}, ${count} times\n`)
    process.stderr.write(lines.sort().join(""))
}

async function join(gazhdor, asked, sources) {
    if (asked.files.length < 3) throw new Usage("join: it takes two FILEs or more, and OUT")
    const paths = asked.files.slice(0, -1), into = asked.files.at(-1), all = []
    seeNoTerminal("join", into)
    for (const path of paths) all.push(await sources.bytes(path))
    await writeWhole(into, gazhdor.join(all, { one: asked.one }))
}

/* Whether a file is there, which is no device. */
const isThere = path => path !== "-" && existsSync(path) && !isDevice(statSync(path))
const isDevice = told => !told.isFile() && !told.isDirectory()

async function mend(gazhdor, asked, sources) {
    if (asked.files.length > 2) throw new Usage("mend: it takes IN, and OUT")
    const [from = "-", into = "-"] = asked.files
    seeNoTerminal("mend", into)
    if (isThere(into) && !asked.force) throw new Usage(`${shown(into)} is there already: --force replaces it`)
    const data = await sources.bytes(from), made = gazhdor.mend(data, { whole: asked.whole })
    if (!Buffer.from(made.subarray(0, data.length)).equals(data.subarray(0, made.length)) || made.length < data.length)
        process.stderr.write(`${shown(from)}: ${gazhdor.check(data)}; mended: ${made.length} of ${data.length} bytes\n`)
    await writeWhole(into, made)
}

const COMMANDS = { edit, join, mend }

/* The status, and what is said of what is wrong. */
function faultOfChange(error, sources) {
    if (error instanceof Usage || error instanceof NotWritten) throw error
    if (error instanceof FitError || error instanceof NotUnpacked) return [1, sources.told(error.message)]
    if (error instanceof OutOfMemory) return [3, "out of memory"]
    if (error.code !== undefined) return [4, `${shown(sources.path)}: ${faultOf(error)}`]
    if (error instanceof RangeError || error.name === "NotDescribed") return [2, error.message]
    throw error
}

/* Does a command, and returns the status. Where that isn't 0, nothing is written. */
export async function runChange(gazhdor, command, asked, progress) {
    const sources = new Sources(progress)
    try {
        await COMMANDS[command](gazhdor, asked, sources)
        return 0
    } catch (error) {
        const [status, said] = faultOfChange(error, sources)
        progress.clear()
        process.stderr.write(`${command}: ${said}\n`)
        return status
    }
}
