/* The commands, on files one after another. */
import { readFileSync } from "node:fs"
import { EXTRA, FitError, Names, OutOfMemory, Stream } from "../gazhdor.mjs"
import { Track } from "../src/gpx.mjs"
import { NoFitFile, NotUnpacked } from "./archives.mjs"
import { Input, faultOf, pathsOf } from "./inputs.mjs"
import { NotWritten, Output, Usage, seeNoTerminal, seeOtherFiles } from "./outputs.mjs"
import { shown } from "./progress.mjs"

const KINDS = { check: "check", show: "show", table: "table", "to-csv": "toCsv", json: "messages" }
const named = kind => (kind === null ? "" : ` (this is ${kind})`)
const fault = text => process.stderr.write(text)

/* A value as JSON has it, whole numbers with all their digits. */
function textOf(value) {
    if (Array.isArray(value)) return `[${value.map(textOf).join(",")}]`
    if (typeof value === "bigint") return String(value)
    if (Object.is(value, -0)) return "-0"
    const text = JSON.stringify(value instanceof Uint8Array ? `0x${Buffer.from(value).toString("hex").toUpperCase()}` : value)
    return typeof value === "string" ? text.replace(/[\x85\u2028\u2029]/g, end => `\\u${end.charCodeAt(0).toString(16).padStart(4, "0")}`) : text
}

/* A message as a line of JSON, as the command of Python has it. */
export function lineOf(message) {
    const { fields: _, units, totalCycles, accumulatedPower, ...told } = message.toJSON()
    const counted = { total_cycles: message.totalCycles, accumulated_power: message.accumulatedPower }
    const values = [...message].map(([name, value]) => `${JSON.stringify(name)}:${textOf(value)}`)
    const front = Object.entries({ ...told, ...counted }).filter(([name, value]) => value !== null || name === "time")
    const begin = front.map(([name, value]) => `${JSON.stringify(name)}:${textOf(value)}`)
    const line = `{${begin.join(",")},"fields":{${values.join(",")}},"units":${JSON.stringify(units)}}`
    // Some programs take these for the end of a line.
    return `${line.replace(/[\x85\u2028\u2029]/g, end => `\\u${end.charCodeAt(0).toString(16).padStart(4, "0")}`)}\n`
}

/* The same with values ready to use, times as texts. */
export function readyLineOf(message) {
    const { number, file, place, local, time } = message, text = value => (value instanceof Date ? value.toISOString().replace(".000Z", "Z") : value)
    const fields = Object.entries(message.ready()).map(([name, value]) => `${JSON.stringify(name)}:${textOf(text(value))}`)
    const front = Object.entries({ message: message.name ?? `message_${number}`, number, file, place, local, time: text(time) })
    return `{${front.map(([name, value]) => `${JSON.stringify(name)}:${textOf(value)}`).join(",")},"fields":{${fields.join(",")}}}\n`
}

/* The names that json uses beside those of the profile. */
function namesOf({ tokens }) {
    let found
    for (const { name, value } of tokens.filter(({ name }) => name === "extra" || name === "names")) {
        const more = name === "extra" ? EXTRA : namesOfText(value)
        found = found === undefined ? more : found.with(more)
    }
    return found
}

function namesOfText(path) {
    try {
        return new Names(readFileSync(path, "utf8"))
    } catch (error) {
        throw new Usage(`--names: ${error.code === undefined ? error.message : `${shown(path)}: ${faultOf(error)}`}`)
    }
}

/* Does one of the commands on files. */
class Reader {
    #gazhdor
    #command
    #asked
    #progress
    #output
    #names

    constructor(gazhdor, command, asked, progress) {
        this.#names = namesOf(asked)
        this.#gazhdor = gazhdor
        this.#command = command
        this.#asked = asked
        this.#progress = progress
        this.#output = new Output(asked.output, progress)
    }

    /* What is made of the pieces of a file, as they come, and how many files it is. */
    async #streamed(input) {
        const kind = KINDS[this.#command], options = kind === "messages" ? { words: !this.#asked.numbers, names: this.#names } : undefined
        const stream = this.#command === "gpx" ? new Track(this.#gazhdor) : new Stream(this.#gazhdor, kind, options)
        const line = this.#asked.ready ? readyLineOf : lineOf
        const put = made => (kind === "check" ? undefined : this.#output.write(Array.isArray(made) ? made.map(line).join("") : made))
        try {
            for await (const piece of input) await put(stream.feed(piece))
            await put(stream.finish())
        } catch (error) {
            if (error instanceof FitError) await put(error.before)
            throw error
        } finally {
            stream.close()
        }
        return stream.files
    }

    async #made(name, input) {
        if (this.#command === "from-csv") return this.#output.write(this.#gazhdor.fromCsv(await input.bytes()))
        const files = await this.#streamed(input)
        if (this.#command === "check") await this.#checked(name, { good: true, files, place: null, reason: null, is: null, text: "ok" })
    }

    /* Writes what was found of a file. */
    async #checked(name, told) {
        if (this.#asked.json) await this.#output.write(`${JSON.stringify({ file: name, ...told })}\n`)
        else if (told.text !== undefined) {
            const count = told.good ? `, ${told.files} file${told.files > 1 ? "s" : ""}` : ""
            await this.#output.write(`${shown(name)}: ${told.text}${count}${named(told.is)}\n`)
        }
    }

    /* Does the command on one file, and returns the status. */
    async done(path) {
        const input = new Input(path, this.#progress, this.#command !== "from-csv")
        try {
            await this.#made(path.name, input)
            return 0
        } catch (error) {
            if (error instanceof FitError) return this.#refused(path, error.answer, this.#command === "from-csv" ? input.kindOfText : input.kind)
            if (error instanceof NoFitFile && path.found) return 0
            if (error instanceof NotUnpacked) return this.#failed(path, 1, error.message)
            if (error instanceof OutOfMemory) return this.#failed(path, 3, "out of memory")
            if (error instanceof NotWritten || (error.code === undefined && path.error === undefined)) throw error
            return this.#failed(path, 4, path.error ?? faultOf(error))
        }
    }

    async #refused({ name }, answer, is) {
        if (this.#command !== "check") return this.#said(name, 1, `${answer}${named(is)}`)
        const { place, reason } = answer
        await this.#checked(name, { good: false, files: 0, place, reason, is, text: `${answer}` })
        return 1
    }

    async #failed({ name }, status, error) {
        if (this.#command === "check") await this.#checked(name, { good: false, error })
        return this.#said(name, status, error)
    }

    #said(name, status, error) {
        this.#progress.clear()
        fault(`${shown(name)}: ${error}\n`)
        return status
    }

    close() { this.#output.close() }
}

/* Does a command on all files that the words name, and returns the worst status. */
export async function runReader(gazhdor, command, asked, progress) {
    if (command === "from-csv") seeNoTerminal(command, asked.output)
    seeOtherFiles(asked.output, asked.files)
    const reader = new Reader(gazhdor, command, asked, progress)
    let worst = 0
    for (const path of pathsOf(asked.files, asked.recursive)) worst = Math.max(worst, await reader.done(path))
    progress.clear()
    reader.close()
    return worst
}
