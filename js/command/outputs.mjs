/* What is written: to standard output, or to the file of --output. */
import { chmodSync, closeSync, existsSync, fsyncSync, openSync, realpathSync, renameSync, rmSync, statSync, writeSync } from "node:fs"
import { randomBytes } from "node:crypto"
import { dirname, join } from "node:path"
import { shown } from "./progress.mjs"

/* The output failed, and not what is read. */
export class NotWritten extends Error {}

/* The words of the command line can't be followed. */
export class Usage extends Error {}

const isStandard = path => path === undefined || path === "-"

/* Throws Usage where bytes would go to a terminal. */
export function seeNoTerminal(command, path) {
    if (isStandard(path) && process.stdout.isTTY) throw new Usage(`${command}: what it writes is no text, and the output is a terminal: name a file for it`)
}

/* Throws Usage where a file is to be read and written. */
export function seeOtherFiles(path, names) {
    if (isStandard(path) || !existsSync(path)) return
    const { dev, ino } = statSync(path, { bigint: true })
    for (const name of names.filter(name => name !== "-" && existsSync(name))) {
        const other = statSync(name, { bigint: true })
        if (other.dev === dev && other.ino === ino) throw new Usage(`${shown(name)} would be read and written: name another file`)
    }
}

/* Takes texts and bytes. A file is opened when the first come, or in the end. */
export class Output {
    #path
    #progress
    #file = null

    constructor(path, progress) {
        this.#path = path
        this.#progress = progress
    }

    async write(data) {
        if (data.length === 0) return
        this.#progress.clear()
        if (isStandard(this.#path)) return new Promise((done, fail) => process.stdout.write(data, error => (error ? fail(notWritten(error)) : done())))
        const bytes = Buffer.from(data)
        this.#do(() => {
            for (let at = 0; at < bytes.length;) at += writeSync(this.#opened(), bytes, at)
        })
    }

    #do(call) {
        try {
            call()
        } catch (error) {
            throw notWritten(error)
        }
    }

    #opened() { return this.#file ??= openSync(this.#path, "w") }

    close() {
        if (!isStandard(this.#path)) this.#do(() => closeSync(this.#opened()))
    }
}

const notWritten = error => new NotWritten(error.message, { cause: error })

/* What opens something that another process has open, as /dev/stdout: it isn't replaced, and what stands there stays. */
const OPENED = /^\/(dev|proc)\//
/* A file that can't be made beside another one, or can't take its place, as one that is mounted by itself. */
const NOT_BESIDE = ["EACCES", "EPERM", "EROFS", "EBUSY", "EXDEV"]

function putAll(file, bytes) {
    for (let at = 0; at < bytes.length;) at += writeSync(file, bytes, at)
}

function writeThere(path, bytes, how) {
    const file = openSync(path, how)
    try {
        putAll(file, bytes)
    } finally {
        closeSync(file)
    }
}

/* Writes a file beside where it is wanted, and has it take that place when it is whole. */
function replaceBy(path, bytes, mode) {
    const made = join(dirname(path), `.gazhdor-${process.pid}-${randomBytes(4).toString("hex")}`)
    try {
        const file = openSync(made, "wx")
        try {
            if (mode !== null) chmodSync(made, mode & 0o7777)
            putAll(file, bytes)
            fsyncSync(file)
        } finally {
            closeSync(file)
        }
        renameSync(made, path)
    } catch (error) {
        rmSync(made, { force: true })
        throw error
    }
}

/* Writes all bytes of a file to a path, whole or not at all; a device, a pipe and what can't be replaced are written as they are. */
export async function writeWhole(path, bytes) {
    if (isStandard(path)) return new Output(path, { clear() {} }).write(bytes)
    try {
        const told = existsSync(path) ? statSync(path) : null
        if (OPENED.test(path) || (told !== null && !told.isFile())) return writeThere(path, bytes, "a")
        const whole = told === null ? path : realpathSync(path)
        try {
            replaceBy(whole, bytes, told?.mode ?? null)
        } catch (error) {
            if (told === null || !NOT_BESIDE.includes(error.code)) throw error
            writeThere(whole, bytes, "w")
        }
    } catch (error) {
        throw notWritten(error)
    }
}
