/* What the tests of the WebAssembly module and of its wrapper share. */
import assert from "node:assert/strict"
import { execFileSync, spawnSync } from "node:child_process"
import { createHash } from "node:crypto"
import { mkdtempSync, readFileSync, readdirSync, rmSync } from "node:fs"
import { tmpdir } from "node:os"
import { join } from "node:path"
import { fileURLToPath } from "node:url"
import { Core } from "../src/core.mjs"
import { open } from "../gazhdor.mjs"

const TREE = fileURLToPath(new URL("../../", import.meta.url))

/* The path of a file of the tree. */
export const inTree = name => join(TREE, name)

export const MODULE = readFileSync(inTree("js/gazhdor.wasm"))
export const RIDE = bytesAt(inTree("examples/ride.fit"))

/* Rows of the text of a file: its header, and the definition of messages that describe developer fields. */
export const ROWS = `row,a,b,c,d,e,f
file,14,32,2065,sum,,
def,0,0,little,206,5,
fdef,0,1,2,,,
fdef,1,1,2,,,
fdef,2,1,2,,,
fdef,3,16,7,,,
fdef,8,8,7,,,
`

export function bytesAt(path) {
    return new Uint8Array(readFileSync(path))
}

export function textAt(name) {
    return readFileSync(inTree(name), "utf8")
}

/* The module by its calls alone, as the wrapper makes them. */
export async function opened() {
    return new Core((await WebAssembly.instantiate(MODULE, {})).instance)
}

export const sha256 = bytes => createHash("sha256").update(bytes).digest("hex")

/* A new folder, which is removed in the end. */
export function folder() {
    const made = mkdtempSync(join(tmpdir(), "gazhdor-tests-"))
    process.on("exit", () => rmSync(made, { recursive: true, force: true, maxRetries: 5 }))
    return made
}

/* The first of these programs that is installed. */
export function program(...names) {
    return names.find(name => spawnSync("sh", ["-c", 'command -v "$0"', name]).status === 0)
}

/* For a test: to be left out where there is none of these programs. */
export function needs(...names) {
    return program(...names) === undefined ? { skip: `there is no ${names[0]}` } : {}
}

export const CC = program(process.env.CC ?? "cc")

/* Files by their names: the ride, the known files, one of odd fields, and recordings of each kind, where there is a C compiler. */
export async function allFiles() {
    const made = folder(), files = { "ride.fit": RIDE, "mixed.fit": (await open()).fromCsv(textAt("tests/mixed.csv")) }
    execFileSync(inTree("tests/known"), [made])
    if (CC !== undefined) {
        const recording = join(made, "recording")
        execFileSync(CC, ["-std=gnu11", "-O2", inTree("bench/recording.c"), "-o", recording])
        for (const kind of ["plain", "developer", "compressed", "turns", "definitions", "strings"])
            execFileSync(recording, [kind, "40k", join(made, `recorded-${kind}.fit`)])
    }
    for (const name of readdirSync(made).filter(one => one.endsWith(".fit"))) files[name] = bytesAt(join(made, name))
    return files
}

/* What a call throws, which has to be of a kind. */
export function thrown(kind, call) {
    try {
        call()
    } catch (error) {
        assert.ok(error instanceof kind, `${error?.name}: ${error?.message} where ${kind.name} was expected`)
        return error
    }
    return assert.fail(`nothing was thrown, where ${kind.name} was expected`)
}

/* Random numbers below a bound, the same in each run. */
export function random(seed) {
    let state = BigInt(seed)
    return below => {
        state = (state * 6364136223846793005n + 1442695040888963407n) & (2n ** 64n - 1n)
        return Number((state >> 33n) % BigInt(below))
    }
}

export function joined(parts) {
    const all = new Uint8Array(parts.reduce((sum, part) => sum + part.length, 0))
    parts.reduce((at, part) => (all.set(part, at), at + part.length), 0)
    return all
}

/* Some bytes in pieces that end at these places. */
export function cut(bytes, ends) {
    return [0, ...ends].map((begin, k) => bytes.subarray(begin, ends[k] ?? bytes.length))
}

/* ---- the module, with a part of it changed */

function number(bytes, at) {
    let value = 0
    for (let shift = 0; ; shift += 7) {
        const byte = bytes[at++]
        value |= (byte & 127) << shift
        if (!(byte & 128)) return [value, at]
    }
}

function written(value) {
    const bytes = []
    for (; value > 127; value >>>= 7) bytes.push(value & 127 | 128)
    return Uint8Array.of(...bytes, value)
}

function* sections(bytes) {
    for (let at = 8; at < bytes.length;) {
        const [length, begins] = number(bytes, at + 1)
        yield { id: bytes[at], begin: at, begins, end: begins + length }
        at = begins + length
    }
}

/* The module, in which one of its calls does nothing but trap. */
export function trapping(call) {
    const exports = exportsOf(MODULE)
    const code = [...sections(MODULE)].find(({ id }) => id === 10)
    const [count, first] = number(MODULE, code.begins), parts = [written(count)]
    for (let k = 0, at = first; k < count; k++) {
        const [length, begins] = number(MODULE, at)
        const body = k === exports[call] ? Uint8Array.of(0, 0, 11) : MODULE.subarray(begins, begins + length) // no locals, unreachable, end
        parts.push(written(body.length), body)
        at = begins + length
    }
    const body = joined(parts)
    return joined([MODULE.subarray(0, code.begin), Uint8Array.of(10), written(body.length), body, MODULE.subarray(code.end)])
}

/* The functions that a module without imports exports, by their names. */
export function exportsOf(bytes) {
    const { begins } = [...sections(bytes)].find(({ id }) => id === 7), found = {}
    let [count, at] = number(bytes, begins)
    for (; count > 0; count--) {
        const [length, name] = number(bytes, at), kind = bytes[name + length]
        const [index, next] = number(bytes, name + length + 1)
        if (kind === 0) found[Buffer.from(bytes.subarray(name, name + length)).toString()] = index
        at = next
    }
    return found
}
