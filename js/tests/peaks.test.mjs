/* How much memory edit and join hold at their most: ten times the bytes that are read and written, and a little that doesn't grow. Files of each
 * shape that costs most are changed, in a process of its own whose garbage is collected at each piece that the library is given, and at many of
 * the messages. What counts is the memory of the module, which never shrinks, and what JavaScript holds, beside what was there before. */
import assert from "node:assert/strict"
import { spawnSync } from "node:child_process"
import { test } from "node:test"
import { fileURLToPath } from "node:url"

import { Gazhdor } from "../src/library.mjs"
import { le, records } from "./bytes.mjs"
import { MODULE, RIDE, joined } from "./tools.mjs"

const LENGTH = 1 << 18 // So many bytes have the inputs, or some more.
/* So many more than ten times as many are held of sixteen definitions of 255 fields and more; and of laps of a byte, so many for each. */
const WIDE = 6 << 20, LAP = 20
const TIME = 1147937400

const define = (local, number, fields, developer = []) => [
    0x40 | (developer.length > 0 ? 0x20 : 0) | local, 0, 0, ...le(number, 2), fields.length, ...fields.flat(),
    ...(developer.length > 0 ? [developer.length, ...developer.flat()] : []),
]
const STAMP = [253, 4, 0x86], bytesOf = (count, size = 1) => Array.from({ length: count }, (_, number) => [number, size, 2])

/* A file of a record, of what comes first, and of as many messages as the length has room for. */
function of(first, message) {
    const made = [Uint8Array.from([...define(15, 20, [STAMP]), 15, ...le(TIME, 4), ...first])]
    for (let length = 0, k = 0; length < LENGTH; length += made.at(-1).length) made.push(Uint8Array.from(message(k++)))
    return records(joined(made))
}

/* Files one after another. */
function chain(file) {
    const made = []
    for (let length = 0, k = 0; length < LENGTH; length += made.at(-1).length) made.push(file(k++))
    return joined(made)
}

const recorded = k => records([...define(0, 20, [STAMP]), 0, ...le(TIME + k, 4)])
const DESCRIBED = [...define(1, 206, [[0, 1, 2], [1, 1, 2], [2, 1, 2], [3, 255, 7], [8, 255, 7]]), 1, 0, 0, 2, ...Array(255).fill(110), ...Array(255).fill(117)]
const NAMED = [...define(1, 206, [[0, 1, 2], [1, 1, 2], [2, 1, 2], [3, 8, 7]])]

const SHAPES = {
    rides: gazhdor => chain(k => gazhdor.edit(RIDE, { shift: 9000 * k }).bytes),
    "one long ride": () => of(define(0, 20, [STAMP, [0, 4, 0x85], [1, 4, 0x85], [5, 4, 0x86], [6, 2, 0x84], [3, 1, 2]]),
        k => [0, ...[TIME + k, 500000000 + k, 100000000 + k, 700 * k].flatMap(word => le(word, 4)), 136, 19, 120]),
    "messages of one byte": () => of(define(0, 20, []), () => [0]),
    "messages of two kinds by turns": () => of([...define(0, 20, bytesOf(1)), ...define(1, 21, bytesOf(1))], k => [k & 1, k & 255]),
    "fields of a byte": () => of(define(0, 20, bytesOf(40)), k => [0, ...Array(40).fill(k % 200)]),
    texts: () => of(define(0, 20, [[200, 255, 7]]), k => [0, ...Array(254).fill(97 + k % 26), 0]),
    definitions: () => of([], k => [...define(0, k & 65535, []), 0]),
    "wide definitions": () => of([], k => [...define(k % 15, k & 65535, bytesOf(255)), k % 15, ...Array(255).fill(7)]),
    "fields with long names": () => of(DESCRIBED, () => [...define(0, 20, [[3, 1, 2]], Array(255).fill([0, 0, 0])), 0, 120]),
    "one field, described with ever other names": () => of(NAMED, k => [1, 0, 0, 2, ...Buffer.from(`${k}`.padStart(7)), 0]),
    "small files": () => chain(recorded),
    "files without a message": () => chain(k => (k === 0 ? recorded(k) : records([]))),
    laps: () => of(define(0, 19, [STAMP]), k => [0, ...le(TIME + k, 4)]),
    "laps of one byte": () => of(define(0, 19, []), k => [0x80 | k & 31]),
    events: () => of(define(0, 21, [STAMP, [0, 1, 0], [1, 1, 0]]), k => [0, ...le(TIME + k, 4), 0, k & 1]),
}

const MORE = { "wide definitions": WIDE, "fields with long names": WIDE, "laps of one byte": LAP * LENGTH }

const CALLS = {
    join: (gazhdor, file) => gazhdor.join([file], { one: true }),
    edit: (gazhdor, file) => gazhdor.edit(file, { drop: "heart_rate", shift: 5, begin: TIME - 1 }).bytes,
}

/* At each so many calls of these it is seen what is held. */
const SEEN = { gazhdor_writer_finish: 1, gazhdor_finish: 1, gazhdor_feed: 16, gazhdor_writer_messages: 4096 }

/* The module, whose memory is counted together with what JavaScript holds. */
class Counted {
    #instance = new WebAssembly.Instance(new WebAssembly.Module(MODULE))
    #most = 0

    constructor() {
        const exports = { ...this.#instance.exports }
        for (const [name, often] of Object.entries(SEEN)) {
            const call = exports[name]
            let calls = 0
            exports[name] = (...words) => {
                if (calls++ % often === 0) this.#see()
                return call(...words)
            }
        }
        this.gazhdor = new Gazhdor({ exports })
    }

    #see() {
        globalThis.gc()
        const { heapUsed, arrayBuffers } = process.memoryUsage()
        this.#most = Math.max(this.#most, heapUsed + arrayBuffers + this.#instance.exports.memory.buffer.byteLength)
    }

    /* What a call makes, and how many bytes were held at the most beside those that were there. */
    held(call) {
        this.#most = 0
        this.#see()
        const before = this.#most, made = call()
        this.#see()
        return { made, most: this.#most - before }
    }
}

/* In a process of its own: whether each call holds no more of a shape. */
function see(name) {
    const file = SHAPES[name](new Counted().gazhdor)
    for (const [what, call] of Object.entries(CALLS)) {
        const of = new Counted()
        assert.ok(of.gazhdor.check(file).good)
        of.gazhdor.join([RIDE], { one: true }) // What is made once is there.
        const { made, most } = of.held(() => call(of.gazhdor, file)), bound = 10 * Math.max(file.length, made.length) + (MORE[name] ?? 0)
        assert.ok(most < bound, `${name}: ${what} holds ${most} bytes for ${file.length} and ${made.length}`)
        console.log(`${name}: ${what}: ${(most / Math.max(file.length, made.length)).toFixed(1)} times`)
    }
}

if (process.argv[2] in SHAPES) see(process.argv[2])
else {
    for (const name of Object.keys(SHAPES)) {
        test(`edit and join hold ten times the bytes of ${name}`, { timeout: 900000 }, () => {
            const done = spawnSync(process.execPath, ["--expose-gc", fileURLToPath(import.meta.url), name], { encoding: "utf8" })
            assert.equal(done.status, 0, done.stderr)
        })
    }
}
