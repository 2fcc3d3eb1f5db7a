/* What the WebAssembly module must answer: what the library for x86-64 answers, byte for byte, of all bytes at once, in pieces, and where memory is
 * refused. expected.py lays the inputs down, and what the library answers. */
import assert from "node:assert/strict"
import { execFileSync } from "node:child_process"
import { readFileSync, writeFileSync } from "node:fs"
import { join } from "node:path"
import { test } from "node:test"
import { gzipSync } from "node:zlib"
import { OutOfMemory, Trapped, WrongModule } from "../src/answers.mjs"
import { copied } from "../src/core.mjs"
import * as n from "../src/numbers.mjs"
import { Stream, VERSION, open } from "../gazhdor.mjs"
import { MODULE, RIDE, allFiles, bytesAt, cut, exportsOf, folder, inTree, joined, needs, opened, random, sha256, textAt, thrown, trapping } from "./tools.mjs"

const LIBRARY = process.env.GAZHDOR_LIBRARY ?? inTree("release/x86_64-linux/libgazhdor.so")
const files = await allFiles()
const place = folder()
const bytesOf = name => bytesAt(join(place, name))
const beside = process.platform === "linux" && process.arch === "x64" ? needs("python3") : { skip: "this is no x86-64 Linux, whose library answers too" }
const expected = "skip" in beside ? [] : told()

/* The inputs, made of the files, and what the library answers of each. */
function told() {
    for (const [name, bytes] of Object.entries(files)) writeFileSync(join(place, name), bytes)
    execFileSync("python3", [inTree("js/tests/expected.py"), LIBRARY, place, ...Object.keys(files).map(name => join(place, name))])
    return JSON.parse(readFileSync(join(place, "expected.json"), "utf8"))
}

const KINDS = { show: "show", table: "table", to_csv: "toCsv", messages: "blocks" }
const NUMBERS = { check: n.STREAM_CHECK, show: n.STREAM_SHOW, table: n.STREAM_TABLE, to_csv: n.STREAM_TO_CSV, messages: n.STREAM_MESSAGES }
const core = await opened()

/* The numbers of an answer, as the library has them. */
function numbers(answer) {
    const ofBytes = ["HeaderSize", "Protocol", "NoFit", "Signature", "HeaderSum", "ReservedBit", "UndefinedLocal", "Overrun", "Architecture", "FileSum",
        "TooManyFiles"]
    const ofBlocks = ["Cut", "Kind", "Header", "Local", "Architecture", "Entries", "Size", "Offset", "Undefined", "Items"]
    const reason = (answer.block === null ? ofBytes : ofBlocks).indexOf(answer.reason) + 1
    return [answer.status, reason, answer.place ?? 0, answer.row ?? answer.block ?? 0, answer.column ?? 0, answer.files]
}

function same(answer, made, told, what) {
    assert.deepEqual(numbers(answer), told.answer, what)
    assert.equal(made.length, told.length, what)
    assert.equal(sha256(made), told.sha256, what)
}

test("the module has all calls, no import, and is no larger than it may be", async () => {
    const calls = ["check", "table", "to_csv", "show", "messages", "from_csv", "from_messages", "open", "feed", "finish", "close", "alloc", "free", "version",
        "writer_open", "writer_file", "writer_definition", "writer_messages", "writer_finish", "writer_close"]
    const module = await WebAssembly.compile(MODULE)
    assert.deepEqual(WebAssembly.Module.imports(module), [])
    assert.deepEqual(WebAssembly.Module.exports(module).map(({ name }) => name).sort(), [...calls.map(name => `gazhdor_${name}`), "memory"].sort())
    assert.ok(MODULE.length <= 500 * 1024, `${MODULE.length} bytes`)
    assert.ok(gzipSync(MODULE, { level: 9 }).length <= 160 * 1024, "gzipped")
    assert.equal(VERSION, textAt("VERSION").trim())
    assert.equal(JSON.parse(textAt("js/package.json")).version, VERSION)
})

test("each call on each input", beside, () => {
    for (const { name, check, calls } of expected) {
        const bytes = bytesOf(name)
        if (check !== undefined) assert.deepEqual(numbers(core.check(bytes)), check, name)
        for (const [call, told] of Object.entries(calls)) same(...core.make(call, bytes, copied), told, `${call} of ${name}`)
    }
    const count = ending => expected.filter(({ name }) => name.endsWith(ending)).length
    assert.ok(count(".damaged") >= 1000 && count(".blocks") >= 600)
    assert.ok(new Set(expected.flatMap(({ calls }) => calls.from_messages?.answer[1] ?? [])).size >= 10, "reasons of blocks")
})

test("no call keeps memory", () => {
    const calls = count => { for (let k = 0; k < count; k++) for (const call of Object.keys(KINDS)) core.make(call, RIDE, copied) }
    calls(1)
    const size = core.size
    calls(300)
    assert.equal(core.size, size)
})

test("no stream within a call stays open", async () => {
    const gazhdor = await open(MODULE), many = joined(Array(100).fill(RIDE)), cut = many.subarray(0, -9)
    const calls = [
        () => gazhdor.check(many), () => gazhdor.columns(cut, "lap", ["timestamp"], { partial: true }), () => gazhdor.mend(RIDE.subarray(0, 3000)),
        () => { for (const message of gazhdor.messages(many, { only: "lap", partial: true })) if (message.file > 1) break },
    ]
    for (const call of calls) {
        call()
        const size = gazhdor.size
        for (let k = 0; k < 200; k++) call()
        assert.equal(gazhdor.size, size, String(call))
    }
})

/* What a stream makes of pieces, with what it says in the end. */
function fed(call, pieces) {
    const at = core.open(NUMBERS[call]), parts = []
    let answer
    try {
        for (const piece of pieces) {
            let made
            [answer, made] = core.feed(at, piece, copied)
            parts.push(made)
            if (!answer.good) return [answer, joined(parts)]
        }
        const [found, made] = core.finish(at, copied)
        return [found, joined([...parts, made])]
    } finally {
        core.close(at)
    }
}

const known = ["empty", "zeros", "short", "long", "message", "orders", "developer", "both"].map(name => `${name}.fit`)
const byName = Object.fromEntries(expected.map(one => [one.name, one]))

function seePieces(name, pieces, what) {
    const { calls, check } = byName[name]
    for (const [call, one] of Object.entries(calls)) same(...fed(call, pieces), { ...one, answer: check }, `${call} of ${name} ${what}`)
    assert.deepEqual(numbers(fed("check", pieces)[0]), check)
}

test("known files in each two pieces, and in pieces of each size", beside, () => {
    for (const name of known) {
        const bytes = bytesOf(name)
        for (let at = 0; at <= bytes.length; at++) seePieces(name, cut(bytes, [at]), `cut at ${at}`)
        for (let size = 1; size < bytes.length; size++) {
            const ends = Array.from({ length: Math.floor((bytes.length - 1) / size) }, (_, k) => (k + 1) * size)
            seePieces(name, cut(bytes, ends), `in pieces of ${size}`)
        }
    }
})

test("the ride and recordings in random pieces, and damaged ones", beside, () => {
    const below = random(1)
    for (const { name } of expected.filter(({ check }) => check !== undefined).slice(0, 300)) {
        const bytes = bytesOf(name), ends = Array.from({ length: 1 + below(20) }, () => below(bytes.length + 1)).sort((a, b) => a - b)
        seePieces(name, cut(bytes, ends), `cut at ${ends}`)
    }
    seePieces("ride.fit", Array.from(RIDE, byte => Uint8Array.of(byte)), "byte by byte")
})

test("a stream that is refused memory, and one of no such kind", async () => {
    assert.equal(core.open(5), 0n)
    assert.equal(core.open(0xffffffff), 0n)
})

const LEAST = 65536 * 3
const TEXTS = ["tableText", "toCsv", "show"]

/* Calls with a memory that has so many bytes at most: each gives what it always gives, or says that memory was refused, and the next call works. */
async function seeRefused(maximum, recording, texts) {
    const gazhdor = await open(MODULE, { maximum })
    let refused = 0
    for (const call of TEXTS) {
        try {
            const made = gazhdor[call](recording)
            assert.equal(sha256(made), texts[call])
        } catch (error) {
            assert.ok(error instanceof OutOfMemory, `${call}: ${error}`)
            refused++
        }
        assert.equal(`${gazhdor.check(RIDE)}`, "ok")
        assert.ok(gazhdor.size <= maximum)
    }
    return refused
}

test("memory that is refused is an answer", needs("cc"), async () => {
    const recording = files["recorded-plain.fit"], whole = await open(MODULE)
    const texts = Object.fromEntries(TEXTS.map(call => [call, sha256(whole[call](recording))]))
    const counts = []
    for (let pages = 0; pages < 60; pages += 3) counts.push(await seeRefused(LEAST + 65536 * pages, recording, texts))
    assert.equal(counts[0], 3, `${counts}`)
    assert.ok(counts.includes(1) || counts.includes(2), `${counts}`)
    assert.equal((await seeRefused(2 ** 24, recording, texts)), 0)
})

test("a memory that is too small or too large", async () => {
    for (const maximum of [0, 65536, 2 ** 33, -1, NaN, Infinity]) await assert.rejects(open(MODULE, { maximum }), RangeError)
    await assert.rejects(open(await WebAssembly.compile(MODULE), { maximum: 2 ** 24 }), TypeError)
})

test("bytes that don't fit into the memory, and a stream of them that does", async () => {
    const gazhdor = await open(MODULE, { maximum: 2 ** 22 }), many = joined(Array(2000).fill(RIDE))
    thrown(OutOfMemory, () => gazhdor.tableText(many))
    assert.equal(`${gazhdor.check(many)} ${gazhdor.check(many).files}`, "ok 2000")
    let count = 0
    for (const row of gazhdor.table(many)) count += row.file === 2000
    assert.equal(count, 144)
    assert.ok(gazhdor.size <= 2 ** 22)
})

test("a module that traps says so, and another one works", async () => {
    const calls = {
        check: "check", table: "tableText", to_csv: "toCsv", show: "show", messages: "blocks", from_messages: "fromBlocks", feed: "columns",
    }
    assert.ok(exportsOf(MODULE).gazhdor_table !== undefined)
    for (const [call, name] of Object.entries(calls)) {
        const gazhdor = await open(trapping(`gazhdor_${call}`)), stream = call === "feed" ? undefined : new Stream(gazhdor, "table")
        for (let k = 0; k < 2; k++) {
            const fault = thrown(Trapped, () => gazhdor[name](RIDE, "record"))
            assert.match(fault.message, new RegExp(`within gazhdor_${call} .*open another`))
        }
        thrown(Trapped, () => gazhdor.show(RIDE))
        if (stream !== undefined) thrown(Trapped, () => stream.feed(RIDE))
        stream?.close()
        assert.equal(`${(await open(MODULE)).check(RIDE)}`, "ok")
    }
})

test("what is no module of gazhdor", async () => {
    await assert.rejects(open(RIDE), WebAssembly.CompileError)
    await assert.rejects(open(Uint8Array.of(0, 97, 115, 109, 1, 0, 0, 0)), WrongModule)
    const at = Buffer.from(MODULE).indexOf(VERSION), older = Uint8Array.from(MODULE)
    older[at] += 1
    await assert.rejects(open(older), /the module is of version 1\..*, and gazhdor.mjs of version 0\./)
})
