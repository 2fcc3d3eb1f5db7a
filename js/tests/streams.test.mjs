/* What streams of the wrapper must do, and the Worker. */
import assert from "node:assert/strict"
import { once } from "node:events"
import { Readable, Writable } from "node:stream"
import { pipeline } from "node:stream/promises"
import { test } from "node:test"
import { setFlagsFromString } from "node:v8"
import { runInNewContext } from "node:vm"
import { Worker } from "node:worker_threads"
import { FitError, Refused, Truncated } from "../src/answers.mjs"
import { Stream, open } from "../gazhdor.mjs"
import { RIDE, cut, joined, random, thrown } from "./tools.mjs"

const gazhdor = await open()
const WRONG = RIDE.slice()
WRONG[2500] ^= 1
const CUT = RIDE.subarray(0, 2500)
const PIECES = cut(RIDE, [100, 101, 1500, 1500, 3000])
const TEXTS = { table: "tableText", toCsv: "toCsv", show: "show" }

const places = messages => messages.map(message => `${message.place} ${JSON.stringify(message)}`)

/* What a stream makes of pieces, the fault with what came before it included. */
function fed(kind, pieces, options) {
    const stream = new Stream(gazhdor, kind, options), made = []
    try {
        for (const piece of pieces) made.push(stream.feed(piece))
        made.push(stream.finish())
        return [made.flat(), null, stream.files]
    } catch (fault) {
        if (!(fault instanceof FitError)) throw fault
        return [[...made, fault.before].flat(), fault, stream.files]
    }
}

test("texts and messages in pieces", () => {
    for (const [kind, call] of Object.entries(TEXTS)) assert.equal(fed(kind, PIECES)[0].join(""), gazhdor[call](RIDE))
    assert.deepEqual(places(fed("messages", PIECES)[0]), places([...gazhdor.messages(RIDE)]))
    assert.deepEqual(places(fed("messages", PIECES, { only: ["lap", 20] })[0]), places([...gazhdor.messages(RIDE, { only: ["lap", 20] })]))
    assert.deepEqual([fed("check", [...PIECES, RIDE])[0].join(""), fed("check", [...PIECES, RIDE])[2]], ["", 2])
})

test("faults in pieces: what was made before, and the same again", () => {
    for (const [bytes, kind, place] of [[WRONG, Refused, RIDE.length - 2], [CUT, Truncated, 2500]]) {
        const [made, fault] = fed("table", cut(bytes, [1200, 2499]))
        assert.ok(fault instanceof kind && fault.place === place)
        assert.equal(made.join(""), gazhdor.tableText(bytes, { partial: true }))
        const stream = new Stream(gazhdor, "messages")
        const first = thrown(FitError, () => { stream.feed(bytes); stream.finish() })
        for (const call of [() => stream.feed(RIDE), () => stream.finish(), () => stream.feed(new Uint8Array(0))]) assert.equal(thrown(FitError, call), first)
        stream.close()
    }
})

test("what isn't a stream, or isn't open", () => {
    for (const kind of ["rows", "Table", 2, null, undefined, "__proto__", "toString"]) thrown(TypeError, () => new Stream(gazhdor, kind))
    thrown(TypeError, () => new Stream(gazhdor, "table", { only: "lap" }))
    thrown(TypeError, () => new Stream({}, "table"))
    const stream = new Stream(gazhdor, "table")
    for (const piece of ["text", null, 5, [1]]) thrown(TypeError, () => stream.feed(piece))
    assert.equal(stream.feed(RIDE) + stream.finish(), gazhdor.tableText(RIDE))
    thrown(TypeError, () => stream.feed(RIDE))
    stream.close()
    stream.close()
    thrown(TypeError, () => stream.finish())
})

test("many streams by turns", () => {
    const below = random(7), kinds = Array.from({ length: 40 }, (_, k) => Object.keys(TEXTS)[k % 3])
    const all = kinds.map(kind => ({ kind, stream: new Stream(gazhdor, kind), at: 0, text: "" }))
    while (all.some(one => one.at < RIDE.length)) {
        const one = all[below(all.length)], end = Math.min(RIDE.length, one.at + below(400))
        one.text += one.stream.feed(RIDE.subarray(one.at, end))
        one.at = end
    }
    for (const one of all) assert.equal(one.text + one.stream.finish(), gazhdor[TEXTS[one.kind]](RIDE))
})

test("streams that nobody closes are closed", async () => {
    setFlagsFromString("--expose-gc")
    const other = await open(), collect = runInNewContext("gc")
    const use = count => { for (let k = 0; k < count; k++) new Stream(other, "messages").feed(CUT) }
    const settle = async () => { for (let k = 0; k < 10; k++) { collect(); await new Promise(done => setTimeout(done, 5)) } }
    for (let k = 0; k < 3; k++) use(2000), await settle()
    const size = other.size
    for (let k = 0; k < 5; k++) use(2000), await settle()
    assert.ok(other.size <= size, `${other.size} and ${size}`)
})

const source = pieces => new ReadableStream({
    pull(controller) {
        const next = pieces.shift()
        next === undefined ? controller.close() : controller.enqueue(next)
    },
})

async function taken(readable) {
    const made = []
    try {
        for await (const item of readable) made.push(item)
        return [made, null]
    } catch (fault) {
        return [made, fault]
    }
}

test("a pair of streams gives all that the bytes make", async () => {
    for (const [kind, call] of Object.entries(TEXTS)) {
        const [made, fault] = await taken(source([...PIECES]).pipeThrough(gazhdor.stream(kind)))
        assert.deepEqual([made.join(""), fault], [gazhdor[call](RIDE), null])
    }
    const [messages] = await taken(source([...PIECES]).pipeThrough(gazhdor.stream("messages", { only: "record" })))
    assert.deepEqual(places(messages), places([...gazhdor.messages(RIDE, { only: "record" })]))
    const [passed] = await taken(source([...PIECES]).pipeThrough(gazhdor.stream("check")))
    assert.deepEqual(joined(passed), RIDE)
    const response = new Response(RIDE).body.pipeThrough(gazhdor.stream("messages"))
    assert.equal((await taken(response))[0].length, [...gazhdor.messages(RIDE)].length)
})

test("a pair of streams gives all that comes before a fault, and then the fault", async () => {
    for (const [bytes, kind] of [[WRONG, Refused], [CUT, Truncated]])
        for (const ends of [[], [1000], [1000, 2400, 2499]]) {
            const [made, fault] = await taken(source(cut(bytes, ends)).pipeThrough(gazhdor.stream("messages")))
            const wanted = []
            thrown(kind, () => { for (const message of gazhdor.messages(bytes, { partial: true })) wanted.push(message) })
            assert.deepEqual(places(made), places(wanted))
            assert.ok(fault instanceof kind)
        }
    const [passed, fault] = await taken(source(cut(CUT, [1000])).pipeThrough(gazhdor.stream("check")))
    assert.deepEqual([joined(passed), fault.place], [CUT, 2500])
})

test("no more is sent after a byte that is refused", async () => {
    let sent = 0, cancelled
    const upload = new ReadableStream({
        pull(controller) { sent++; controller.enqueue(sent === 1 ? WRONG : RIDE) },
        cancel(reason) { cancelled = reason },
    })
    const [, fault] = await taken(upload.pipeThrough(gazhdor.stream("table")))
    assert.ok(fault instanceof Refused && cancelled === fault && sent <= 3, `${sent}`)
})

test("bytes wait for who reads", async () => {
    let sent = 0
    const upload = new ReadableStream({ pull(controller) { sent++; controller.enqueue(RIDE) } })
    const reader = upload.pipeThrough(gazhdor.stream("messages")).getReader()
    for (let k = 0; k < 3; k++) {
        await reader.read()
        await new Promise(wait => setTimeout(wait, 20))
    }
    assert.ok(sent <= 4, `${sent} pieces were sent for three messages`)
    await reader.cancel()
})

test("who reads no more, and bytes that break off", async () => {
    const pair = gazhdor.stream("messages"), writer = pair.writable.getWriter(), reader = pair.readable.getReader()
    writer.write(RIDE).catch(() => {})
    assert.equal((await reader.read()).value.name, "file_id")
    await reader.cancel("enough")
    await assert.rejects(writer.write(RIDE), error => error === "enough")
    const broken = gazhdor.stream("table"), fault = new Error("the line broke")
    broken.writable.abort(fault).catch(() => {})
    assert.deepEqual(await taken(broken.readable), [[], fault])
    const [, error] = await taken(source(["text"]).pipeThrough(gazhdor.stream("table")))
    assert.ok(error instanceof TypeError)
})

/* One request after another to the Worker, and its answers. */
async function asked(requests) {
    const worker = new Worker(new URL("../worker.mjs", import.meta.url)), answers = []
    try {
        for (const [number, [call, ...words]] of requests.entries()) {
            const answer = once(worker, "message")
            worker.postMessage({ number, call, words })
            answers.push((await answer)[0])
        }
        return answers
    } finally {
        await worker.terminate()
    }
}

test("the Worker", async () => {
    const requests = [
        ["check", RIDE], ["check", CUT], ["columns", RIDE, "record", ["altitude"]], ["messages", RIDE, { only: "lap" }], ["tableText", RIDE],
        ["table", RIDE], ["mend", CUT], ["toCsv", CUT], ["fromCsv", gazhdor.toCsv(RIDE)], ["constructor", RIDE], ["check", 5], ["blocks", RIDE],
        ["fromBlocks", gazhdor.blocks(RIDE)], ["fromBlocks", RIDE],
    ]
    const answers = await asked(requests)
    const [good, short, columns, laps, text, rows, mended, fault, bytes, none, five, blocks, again, cut] = answers.map(answer => answer.made ?? answer.error)
    assert.deepEqual(answers.map(({ number }) => number), requests.map((_, k) => k))
    assert.deepEqual([good.text, good.files, short.text, short.place], ["ok", 1, "truncated at byte 2500", 2500])
    assert.deepEqual(columns.altitude, gazhdor.columns(RIDE, "record", ["altitude"]).altitude)
    assert.deepEqual([laps.length, laps[0].time.getTime(), laps[0].fields.total_distance], [1, Date.UTC(2026, 4, 17, 7, 30), 8558.46])
    assert.deepEqual([text, rows.length, bytes], [gazhdor.tableText(RIDE), 144, RIDE])
    assert.ok(gazhdor.check(mended).good)
    assert.deepEqual([blocks, again, cut.name, cut.reason], [gazhdor.blocks(RIDE), RIDE, "BlocksRefused", "Cut"])
    assert.deepEqual([fault.name, fault.place, fault.text, none.name, five.name], ["Truncated", 2500, "truncated at byte 2500", "TypeError", "TypeError"])
})

test("GPX as it comes, from streams of Node and into them", async () => {
    const pieces = cut(RIDE, [1, 100, 2000]), into = []
    const made = Readable.toWeb(Readable.from(pieces)).pipeThrough(gazhdor.stream("gpx"))
    await pipeline(Readable.fromWeb(made), new Writable({ write: (part, _, done) => (into.push(String(part)), done()) }))
    assert.equal(into.join(""), gazhdor.gpx(RIDE))
    const found = []
    const short = source(cut(RIDE.subarray(0, 2000), [1000])).pipeThrough(gazhdor.stream("gpx"))
    await assert.rejects(async () => { for await (const part of short) found.push(part) }, Truncated)
    assert.equal(found.join(""), gazhdor.gpx(RIDE.subarray(0, 2000), { partial: true }))
    assert.throws(() => gazhdor.gpx(RIDE.subarray(0, 2000)), Truncated)
})
