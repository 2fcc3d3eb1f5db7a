/* What is written of values: read again, byte by byte where the FIT protocol says the bytes, and what can't be written. */
import assert from "node:assert/strict"
import { test } from "node:test"
import { setFlagsFromString } from "node:v8"
import { runInNewContext } from "node:vm"

import { BlocksRefused, EXTRA, Gazhdor, NotDescribed, UnknownName, Writer, WrongValue, open, semicircles } from "../gazhdor.mjs"
import { le, file, records } from "./bytes.mjs"
import { RIDE, allFiles, joined, random, thrown, trapping } from "./tools.mjs"

const gazhdor = await open()
const TIME = 1147937400, START = new Date(Date.UTC(2026, 4, 17, 7, 30))

/* What is written by some steps. */
function written(step, options) {
    const out = new Writer(gazhdor, options)
    step(out)
    return out.finish()
}

const read = (bytes, options) => [...gazhdor.messages(bytes, options)].map(message => ({ ...message.toObject() }))

/* The items of one field of one message that is written with a value, as bytes. */
function bytesOf(message, spec, value, names) {
    const key = Array.isArray(spec) && typeof spec[1] === "string" ? spec[0] : spec
    const bytes = written(out => out.define(message, [spec]).write(new Map([[key, value]])), { names })
    const [found] = gazhdor.messages(bytes)
    return [...bytes.subarray(found.place + 1, -2)]
}

test("a file is as the FIT protocol has it", () => {
    const bytes = written(out => out.write("file_id", { type: "activity", manufacturer: 255, time_created: START }))
    const data = [0x40, 0, 0, 0, 0, 3, 0, 1, 0, 1, 2, 0x84, 4, 4, 0x86, 0, 4, 255, 0, ...le(TIME, 4)]
    assert.deepEqual([...bytes.subarray(14, -2)], data)
    assert.deepEqual([...bytes.subarray(0, 12)], [14, 0x20, ...le(21158, 2), ...le(data.length, 4), ...Buffer.from(".FIT")])
    assert.ok(gazhdor.check(bytes).good)
})

test("values become the nearest item", () => {
    const cases = [["record", 3, 120, [120]], ["record", 2, 408.1, le(4540.5 + .5, 2)], ["record", 2, -500, le(0, 2)], ["record", 6, 2.0015, le(2002, 2)],
        ["record", 0, -1, [255, 255, 255, 255]], ["record", 0, semicircles(45), le(2 ** 29, 4)], ["record", 253, START, le(TIME, 4)],
        ["record", 253, "system+7", le(7, 4)],
        ["record", 3, null, [255]], ["record", 3, NaN, [255]], ["session", 5, "cycling", [2]], ["session", 5, 250, [250]], ["lap", 24, "manual", [0]],
        ["record", [200, "sint16"], -7, [249, 255]], ["record", [200, "uint64"], 2n ** 63n, [0, 0, 0, 0, 0, 0, 0, 128]], ["record",
        [200, "sint64"], -1, Array(8).fill(255)],
        ["record", [200, "float32"], 0.1, [0xcd, 0xcc, 0xcc, 0x3d]], ["record", [200, "float64"], 0.1, [0x9a, 0x99, 0x99, 0x99, 0x99, 0x99, 0xb9, 0x3f]],
        ["record", [200, "float32"], Infinity, [0, 0, 0x80, 0x7f]], ["record", [200, "float32"], null, [255, 255, 255, 255]],
        // of 2^60 + 2^36 + 1 the nearest number of 32 bits lies above; of the double in between, which is a half, below
        ["record", [200, "float32"], 2n ** 60n + 2n ** 36n + 1n, [1, 0, 0x80, 0x5d]],
        ["record", [200, "byte"], new Uint8Array([1, 2]), [1, 2]], ["record", [200, "string"], "Rö", [0x52, 0xc3, 0xb6, 0]], ["hrv", 0,
        [0.5, null, 1.2], [...le(500, 2), 255, 255, ...le(1200, 2)]],
        ["record", [200, "uint16", 3], [1, 2], [1, 0, 2, 0, 255, 255]], ["record", [200, "uint8"], new Uint16Array([5, 6]), [5, 6]]]
    for (const [message, spec, value, wanted] of cases)
        assert.deepEqual(bytesOf(message, spec, value), wanted.map(byte => byte & 255), `${message} ${spec} ${value}`)
    assert.deepEqual(bytesOf("session", 116, [22.5, null], EXTRA), [16, 255])
    assert.deepEqual(bytesOf("record", 200, 7 / 3, [["record", 200, { scale: 3, base: "uint8" }]]), [7])
})

test("numbers of scaled fields come back as they were", () => {
    const below = random(3)
    for (const [number, scale, offset, size] of [[2, 5, 500, 16], [6, 1000, 0, 16], [5, 100, 0, 32], [200, 8, 3, 32]])
        for (let k = 0; k < 40; k++) {
            const item = below(2 ** Math.min(size, 31)) || 1, value = item / scale - offset
            const made = bytesOf("record", [number, `uint${size}`], value, [["record", number, { scale, offset }]])
            assert.deepEqual(made, le(item, size / 8), `${number} ${item}`)
        }
})

test("developer fields", () => {
    const bytes = written(out => {
        out.write("file_id", { type: 4 })
        const core = out.describe("Core", { unit: "C", base: "float32", native: ["record", 139], application: new Uint8Array(16).fill(7) })
        const power = out.describe("Form power", { unit: "W" })
        assert.deepEqual([core.key, power.key, power.base], [[0, 0], [0, 1], "uint16"])
        out.define("record", ["timestamp", core, "Form power"]).write(new Map([["timestamp", TIME], [core, 37.5], ["Form power", 60]]))
        out.write("record", new Map([["timestamp", TIME + 1], [[0, 1], 61]]))
    })
    assert.deepEqual(read(bytes, { only: "record" }), [{ timestamp: TIME, Core: 37.5, "Form power": 60 }, { timestamp: TIME + 1, "Form power": 61 }])
    const [told] = gazhdor.messages(bytes, { only: 206 })
    assert.deepEqual([told.get(14), told.get(15), told.get("units")], [20, 139, "C"])
    assert.deepEqual([...gazhdor.messages(bytes, { only: 207 })].map(message => message.get("application_id")), [new Uint8Array(16).fill(7)])
})

test("developer fields that come with messages are described once in a file, and can be named", () => {
    const source = written(out => {
        const core = out.describe("Core", { unit: "C", base: "float32" })
        out.define("record", ["heart_rate", core]).write(new Map([["heart_rate", 60], [core, 37.5]]))
    })
    const [record] = gazhdor.messages(source, { only: "record" })
    const bytes = written(out => {
        out.copy(record)
        out.copy(record)
        out.write("record", { Core: 38 })
        out.write("record", new Map([[[0, 0], 38.5]]))
        out.write("record", new Map([[out.describe("Lean", { base: "sint8" }), -8]]))
        out.file()
        out.copy(record)
    })
    const index = { developer_data_index: 0 }, told = (number, code, name) => ({ ...index, field_definition_number: number, fit_base_type_id: code, field_name: name })
    const core = { ...told(0, 0x88, "Core"), units: "C" }, both = { heart_rate: 60, Core: 37.5 }
    assert.deepEqual(read(bytes), [index, core, both, both, { Core: 38 }, { Core: 38.5 }, told(1, 1, "Lean"), { Lean: -8 }, index, core, both])
    const other = written(out => {
        out.describe("Lean", { base: "sint8" })
        out.copy(record)
        for (const key of ["Lean", "Core", [0, 0]]) out.write("record", new Map([[key, 5]]))
    })
    assert.deepEqual(read(other, { only: "record" }), [both, { Lean: 5 }, { Core: 5 }, { Lean: 5 }])
})

test("developer fields that can't be described", () => {
    const begin = out => out.write("record", { heart_rate: 60 }), wanted = written(begin)
    const [bare] = gazhdor.messages(records([0x60, 0, 0, 20, 0, 0, 1, 0, 1, 0, 0, 5]))
    assert.deepEqual(read(written(out => out.copy(bare))), [{ dev_0_0: new Uint8Array([5]) }])
    const made = written(out => {
        out.describe("Core", { base: "uint8" })
        const error = thrown(NotDescribed, () => out.copy(bare))
        assert.deepEqual([error.field, error.message], ["dev_0_0", "the developer field dev_0_0 isn't described where it comes from, and is in this file"])
    })
    assert.deepEqual([...gazhdor.messages(made)].map(({ number }) => number), [207, 206])
    for (const name of ["n".repeat(255), "a\nb", "\x7f"]) {
        const field = new Writer(gazhdor).describe("x", { base: "uint8" }), odd = Object.assign(Object.create(Object.getPrototypeOf(field)), field, { name })
        const found = written(out => {
            begin(out)
            const error = thrown(NotDescribed, () => out.define("record", [odd]).write(new Map([[[0, 0], 1]])))
            assert.match(error.message, /dev_0_0 can't be described/)
        })
        assert.deepEqual(found, wanted)
    }
})

test("messages are copied with their definitions and descriptions", async () => {
    for (const [name, bytes] of Object.entries(await allFiles())) {
        const messages = [...gazhdor.messages(bytes)]
        if (messages.length === 0) continue
        const copy = written(out => messages.forEach(message => out.copy(message)))
        assert.deepEqual(read(copy), messages.map(message => ({ ...message.toObject() })), name)
        assert.deepEqual([...gazhdor.messages(copy)].map(({ seconds }) => seconds), messages.map(({ seconds }) => seconds), name)
    }
})

test("what is accumulated is told the same where messages are left out", () => {
    const below = random(12), sums = [below(4096), below(256), below(65536)], told = [], out = new Writer(gazhdor)
    const record = out.define("record", ["timestamp", [8, "byte", 3], [18, "uint8"], [28, "uint16"]])
    for (let k = 0; k < 300; k++) {
        const packed = (sums[0] & 0xFFF) * 4096 + 300, counts = [sums[1] % 256, sums[2] % 65536]
        const [cycles, power] = [counts[0] < 255 ? counts[0] : null, counts[1] < 65535 ? counts[1] : null]
        record.write(new Map([[253, TIME + k], [8, Uint8Array.of(packed, packed >> 8, packed >> 16)], [18, cycles], [28, power]]))
        told.push([TIME + k, sums[0] / 16, cycles === null ? null : sums[1], power === null ? null : sums[2]])
        for (const [at, most] of [4096, 100, 30000].entries()) sums[at] += below(most)
    }
    const ride = out.finish(), messages = [...gazhdor.messages(ride)]
    const see = (bytes, wanted) => {
        const found = [...gazhdor.messages(bytes)]
        assert.equal(found.length, wanted.length)
        for (const [k, message] of found.entries()) {
            const [time, metres, ...counts] = wanted[k]
            assert.deepEqual([message.seconds, message.get(19) ?? message.totalCycles, message.get(29) ?? message.accumulatedPower], [time, ...counts])
            assert.ok(Math.abs(message.distance - metres) < 0.0051, `${k}: ${message.distance}, and not ${metres}`)
        }
    }
    see(ride, told)
    for (const stays of [k => k % 3 !== 0, k => k > 200, () => below(2) === 1, () => true]) {
        const kept = [...messages.keys()].filter(stays), copy = new Writer(gazhdor)
        for (const k of kept) copy.copy(messages[k])
        see(copy.finish(), kept.map(k => told[k]))
    }
    const same = new Writer(gazhdor)
    for (const message of messages) same.copy(message)
    assert.deepEqual([...gazhdor.messages(same.finish())].map(message => message.fields.length), messages.map(() => 4))
})

test("a message with other values, and with more fields", () => {
    const record = [...gazhdor.messages(RIDE, { only: "record" })][3]
    const changed = record.replace({ altitude: 500, timestamp: START }).adding({ heart_rate: 99, temperature: null })
    const values = ["altitude", "heart_rate", "temperature", "speed"].map(key => changed.get(key))
    assert.deepEqual([changed.time, ...values], [START, 500, 99, null, record.get("speed")])
    assert.equal(record.get("altitude") === 500, false)
    const [copy] = gazhdor.messages(written(out => out.copy(changed)))
    assert.deepEqual({ ...copy.toObject() }, { ...changed.toObject() })
    assert.equal(thrown(UnknownName, () => record.replace({ heart_rat: 5 })).unknown, "heart_rat")
    thrown(WrongValue, () => record.replace({ altitude: 1e6 }))
    assert.equal([...gazhdor.messages(RIDE, { only: "lap" })][0].adding({ sport: "cycling" }).get("sport"), 2)
})

test("what can't be written is an error, and changes nothing", () => {
    const cases = [["record", { heart_rate: 255 }], ["record", { heart_rate: 256 }], ["record", { heart_rate: -1 }],
        ["record", { heart_rate: "fast" }], ["record", { heart_rate: {} }],
        ["record", { heart_rate: Infinity }], ["record", { heart_rate: new Date() }], ["record", { altitude: 1e30 }], ["session", { sport: "cyclin" }],
        ["record", { timestamp: new Date(NaN) }], ["record", { timestamp: new Date(0) }], ["record", { timestamp: "system+268435456" }],
        ["hrv", { time: Array(300).fill(1) }], ["file_id", { product_name: 5 }], ["file_id", { product_name: "a\0b" }],
        ["file_id", { product_name: "x".repeat(300) }],
        ["file_id", { product_name: "\ud800" }], ["developer_data_id", { application_id: "x" }]]
    const wanted = written(out => { out.write("file_id", { type: 4 }); out.write("record", { heart_rate: 5 }) })
    const made = written(out => {
        out.write("file_id", { type: 4 })
        for (const [message, values] of cases) thrown(WrongValue, () => out.write(message, values))
        out.write("record", { heart_rate: 5 })
    })
    assert.deepEqual(made, wanted)
    const unknown = thrown(WrongValue, () => written(out => out.write("session", { sport: "cyclin" })))
    assert.equal(unknown.message, 'sport: "cyclin" is no word that it can have: is it "cycling"?')
    const wrong = thrown(WrongValue, () => written(out => out.write("record", { altitude: 1e6 })))
    assert.deepEqual([wrong.field, wrong.value, wrong.least, wrong.most], ["altitude", 1e6, -500, 65534 / 5 - 500])
})

test("names, numbers and counts that aren't", () => {
    const out = new Writer(gazhdor)
    assert.equal(thrown(UnknownName, () => out.write("recrod", {})).nearest, "record")
    assert.equal(thrown(UnknownName, () => out.write("record", { hart_rate: 5 })).nearest, "heart_rate")
    const wrong = [["record", [200], RangeError], ["record", [[200, "uint7"]], RangeError], ["record", ["heart_rate", 3], RangeError], ["record",
        [256], RangeError],
        [65536, [1], RangeError], [null, [1], TypeError], ["record", [[200, "uint16", 128]], RangeError], ["record", [[0, 5]], UnknownName]]
    for (const [message, fields, kind] of wrong) thrown(kind, () => out.define(message, fields))
    thrown(RangeError, () => out.finish())
    thrown(RangeError, () => out.describe("x", { application: new Uint8Array(3) }))
    thrown(WrongValue, () => out.describe("x".repeat(300)))
    out.close()
    for (const call of [() => out.write("record", { heart_rate: 5 }), () => out.finish(), () => out.file()]) thrown(TypeError, call)
    thrown(TypeError, () => new Writer({}))
    const both = new Writer(gazhdor), times = both.define("hrv", ["time"])
    thrown(UnknownName, () => times.write(new Map([["time", [1, 2, 3]], ["rate", 5]])))
    thrown(WrongValue, () => both.write("activity", { local_timestamp: START }))
    times.write({ time: 1 })
    assert.equal([...gazhdor.messages(both.finish())][0].get("time"), 1) // and not a list of three
    assert.ok(gazhdor instanceof Gazhdor)
})

test("chains, long messages, and very many kinds of messages", () => {
    const bytes = written(out => {
        for (let k = 0; k < 3; k++) {
            out.file()
            out.write("file_id", { type: 4, number: k })
            for (let message = 100; message < 140; message++) out.define(message, [[message, "uint8"]]).write(new Map([[message, k]]))
        }
        out.define(300, Array.from({ length: 255 }, (_, number) => [number, "uint8", 255])).write(new Map([[7, Array(255).fill(9)]]))
    })
    const answer = gazhdor.check(bytes)
    assert.deepEqual([answer.good, answer.files, [...gazhdor.messages(bytes)].length], [true, 3, 124])
    assert.deepEqual([...gazhdor.messages(bytes, { only: 300 })][0].get(7), Array(255).fill(9))
    for (const { file: number, number: message, fields } of gazhdor.messages(bytes))
        if (message >= 100 && message < 140) assert.equal(fields[0].value, number - 1)
})

test("memory that is refused, and a module that stops", async () => {
    const small = await open(undefined, { maximum: 2 ** 21 }), out = new Writer(small)
    const definition = out.define("record", [[200, "byte", 255]])
    let count = 0
    const error = thrown(RangeError, () => { for (;; count++) definition.write(new Map([[200, new Uint8Array(255).fill(1)]])) })
    assert.deepEqual([error.name, count > 100], ["OutOfMemory", true])
    out.close()
    assert.ok(small.check(RIDE).good)
    const stopped = new Writer(await open(trapping("gazhdor_writer_messages")))
    for (let k = 0; k < 2; k++) assert.equal(thrown(Error, () => stopped.write("record", { heart_rate: 5 })).name, "Trapped")
})

test("writers that nobody closes", async () => {
    setFlagsFromString("--expose-gc")
    const gc = runInNewContext("gc"), own = await open(), begin = own.size
    for (let k = 0; k < 2000; k++) {
        new Writer(own).write("record", { heart_rate: 5 })
        if (k % 100 === 0) {
            gc()
            await new Promise(done => setTimeout(done, 5))
        }
    }
    assert.ok(own.size - begin < 2 ** 22, `${own.size - begin} bytes`)
})

test("blocks that lie are refused", () => {
    const source = file(20, [[253, 4, 0x86], [3, 1, 2]], [...le(TIME, 4), 120])
    const [message] = gazhdor.messages(source), out = new Writer(gazhdor)
    out.copy(message)
    assert.deepEqual(read(out.finish()), [{ timestamp: TIME, heart_rate: 120 }])
    const blocks = gazhdor.blocks(source), cut = new Writer(gazhdor)
    cut.file()
    thrown(BlocksRefused, () => cut.putDefinition(blocks.subarray(40, 60)))
    thrown(BlocksRefused, () => cut.begin(joined([blocks.subarray(0, 4), new Uint8Array(40)])))
    cut.write("record", { heart_rate: 7 })
    assert.deepEqual(read(cut.finish()), [{ heart_rate: 7 }])
})
