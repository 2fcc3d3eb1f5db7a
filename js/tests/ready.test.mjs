/* Values that are ready to use, what a record says as the table has it, and what is no time and no request. */
import assert from "node:assert/strict"
import { once } from "node:events"
import { test } from "node:test"
import { Worker } from "node:worker_threads"

import { open, when } from "../gazhdor.mjs"
import { file, le } from "./bytes.mjs"
import { RIDE } from "./tools.mjs"

const gazhdor = await open()
const TIME = 1147937400, START = new Date(Date.UTC(2026, 4, 17, 7, 30))

test("values that are ready to use", () => {
    const fields = [[253, 4, 0x86], [2, 4, 0x86], [3, 4, 0x85], [5, 1, 0], [6, 1, 0], [9, 4, 0x86], [200, 2, 13], [201, 6, 0x84], [110, 4, 7], [202, 4, 0x88]]
    const row = [...le(TIME, 4), ...le(TIME, 4), ...le(2 ** 29, 4), 2, 200, ...le(12345, 4), 1, 0xFE, 1, 0, 0xFF, 0xFF, 3, 0, 0x52, 0x6F, 0, 0, 0, 0, 0x80, 0x7F]
    const [session] = gazhdor.messages(file(18, fields, row), { ready: true })
    assert.deepEqual({ ...session }, {
        timestamp: START, start_time: START, start_position_lat: 45, sport: "cycling", sub_sport: "200", total_distance: 123.45, field_200: "0x01FE",
        field_201_0: 1, field_201_1: null, field_201_2: 3, field_110: "Ro", field_202: null,
    })
    const columns = gazhdor.columns(file(18, fields, row), "session", undefined, { ready: true })
    assert.deepEqual(Object.fromEntries(Object.entries(columns).map(([label, [value]]) => [label, value])), {
        timestamp: START.getTime(), start_time: START.getTime(), start_position_lat: 45, sport: "cycling", sub_sport: "200", total_distance: 123.45,
        field_200: "0x01FE", field_201_0: 1, field_201_1: NaN, field_201_2: 3, field_110: "Ro", field_202: Infinity,
    })
    for (const values of gazhdor.messages(RIDE, { ready: true }))
        for (const value of Object.values(values)) assert.ok(value === null || value instanceof Date || ["number", "string"].includes(typeof value))
})

test("a record as the table has it", () => {
    const fields = [[253, 4, 0x86], [2, 2, 0x84], [78, 4, 0x86], [6, 2, 0x84], [73, 4, 0x86], [5, 4, 0x86], [8, 3, 13]], none = 2 ** 32 - 1
    const rows = [[2500, 3000, 7000, 8000, 100, [0x64, 0, 0x10]], [2500, none, 7000, none, none, [0x64, 0, 0x20]], [65535, 3100, 65535, none, 300, [0x64, 0, 0x30]],
        [65535, none, 65535, 8000, none, [255, 255, 255]]]
    const source = file(20, fields, ...rows.map(([a, b, c, d, e, f], k) => [...le(TIME + k, 4), ...le(a, 2), ...le(b, 4), ...le(c, 2), ...le(d, 4), ...le(e, 4), ...f]))
    const wanted = [...gazhdor.table(source)].map(({ speed, altitude, distance }) => [speed, altitude, distance])
    assert.deepEqual(wanted.map(([speed]) => speed), [8, 7, 1, 8])
    assert.deepEqual([...gazhdor.messages(source)].map(({ speed, altitude, distance }) => [speed, altitude, distance]), wanted)
    const columns = gazhdor.columns(source, "record", [".speed", ".altitude", ".distance"])
    const found = wanted.map((_, k) => Object.values(columns).map(column => (Number.isNaN(column[k]) ? null : column[k])))
    assert.deepEqual(found, wanted)
})

test("what is no time", () => {
    for (const seconds of [NaN, Infinity, -5, 1e20, null, undefined]) assert.equal(when(seconds), null)
    assert.deepEqual([when(0), when(TIME)], ["system+0", START])
})

test("a Worker answers what is no request, and goes on", async () => {
    const worker = new Worker(new URL("../worker.mjs", import.meta.url))
    try {
        for (const request of [null, undefined, 5, "check", {}, { call: "check" }, { call: "check", words: 5 }]) {
            const answer = once(worker, "message")
            worker.postMessage(request)
            assert.equal((await answer)[0].error.name, "TypeError")
        }
        const answer = once(worker, "message")
        worker.postMessage({ number: 1, call: "check", words: [RIDE] })
        assert.equal((await answer)[0].made.good, true)
    } finally {
        await worker.terminate()
    }
})
