/* Files that are changed, cut, joined and made whole: byte for byte as the module of Python makes them. */
import assert from "node:assert/strict"
import { spawnSync } from "node:child_process"
import { once } from "node:events"
import { readFileSync, writeFileSync } from "node:fs"
import { join } from "node:path"
import { test } from "node:test"
import { Worker } from "node:worker_threads"

import { EXTRA, UnknownName, WrongValue, Writer, open } from "../gazhdor.mjs"
import { run } from "./rides.mjs"
import { RIDE, allFiles, bytesAt, folder, inTree, needs, thrown } from "./tools.mjs"

const gazhdor = await open()

test("edit, join and mend make what those of Python make", { ...needs("python3"), timeout: 900000 }, async () => {
    const place = folder(), paths = Object.entries(await allFiles()).map(([name, bytes]) => (writeFileSync(join(place, name), bytes), join(place, name)))
    const done = spawnSync("python3", [inTree("js/tests/edited.py"), place, ...paths], { encoding: "utf8" })
    assert.equal(done.status, 0, done.stderr)
    const counts = {}
    for (const { call, inputs, options, made, fault } of JSON.parse(readFileSync(join(place, "edited.json"), "utf8"))) {
        const files = inputs.map(name => bytesAt(join(place, name))), what = JSON.stringify([call, inputs, options, made, fault])
        const calls = { edit: () => gazhdor.edit(files[0], options).bytes, join: () => gazhdor.join(files, options), mend: () => gazhdor.mend(files[0], options) }
        const own = calls[call]
        if (made === undefined) assert.throws(own, what)
        else assert.deepEqual(Buffer.from(own()), readFileSync(join(place, made)), what)
        const label = `${call} ${fault ?? "good"}`
        counts[label] = (counts[label] ?? 0) + 1
    }
    assert.ok(counts["edit good"] > 900 && counts["join good"] > 250 && counts["mend good"] > 100, JSON.stringify(counts))
})

test("what isn't changed keeps its bytes", async () => {
    for (const [name, bytes] of Object.entries(await allFiles())) {
        assert.deepEqual(gazhdor.edit(bytes).bytes, bytes, name)
        assert.deepEqual(gazhdor.join([bytes]), bytes, name)
        assert.deepEqual(gazhdor.mend(bytes), bytes, name)
    }
})

test("what is emptied is told, and what nothing names is an error", () => {
    const { bytes, emptied } = gazhdor.edit(RIDE, { drop: ["position", "lap.9"] })
    assert.deepEqual(emptied.map(({ message, field, count }) => `${message} ${field} ${count}`).sort(), [
        "lap end_position_lat 1", "lap end_position_long 1", "lap start_position_lat 1", "lap start_position_long 1", "lap total_distance 1",
        "record position_lat 144", "record position_long 144"])
    assert.equal([...gazhdor.messages(bytes, { only: "lap" })][0].get("total_distance"), null)
    for (const [drop, nearest] of [["hart_rate", "heart_rate"], ["lapp.sport", "lap"], ["record.hart_rate", "heart_rate"]])
        assert.equal(thrown(UnknownName, () => gazhdor.edit(RIDE, { drop })).nearest, nearest)
    gazhdor.edit(RIDE, { drop: ["200", "cadence", "session.sport", "left_pco"] })
})

test("a span, and times that are moved", () => {
    const START = Date.UTC(2026, 4, 17, 7, 30)
    const cut = gazhdor.edit(RIDE, { begin: "2026-05-17T09:31:40+02:00", end: new Date(START + 200000), shift: 3600 }).bytes
    const times = [...gazhdor.messages(cut, { only: "record" })].map(({ time }) => time.getTime())
    assert.deepEqual([Math.min(...times), Math.max(...times)], [START + 3700000, START + 3800000])
    assert.equal([...gazhdor.messages(cut, { only: "record" })][0].distance, 0)
    const [lap] = gazhdor.messages(cut, { only: "lap" })
    assert.deepEqual([lap.get("total_timer_time"), lap.get("start_time")], [100, (START + 3700000) / 1000 - 631065600])
    for (const changes of [{ begin: 5, end: 6 }, { begin: "2026-05-17" }, { begin: "2026-05-17T07:30:00" }, { end: "2026-02-30T07:30:00Z" }, { shift: 0.5 }])
        thrown(RangeError, () => gazhdor.edit(RIDE, changes))
    thrown(TypeError, () => gazhdor.edit(RIDE, { begin: new Date(NaN) }))
    thrown(WrongValue, () => gazhdor.edit(RIDE, { shift: 2 ** 32 - 1 - 1147937500 }))
})

test("what a reader adds up of a field that is emptied isn't written into another field of a part either", () => {
    const START = 1147937400, out = new Writer(gazhdor, { names: EXTRA }), fields = ["compressed_speed_distance", "cycles", "compressed_accumulated_power"]
    for (let k = 0; k < 10; k++) {
        const speed = (160 * k & 0xFFF) << 12 | 300, bytes = Uint8Array.of(speed, speed >> 8, speed >> 16)
        out.write("record", { timestamp: START + k, [fields[0]]: bytes, [fields[1]]: 3 * k, [fields[2]]: 100 * k })
    }
    const ride = out.finish(), steps = [...Array(7).keys()]
    for (const [at, field] of fields.entries()) {
        for (const drop of [field, `record.${field}`, `${[8, 18, 28][at]}`]) {
            const { bytes, emptied } = gazhdor.edit(ride, { drop, begin: START + 3 })
            assert.deepEqual(emptied, [{ message: "record", field, count: 7 }])
            const records = [...gazhdor.messages(bytes, { only: "record", names: EXTRA })]
            const sums = [steps.map(k => 10 * k), steps.map(k => 3 * (k + 3)), steps.map(k => 100 * (k + 3))]
            sums[at] = steps.map(() => null)
            assert.deepEqual([5, 19, 29].map(number => records.map(record => record.get(number) ?? null)), sums)
            for (const message of gazhdor.messages(bytes, { only: ["lap", "session"] }))
                assert.deepEqual([message.get("total_distance"), message.get("max_speed")], at === 0 ? [undefined, undefined] : [60, 3])
        }
    }
})

test("a lap that is cut keeps its sub_sport, which EXTRA alone names, unless that is emptied", () => {
    const START = 1147937400, out = new Writer(gazhdor, { names: EXTRA })
    for (let k = 0; k < 10; k++) out.write("record", { timestamp: START + k, heart_rate: 60 })
    out.write("lap", { timestamp: START + 9, start_time: START, total_elapsed_time: 9, sport: 2, sub_sport: 6 })
    const data = out.finish()
    for (const [drop, wanted] of [[[], 6], ["lap.39", undefined], ["sub_sport", undefined], ["lap.sport", 6]]) {
        const { bytes } = gazhdor.edit(data, { drop, begin: START + 2, end: START + 6 }), [lap] = gazhdor.messages(bytes, { only: "lap", names: EXTRA })
        assert.deepEqual([lap.get("sub_sport"), lap.get("total_elapsed_time")], [wanted, 4])
    }
})

test("a part whose local time would be beyond 32 bits is told without one", () => {
    const END = 2 ** 32 - 30, out = new Writer(gazhdor)
    for (let time = END - 70; time <= END; time++) out.write("record", { timestamp: time, heart_rate: 60 })
    out.write("session", { timestamp: END, start_time: END - 70, total_elapsed_time: 70, sport: 2 })
    out.write("activity", { timestamp: END - 30, local_timestamp: END + 20, num_sessions: 1 })
    const data = out.finish()
    for (const [begin, local] of [[END - 50, undefined], [END - 70, END + 20]]) {
        const [activity] = gazhdor.messages(gazhdor.edit(data, { begin }).bytes, { only: "activity" })
        assert.deepEqual([activity.get("local_timestamp"), activity.get("num_sessions")], [local, 1])
    }
})

test("the number of a lap stays of its base type; several numbers, a text and bytes are none, and stay", () => {
    const START = 1147937400, bytes = Uint8Array.of(1, 2), one = [7, [0, 1]], numbers = [[1, 2], [[1, 2], [1, 2]]]
    for (const [base, count, [value, wanted]] of [["uint8", 1, one], ["uint32", 1, one], ["float32", 1, one], ["uint16", 2, numbers],
        ["string", 3, ["ab", ["ab", "ab"]]], ["byte", 2, [bytes, [bytes, bytes]]]]) {
        const files = [START, START + 9].map(begin => {
            const out = new Writer(gazhdor)
            out.write("record", { timestamp: begin })
            out.define("lap", [253, 2, 7, [254, base, count]]).write(new Map([[253, begin], [2, begin], [7, 0], [254, value]]))
            return out.finish()
        })
        const laps = [...gazhdor.messages(gazhdor.join(files, { one: true }), { only: "lap" })], [lap] = gazhdor.messages(files[0], { only: "lap" })
        assert.deepEqual(laps.map(message => message.get(254)), wanted)
        for (const message of laps) assert.equal(message.field(254).baseType, lap.field(254).baseType)
    }
})

test("what can't be joined", () => {
    assert.match(thrown(RangeError, () => gazhdor.join([RIDE, RIDE], { one: true })).message, /file 2 begins before/)
    thrown(RangeError, () => gazhdor.join([]))
    assert.equal(gazhdor.check(gazhdor.join([RIDE, run(gazhdor)])).files, 2)
})

test("the Worker changes files, too", async () => {
    const worker = new Worker(new URL("../worker.mjs", import.meta.url))
    const made = async (call, ...words) => {
        const answer = once(worker, "message")
        worker.postMessage({ number: 1, call, words })
        return (await answer)[0].made
    }
    try {
        const { bytes, emptied } = await made("edit", RIDE, { drop: "position" })
        assert.deepEqual([bytes, emptied.length], [gazhdor.edit(RIDE, { drop: "position" }).bytes, 6])
        assert.deepEqual(await made("join", [RIDE, RIDE]), gazhdor.join([RIDE, RIDE]))
        assert.deepEqual(await made("mend", RIDE.subarray(0, 2000), { whole: true }), gazhdor.mend(RIDE.subarray(0, 2000), { whole: true }))
        assert.equal(await made("gpx", RIDE), gazhdor.gpx(RIDE))
        const [lap] = await made("messages", RIDE, { only: "lap", names: [["lap", 9, "way"]] })
        assert.equal(lap.fields.way, 8558.46)
    } finally {
        await worker.terminate()
    }
})
