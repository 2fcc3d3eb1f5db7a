/* Names of the caller and EXTRA: what they make of fields whose items are written here by hand, and what can't be. */
import assert from "node:assert/strict"
import { test } from "node:test"

import { EXTRA, Names, Stream, UnknownName, open } from "../gazhdor.mjs"
import { file, le } from "./bytes.mjs"
import { RIDE, textAt, thrown } from "./tools.mjs"

const gazhdor = await open()
const U8 = 2, S16 = 0x83, U16 = 0x84, U32 = 0x86, FLOAT32 = 0x88

/* The one message of a file whose fields are [number, size, base type, items]. */
function one(fields, names, number = 20) {
    const row = fields.flatMap(([, size, , items]) => items ?? Array(size).fill(255))
    return [...gazhdor.messages(file(number, fields.map(([field, size, type]) => [field, size, type]), row), { names })][0]
}

test("names, units and scales of the caller", () => {
    const fields = [[3, 1, U8, [120]], [200, 2, U16, le(500, 2)], [201, 2, S16, le(65529, 2)]]
    const rise = { name: "rise", unit: "m", scale: 2, offset: 100 }
    const names = [["record", 200, { name: "left", unit: "mm", scale: 10 }], [20, 201, rise], ["record", 3, "pulse"]]
    const message = one(fields, names)
    assert.deepEqual({ ...message.toObject() }, { pulse: 120, left: 50, rise: -103.5 })
    assert.deepEqual(["pulse", "left", "rise"].map(key => message.unit(key)), ["bpm", "mm", "m"])
    assert.deepEqual(message.fields.map(({ exact }) => exact), ["120", "50.0", "-103.5"])
    assert.deepEqual([message.get(200), message.field("left").raw, message.has("heart_rate")], [50, 500, false])
    // A scale that has no end as decimals, one for several numbers of which one is none, and floats, which stand for themselves.
    const phase = one([[69, 2, U8, [16, 255]], [70, 1, U8, [7]], [200, 8, FLOAT32, [0, 0, 0xc0, 0x3f, 0, 0, 0x10, 0x40]]],
        [[20, 69, { name: "phase", scale: 0.7111111 }], [20, 70, { name: "third", scale: 3 }], [20, 200, { name: "own", scale: 100, offset: 5 }]])
    assert.deepEqual([phase.get("phase"), phase.get("third"), phase.get("own")], [[16 / 0.7111111, null], 7 / 3, [1.5, 2.25]])
    assert.deepEqual([phase.field("third").exact, phase.field("own").exact], [String(7 / 3), [1.5, 2.25]])
    const wide = one([[200, 8, 0x8f, le(2 ** 40 + 1, 8)]], [[20, 200, { name: "wide", scale: 0.5, offset: 1 }]])
    assert.equal(wide.get("wide"), (2 ** 40 + 1) * 2 - 1)
})

test("columns and ready values go by the caller's names", () => {
    const rows = [[...le(1147937400, 4), ...le(1147937400, 4), 2], [...le(1147937401, 4), ...le(5, 4), 250]]
    const source = file(20, [[253, 4, U32], [200, 4, U32], [201, 1, 0]], ...rows)
    const names = new Names([["record", 200, { name: "began", type: "date_time" }], ["record", 201, { name: "kind", type: "sport" }]])
    const START = Date.UTC(2026, 4, 17, 7, 30)
    assert.deepEqual([...gazhdor.messages(source, { names, ready: true })].map(values => ({ ...values })), [
        { timestamp: new Date(START), began: new Date(START), kind: "cycling" }, { timestamp: new Date(START + 1000), began: null, kind: "250" }])
    const columns = gazhdor.columns(source, "record", ["began", "kind"], { names, ready: true })
    assert.deepEqual([[...columns.began], columns.kind], [[START, NaN], ["cycling", "250"]])
    assert.deepEqual([...gazhdor.columns(source, "record", ["began"], { names }).began], [1147937400, 5])
    assert.equal([...gazhdor.messages(source, { names, words: true })][0].get("kind"), "cycling")
    assert.equal(thrown(UnknownName, () => gazhdor.columns(source, "record", ["begun"], { names })).nearest, "began")
    thrown(UnknownName, () => gazhdor.columns(source, "record", ["began"]))
})

test("names of messages", () => {
    const source = file(140, [[1, 1, U8]], [5]), names = [[140, "physiology"], ["physiology", 1, "effect"]]
    const [message] = gazhdor.messages(source, { only: "physiology", names })
    assert.deepEqual([message.name, message.number, message.get("effect")], ["physiology", 140, 5])
    thrown(UnknownName, () => gazhdor.messages(source, { only: "physiology" }))
    assert.equal(thrown(UnknownName, () => gazhdor.messages(source, { only: "physology", names })).nearest, "physiology")
    const stream = new Stream(gazhdor, "messages", { names })
    assert.deepEqual([...stream.feed(source), ...stream.finish()].map(({ name }) => name), ["physiology"])
    assert.deepEqual([...gazhdor.columns(source, "physiology", ["effect"], { names }).effect], [5])
    thrown(TypeError, () => new Stream(gazhdor, "table", { names }))
})

test("a text of names", () => {
    const names = new Names("\ufeff# mine\r\n" +
        "message\tmessage name\tfield\tfield name\tunit\tscale\toffset\ttype\n\nrecord\t\t200\tbegan\ts\t\t\tdate_time\n140\tphysiology\n")
    assert.deepEqual([[...names.messages], names.fields(20).get(200).type], [[["physiology", 140]], "date_time"])
    const cases = [["field\tname", "first line"], ["message\tfield\tfield name\nrecords\t1\tx", 'line 2: no message is named "records"'],
        ["message\tfield\tscale\n20\t1\t0", "line 2: a scale can't be 0"], ["message\tfield\tscale\n# it\n20\t1\tnan", "line 3: a scale can't be NaN"],
        ["message\tfield\n20\t256", "line 2: a field is 0 to 255"], ["message\tfield\n20\t1\tx", "line 2: it has more cells"],
        ["message\tfield\tfield name\n20\t1\t.time", 'line 2: ".time" can\'t be a name'],
        ["message\tfield\ttype\n20\t1\tdate", "line 2: a type is"], ["", "first line"]]
    for (const [text, said] of cases) assert.ok(thrown(RangeError, () => new Names(text)).message.includes(said), text)
})

test("what can't be a name", () => {
    const cases = [[[20, 1, ""], RangeError], [[20, 1, "timestamp"], RangeError], [[20, 1, "field_7"], RangeError], [[20, 1, "a\x1b[2J"], RangeError],
        [[20, 1, { scale: Infinity }], RangeError], [[20, 1, { scale: "5" }], TypeError], [["records", 1, "x"], RangeError], [[70000, 1, "x"], RangeError],
        [[140, "record"], RangeError], [[20, "3", "x"], TypeError], [[20, 1, { unit: 5 }], TypeError], [[140, null], TypeError],
        [[20, 1, { colour: "red" }], TypeError],
        [[20], TypeError], [5, TypeError], [[20, 1.5, "x"], RangeError]]
    for (const [told, kind] of cases) thrown(kind, () => new Names([told]))
    thrown(RangeError, () => new Names([[140, "x"], [141, "x"]]))
    for (const told of [5, {}, [["record"]]]) thrown(TypeError, () => gazhdor.messages(RIDE, { names: told }))
})

test("EXTRA has what profile/extra.tsv says, and names can be put together", () => {
    const text = new Names(textAt("profile/extra.tsv"))
    assert.deepEqual([...EXTRA.messages], [...text.messages])
    let count = 0
    for (let number = 0; number < 65536; number++) {
        if (text.fields(number).size === 0 && EXTRA.fields(number).size === 0) continue
        assert.deepEqual([...EXTRA.fields(number)], [...text.fields(number)])
        count += text.fields(number).size
    }
    assert.equal(count, textAt("profile/extra.tsv").trimEnd().split("\n").filter(line => /^\d/.test(line) && line.split("\t")[2] !== "").length)
    const own = EXTRA.with([["session", 110, "mine"], [140, "own"]])
    assert.deepEqual([own, EXTRA].map(names => names.fields(18).get(110).name), ["mine", "sport_profile_name"])
    assert.deepEqual([own.message(140), own.fields(18).size], ["own", EXTRA.fields(18).size])
    const [message] = gazhdor.messages(file(18, [[110, 4, 7]], [0x52, 0x6f, 0, 0]), { names: EXTRA })
    assert.equal(message.get("sport_profile_name"), "Ro")
})
