/* Words for the numbers of fields: what is expected is what the FIT protocol calls these numbers, and what the tables of profile/ have. */
import assert from "node:assert/strict"
import { test } from "node:test"
import { Stream, UnknownName, open, words } from "../gazhdor.mjs"
import { SUBFIELDS, TYPES, WORDS } from "../src/words_table.mjs"
import { textAt, thrown } from "./tools.mjs"

const gazhdor = await open()
const BASES = { enum: 0, uint8: 2, uint16: 132 }, WIDTHS = { enum: 1, uint8: 1, uint16: 2 }

/* The bytes of a file with one message for each row of items: a field is [number, base type, name, how many items]. */
function fileOf(number, name, fields, ...rows) {
    const lines = ["row,a,b,c,d,e,f", "file,14,16,2065,sum,,", `def,0,0,little,${number},${fields.length},`]
    for (const [field, base, , count = 1] of fields) lines.push(`fdef,${field},${WIDTHS[base] * count},${BASES[base]},,,`)
    for (const row of rows) {
        lines.push(`data,0,,${name},,,`)
        row.forEach((items, k) => lines.push(`field,${fields[k][2]},${items},${fields[k][4] ?? ""},,,`))
    }
    return gazhdor.fromCsv([...lines, "end,,,,,,", ""].join("\n"))
}

const SESSION = fileOf(18, "session", [[5, "enum", "sport"], [6, "enum", "sub_sport"], [0, "enum", "event"], [28, "enum", "trigger"]], [2, 253, 9, ""], [1, 1, 8, 0])
const first = (bytes, options) => gazhdor.messages(bytes, options).next().value

test("a message has words beside its numbers", () => {
    const message = first(SESSION)
    assert.deepEqual(["sport", "sub_sport", "event", "trigger", "lap_trigger", 5].map(key => message.word(key)), ["cycling", null, "lap", null, undefined, "cycling"])
    assert.deepEqual([message.get("sport"), message.field("sport").word, message.field("sport").value], [2, "cycling", 2])
})

test("with `words` values are words, and what has none stays as it is", () => {
    const message = first(SESSION, { words: true })
    assert.deepEqual({ ...message.toObject() }, { sport: "cycling", sub_sport: 253, event: "lap", trigger: null })
    const field = message.field("sport")
    assert.deepEqual([field.value, field.word, field.raw, field.exact, `${field}`], ["cycling", "cycling", 2, "cycling", "sport=cycling"])
    assert.deepEqual([message.get("sport"), message.values("sport"), message.word("sub_sport")], ["cycling", ["cycling"], null])
    assert.equal(JSON.parse(JSON.stringify(message)).fields.sport, "cycling")
})

test("columns of words are arrays", () => {
    const found = gazhdor.columns(SESSION, "session", ["sport", "sub_sport", "trigger"], { words: true })
    assert.deepEqual({ ...found }, { sport: ["cycling", "running"], sub_sport: [253, "treadmill"], trigger: [null, "activity_end"] })
    assert.deepEqual(gazhdor.columns(SESSION, "session", ["sport"]).sport, Float64Array.of(2, 1))
})

test("streams have words", async () => {
    const stream = new Stream(gazhdor, "messages", { words: true })
    const made = [...stream.feed(SESSION.subarray(0, 50)), ...stream.feed(SESSION.subarray(50)), ...stream.finish()]
    assert.deepEqual(made.map(message => message.get("sport")), ["cycling", "running"])
    const reader = new Blob([SESSION]).stream().pipeThrough(gazhdor.stream("messages", { words: true })).getReader()
    assert.equal((await reader.read()).value.get("event"), "lap")
    await reader.cancel()
    thrown(TypeError, () => new Stream(gazhdor, "table", { words: true }))
})

test("what a number is called may depend on another field", () => {
    const product = (manufacturer, number) => first(fileOf(0, "file_id", [[1, "uint16", "manufacturer"], [2, "uint16", "product"]], [manufacturer, number]))
    assert.deepEqual([[1, 1169], [15, 1169], [263, 12], [32, 1169], [263, 1169]].map(([who, which]) => product(who, which).word("product")),
        ["edge800", "edge800", "assioma_duo", null, null])
    assert.equal(first(fileOf(0, "file_id", [[2, "uint16", "product"]], [1169])).word("product"), null)
    const device = (source, type) => first(fileOf(23, "device_info", [[1, "uint8", "device_type"], [25, "enum", "field_25"]], [type, source]), { words: true })
    assert.deepEqual([[1, 120], [3, 1], [5, 4], [0, 120]].map(([source, type]) => device(source, type).get("device_type")), ["heart_rate", "heart_rate", "barometer", 120])
})

test("several numbers are several words", () => {
    const message = first(fileOf(225, "message_225", [[7, "uint16", "field_7", 3]], ["7|65534|999"]), { words: true })
    assert.deepEqual([message.get(7), message.word(7), message.field(7).exact], [["curl", "unknown", 999], null, ["curl", "unknown", "999"]])
})

test("the words of a type are a copy", () => {
    assert.deepEqual(words("length_type"), { 0: "idle", 1: "active" })
    words("length_type")[0] = "other"
    assert.equal(words("length_type")[0], "idle")
    assert.equal(thrown(UnknownName, () => words("lengthtype")).nearest, "length_type")
    thrown(UnknownName, () => words("constructor"))
})

test("the tables are those of profile/", () => {
    const rows = (name, ...columns) => {
        const [head, ...lines] = textAt(`profile/${name}.tsv`).trimEnd().split("\n").filter(line => !line.startsWith("#")).map(line => line.split("\t"))
        return lines.map(line => columns.map(column => line[head.indexOf(column)]))
    }
    const listed = rows("words", "type", "number", "word")
    assert.deepEqual(Object.entries(WORDS).flatMap(([type, known]) => Object.entries(known).map(([number, word]) => [type, number, word])), listed)
    const typed = ["fields", "extra"].flatMap(name => rows(name, "message", "field", "type")).filter(([, , type]) => type in WORDS)
    const found = Object.entries(TYPES).flatMap(([message, known]) => Object.entries(known).map(([field, type]) => [message, field, type]))
    assert.deepEqual(found.sort(), typed.sort())
    const cases = rows("subfields", "message", "field", "reference field", "reference number", "type").map(row => row.join(" "))
    assert.deepEqual(Object.entries(SUBFIELDS).flatMap(([message, known]) =>
        Object.entries(known).flatMap(([field, found]) => found.map(of => [message, field, ...of].join(" ")))), cases)
})
