/* What messages, columns and rows must be: the cells of the CSV text and of the table, which the proved library writes, and values worked out by
 * hand. */
import assert from "node:assert/strict"
import { test } from "node:test"
import { Stream, UnknownName, degrees, open, when } from "../gazhdor.mjs"
import { EXTRA_ROWS, PROFILE } from "../src/names_table.mjs"
import { RIDE, ROWS, allFiles, textAt, thrown } from "./tools.mjs"

const gazhdor = await open()
const files = Object.entries(await allFiles())

/* The cells of a CSV text. */
function rowsOf(text) {
    const rows = []
    let row = [], cell = "", at = 0
    while (at < text.length) {
        let end = at
        if (text[at] === '"') {
            do end = text.indexOf('"', end + 1) + 1; while (text[end] === '"')
            cell = text.slice(at + 1, end - 1).replaceAll('""', '"')
        } else {
            while (text[end] !== "," && text[end] !== "\n") end++
            cell = text.slice(at, end)
        }
        at = end
        row.push(cell)
        if (text[at++] === "\n") {
            rows.push(row)
            row = []
        }
    }
    return rows
}

const hex = (number, digits) => `0x${BigInt(number).toString(16).toUpperCase().padStart(digits, "0")}`
const hexBytes = bytes => `0x${Buffer.from(bytes).toString("hex").toUpperCase()}`

/* The cell of a field by docs/CSV.md, from what the message says of it. */
function cellOf(field) {
    const { raw, exact, baseType } = field
    if (raw instanceof Uint8Array) {
        if (raw.length === 0) return ""
        const zero = raw.findLastIndex(byte => byte !== 0) + 1, text = Buffer.from(raw.subarray(0, zero)).toString()
        const isText = baseType === 7 && Buffer.from(text).equals(Buffer.from(raw.subarray(0, zero))) && !/[\x00-\x1f\x7f]/.test(text) && !text.startsWith("0x")
        return isText ? text : hexBytes(raw)
    }
    const items = Array.isArray(raw) ? raw : [raw]
    if (baseType === 0x88 || baseType === 0x89) return items.map(item => hex(item, baseType === 0x88 ? 8 : 16)).join("|")
    return Array.isArray(exact) ? exact.map(item => item ?? "").join("|") : exact ?? ""
}

const timeText = time => (time instanceof Date ? time.toISOString().replace(".000Z", "Z") : time ?? "")

/* Whether a value is the number that is nearest to its text. */
function seeValue(value, exact, what) {
    if (Array.isArray(value)) value.forEach((one, k) => seeValue(one, exact[k], what))
    else if (typeof exact === "string" && typeof value === "bigint") assert.ok(!Number.isSafeInteger(Number(value)) && `${value}` === exact, what)
    else if (typeof exact === "string" && typeof value === "number") assert.equal(value, Number(exact), what)
}

const NUMBERS = [0, 1, 2, 10, 131, 132, 133, 134, 136, 137, 139, 140, 142, 143, 144] // the codes of numbers

/* Whether a value is the text up to the first zero, or the bytes, and null only where there is none. */
function seeBytes({ value, raw, baseType }, what) {
    if (baseType === 7) assert.equal(value ?? "", Buffer.from(raw).toString().split("\0")[0], what)
    else if (raw.length === 0 || (!NUMBERS.includes(baseType) && raw.every(byte => byte === 0xff))) assert.equal(value, null, what)
    else assert.deepEqual(value, raw, what)
}

function seeMessage(message, [, local, offset, name, time], cells) {
    const what = `${name} at ${message.place}`, { fields } = message
    assert.equal(message.name ?? `message_${message.number}`, name)
    const told = [String(message.local), message.timeOffset === null ? "" : String(message.timeOffset), timeText(message.headerTime)]
    assert.deepEqual(told, [local, offset, time], what)
    assert.equal(fields.length, cells.length, what)
    fields.forEach((field, k) => {
        const [kind, label, cell, unit] = cells[k]
        assert.equal(field.developer === null, kind === "field", what)
        assert.equal(field.name ?? (field.developer === null ? `field_${field.number}` : `dev_${field.developer}_${field.number}`), label, what)
        assert.equal(field.unit ?? "", unit, what)
        assert.equal(cellOf(field), cell, `${what}: ${label}`)
        const first = fields.findIndex(one => one.number === field.number && one.developer === field.developer) === k
        if (first) assert.deepEqual(message.get(field.developer === null ? field.number : [field.developer, field.number]), field.value, what)
        if (field.raw instanceof Uint8Array) seeBytes(field, `${what}: ${label}`)
        else seeValue(field.value, field.exact, `${what}: ${label}`)
    })
}

test("each field of each message is as in its cell", () => {
    for (const [name, bytes] of files) {
        const rows = rowsOf(gazhdor.toCsv(bytes)), messages = gazhdor.messages(bytes)
        let count = 0
        for (let k = 0; k < rows.length; k++) {
            if (rows[k][0] !== "data") continue
            let end = k + 1
            while (rows[end][0] === "field" || rows[end][0] === "dev") end++
            seeMessage(messages.next().value, rows[k], rows.slice(k + 1, end))
            count++
        }
        assert.ok(messages.next().done && (count > 0 || bytes.length < 100), name)
    }
})

test("rows are those of the table", () => {
    for (const [, bytes] of files) {
        const [head, ...lines] = gazhdor.tableText(bytes).trimEnd().split("\n"), rows = [...gazhdor.table(bytes)]
        assert.equal(rows.length, lines.length)
        rows.forEach((row, k) => {
            assert.deepEqual(Object.keys(row), head.split(","))
            const cells = lines[k].split(",")
            const wanted = cells.map((cell, at) => (at === 1 || cell === "" ? cell : Number(cell)))
            assert.deepEqual(Object.values(row).map((value, at) => (at === 1 ? timeText(value) : value ?? "")), wanted)
        })
    }
})

const numberOf = value => (value === null ? NaN : Number(value))
const sameNumber = (one, other) => (Number.isNaN(one) ? Number.isNaN(other) : one === other)

test("columns are the values of the messages", () => {
    for (const [file, bytes] of files) {
        const messages = [...gazhdor.messages(bytes)]
        for (const number of new Set(messages.map(message => message.number))) {
            const of = messages.filter(message => message.number === number), columns = gazhdor.columns(bytes, number)
            const labels = new Set(of.flatMap(message => Object.keys(message.toObject())))
            labels.delete("timestamp")
            assert.deepEqual(Object.keys(columns).filter(label => label !== "timestamp").sort(), [...labels].sort(), file)
            for (const [label, column] of Object.entries(columns)) {
                assert.equal(column.length, of.length)
                of.forEach((message, k) => {
                    const value = label === "timestamp" ? (message.time instanceof Date ? message.time.getTime() : null) : message.get(label) ?? null
                    if (!(column instanceof Float64Array)) assert.deepEqual(column[k], value)
                    else assert.ok(sameNumber(column[k], numberOf(value)), `${file}: ${label} of ${number}, message ${k}`)
                })
            }
        }
    }
})

test("columns of what a message tells of itself", () => {
    for (const [, bytes] of files) {
        const names = {
            ".file": "file", ".place": "place", ".local": "local", ".seconds": "seconds", ".speed": "speed", ".distance": "distance",
            ".total_cycles": "totalCycles", ".accumulated_power": "accumulatedPower",
        }
        const columns = gazhdor.columns(bytes, "record", [...Object.keys(names), ".latitude", ".longitude", ".time", "calories"])
        let k = 0
        for (const message of gazhdor.messages(bytes, { only: 20 })) {
            for (const [label, name] of Object.entries(names)) assert.ok(sameNumber(columns[label][k], numberOf(message[name])), `${label} ${k}`)
            const there = { latitude: columns[".latitude"][k], longitude: columns[".longitude"][k] }
            if (message.position !== null) assert.deepEqual(there, message.position)
            else assert.ok(Number.isNaN(there.latitude + there.longitude))
            assert.ok(sameNumber(columns[".time"][k], message.time instanceof Date ? message.time.getTime() : NaN))
            k++
        }
        assert.equal(columns[".file"].length, k)
    }
})

const described = (number, code, name) => `data,0,,field_description,,,
field,developer_data_index,0,,,,
field,field_definition_number,${number},,,,
field,fit_base_type_id,${code},,,,
field,field_name,${name},,,,
field,units,,,,,
`

test("names that would hide others, and numbers of 64 bits", () => {
    const names = ["timestamp", "field_3", ".time", "__proto__", "heart_rate"]
    const text = `${ROWS}${names.map((name, k) => described(k, 2, name)).join("")}def,1,0,little,20,5,5
fdef,253,4,134,,,
fdef,3,1,2,,,
fdef,2,8,143,,,
fdef,200,8,142,,,
fdef,6,4,136,,,
${names.map((_, k) => `ddef,${k},1,0,,,\n`).join("")}data,1,,record,,,
field,timestamp,1000000000,s,,,
field,heart_rate,120,bpm,,,
field,altitude,1801439850948198.4,m,,,
field,field_200,-9007199254740993,,,,
field,speed,0x40A00000,m/s,,,
${names.map((name, k) => `dev,${name},${k + 1},,,,\n`).join("")}end,,,,,,
`
    const [, , , , , message] = gazhdor.messages(gazhdor.fromCsv(text))
    const labels = ["__proto__", "altitude", "dev_0_0", "dev_0_1", "dev_0_2", "dev_0_4", "field_200", "heart_rate", "speed", "timestamp"]
    assert.deepEqual(Object.keys(message.toObject()).sort(), labels)
    // A developer field that is called field_3 isn't found by that, which would be field 3 if that had no name.
    const keys = ["timestamp", "heart_rate", [0, 4], [0, 1], "field_3", 3]
    assert.deepEqual(keys.map(key => message.get(key)), [1000000000, 120, 5, 2, undefined, 120])
    assert.equal(message.get("__proto__"), 4)
    assert.equal(message.get("field_200"), -9007199254740993n)
    // (9007199254740992 + 2500) / 5 - 500, whose nearest number has the text of the cell
    assert.equal(message.get("altitude"), 1801439850948198.4)
    assert.equal(message.field("altitude").exact, "1801439850948198.4")
    assert.equal(message.time.toISOString(), "2021-09-08T01:46:40.000Z")
    assert.deepEqual(JSON.parse(JSON.stringify(message)).fields.field_200, "-9007199254740993")
    const columns = gazhdor.columns(gazhdor.fromCsv(text), "record")
    assert.deepEqual([columns.timestamp[0], columns.heart_rate[0], columns.dev_0_4[0], columns["__proto__"][0]], [1631065600000, 120, 5, 4])
})

test("names, units, times and what isn't there", () => {
    const [first] = gazhdor.messages(RIDE, { only: "record" })
    assert.deepEqual([first.name, first.number, first.local, first.file], ["record", 20, 5, 1])
    assert.deepEqual([first.unit("altitude"), first.get("altitude"), first.has("altitude")], ["m", 408, true])
    assert.deepEqual([first.unit("power"), first.get("power"), first.has("power"), first.field("power")], [undefined, undefined, false, undefined])
    assert.equal(first.time.toISOString(), "2026-05-17T07:30:00.000Z")
    assert.ok(Math.abs(first.position.latitude - 47.3) < 1e-7 && Math.abs(first.position.longitude - 8.568) < 1e-7)
    assert.deepEqual(first.values("altitude"), [408])
    assert.deepEqual(first.values("power"), [])
    assert.equal(String(first.field("altitude")), "altitude=408 m")
    assert.deepEqual([...new Map(first).keys()], first.fields.map(field => field.name))
    assert.equal(degrees(2 ** 30), 90)
    assert.deepEqual([when(0), when(268435455), when(null), when(undefined)], ["system+0", "system+268435455", null, null])
    assert.equal(when(268435456).toISOString(), "1998-07-03T21:24:16.000Z")
    thrown(TypeError, () => first.get({}))
    thrown(TypeError, () => when("1"))
})

test("only some messages", () => {
    const all = [...gazhdor.messages(RIDE)]
    const placesOf = messages => messages.map(({ place }) => place)
    for (const [only, wanted] of [["lap", ["lap"]], [20, ["record"]], [["lap", 20], ["lap", "record"]], [new Set([99999]), []], [[], []]])
        assert.deepEqual(placesOf([...gazhdor.messages(RIDE, { only })]), placesOf(all.filter(({ name }) => wanted.includes(name))))
    for (const only of [{}, [null], true, [["lap"]]]) thrown(TypeError, () => gazhdor.messages(RIDE, { only }))
})

test("names that nothing has", () => {
    for (const [table, rows] of [["fields", PROFILE], ["extra", EXTRA_ROWS]]) {
        const lines = textAt(`profile/${table}.tsv`).replace(/\n$/, "").split("\n").filter(line => !/^(#|message\t)/.test(line)).map(line => line.split("\t"))
        const cells = (...front) => field => [...front, ...Array.from({ length: 7 }, (_, k) => field[k] ?? "")].map(String)
        const told = rows.flatMap(([number, message, fields]) => fields.map(cells(number, message)))
        assert.deepEqual(told, lines)
    }
    const only = { only: ["record", "laps"] }
    for (const call of [() => gazhdor.messages(RIDE, only), () => gazhdor.columns(RIDE, "laps"), () => new Stream(gazhdor, "messages", only)])
        assert.deepEqual([thrown(UnknownName, call).nearest, thrown(UnknownName, call).message], ["lap", 'no message is named "laps": is it "lap"?'])
    const near = { hart_rate: "heart_rate", Altitude: "altitude", ".latitud": ".latitude", ["x".repeat(10 ** 6)]: null, valueOf: null }
    for (const [name, nearest] of Object.entries(near))
        assert.equal(thrown(UnknownName, () => gazhdor.columns(RIDE, "record", ["altitude", name])).nearest, nearest)
    thrown(UnknownName, () => gazhdor.columns(RIDE, "lap", ["position_lat"]))
    const labels = ["power", "field_5", "dev_3_4", "field_77", "dev_0_1"]
    assert.deepEqual(Object.keys(gazhdor.columns(RIDE, 20, ["power", 5, [3, 4], "field_77", "dev_0_1"])), labels)
    assert.deepEqual(gazhdor.columns(RIDE, 31, ["field_5"]).field_5, ["Lake loop"])
})
