/* The parts of docs/ride.html that need no browser, against arithmetic and against the module of Python; and what hostile files make of them. */
import assert from "node:assert/strict"
import { spawnSync } from "node:child_process"
import { readFileSync, writeFileSync } from "node:fs"
import { join } from "node:path"
import { test } from "node:test"
import { open } from "../gazhdor.mjs"
import { boundsOf, powerCurve, secondsOf, zoneTimes } from "../ride/efforts.mjs"
import { exampleRide } from "../ride/example.mjs"
import { MOST_DEVELOPERS, MOST_POINTS } from "../ride/points.mjs"
import { memoryOf, rideOf } from "../ride/reading.mjs"
import { MOST_DRAWN, across, shownRange, thinned } from "../ride/scales.mjs"
import { duration, unitsOf } from "../ride/units.mjs"
import { developer, paused, run, swim } from "./rides.mjs"
import { RIDE, allFiles, folder, inTree, program, random } from "./tools.mjs"

const gazhdor = await open()
const nothing = () => {}

/* The best mean over each window, looked for one by one. */
function best(power, time) {
    let most = 0
    for (let k = 0; k + time <= power.length; k++) most = Math.max(most, power.slice(k, k + time).reduce((sum, one) => sum + one, 0) / time)
    return most
}

function seeCurve() {
    const any = random(7), power = Array.from({ length: 400 }, () => any(500)), seconds = Float64Array.from(power, (_, k) => k)
    const curve = powerCurve(seconds, Float64Array.from(power))
    assert.deepEqual(curve.map(([time]) => time), [1, 2, 3, 5, 8, 10, 15, 20, 30, 45, 60, 90, 120, 180, 300])
    for (const [time, watts] of curve) assert.ok(Math.abs(watts - best(power, time)) < 1e-9, `${time}`)
    // 100 W for 30 s, a pause of 30 s, 100 W for 30 s: over 60 s that is at most 50 W.
    const paused = Float64Array.from({ length: 60 }, (_, k) => (k < 30 ? k : k + 30)), told = new Map(powerCurve(paused, new Float64Array(60).fill(100)))
    assert.deepEqual([told.get(30), told.get(60)], [100, 50])
    // A record every five seconds stands for five.
    assert.equal(new Map(powerCurve(Float64Array.of(0, 5, 10, 15, 20), new Float64Array(5).fill(200))).get(20), 200)
    // Times that no clock has make no endless work.
    const odd = Float64Array.from({ length: 3000 }, (_, k) => (k % 2 ? 4294967294 : k))
    assert.ok(powerCurve(odd, new Float64Array(3000).fill(250)).every(([time, watts]) => time > 0 && watts <= 250))
}

function seeZones() {
    assert.deepEqual(boundsOf("250", "power"), [138, 188, 225, 263, 300, 375])
    assert.deepEqual(boundsOf("200", "heart"), [120, 140, 160, 180])
    assert.deepEqual(boundsOf(" 120, 140;160 ", "heart"), [120, 140, 160])
    for (const text of ["", "x", "0", "-5", "140 120", "120 120", "1e9", "NaN", "Infinity", Array.from({ length: 13 }, (_, k) => k + 1).join(" ")])
        assert.equal(boundsOf(text, "heart"), null, text)
    const weights = secondsOf(Float64Array.of(0, 1, 2, 12, 13, 100, 101))
    assert.deepEqual([...weights], [1, 1, 10, 1, 1, 1, 1])
    assert.deepEqual(zoneTimes(Float64Array.of(99, 100, 149, 150, NaN, 200, 1), weights, [100, 150]), [2, 11, 2])
}

function seeScales() {
    const column = Float64Array.from({ length: 4000 }, (_, k) => 100 + k % 100)
    assert.deepEqual(shownRange(column, 0, 3999), { low: 100, high: 199 })
    column[17] = 21733
    column[18] = -1e13
    assert.deepEqual(shownRange(column, 0, 3999), { low: 100, high: 199 })
    assert.deepEqual(shownRange(column, 100, 3999), { low: 100, high: 199 })
    // What is little outside is shown, and so is all of a few points.
    column[17] = 240
    column[18] = 60
    assert.deepEqual(shownRange(column, 0, 3999), { low: 60, high: 240 })
    assert.deepEqual(shownRange(Float64Array.of(1, 2, 5000), 0, 2), { low: 1, high: 5000 })
    assert.deepEqual(shownRange(Float64Array.of(NaN, NaN), 0, 1), { low: NaN, high: NaN })
    // The greatest of very many points is drawn, too.
    const many = new Float64Array(200000).fill(5)
    many[123456] = 9
    const xs = Float64Array.from(many, (_, k) => k), frame = across(xs, { from: 0, to: many.length - 1 }, 0, 500)
    const drawn = thinned(frame, xs, many).flat()
    assert.ok(drawn.length <= 4 * 502 && drawn.some(({ y }) => y === 9))
    const toAndFro = Float64Array.from(many, (_, k) => (k % 2 ? 1e9 : 0))
    assert.ok(thinned(across(toAndFro, { from: 0, to: many.length - 1 }, 0, 500), toAndFro, many).flat().length <= MOST_DRAWN + 4)
}

function seeUnits() {
    const metric = unitsOf(false), miles = unitsOf(true)
    assert.deepEqual([metric.distance.text(8558.46), miles.distance.text(8558.46)], ["8.56 km", "5.32 mi"])
    assert.deepEqual([metric.pace.text(4), miles.pace.text(4)], ["4:10 /km", "6:42 /mi"])
    assert.deepEqual([metric.swim.text(.8333), miles.swim.text(.8333)], ["2:00 /100 m", "1:50 /100 yd"])
    assert.deepEqual([metric.temperature.text(20), miles.temperature.text(20), miles.height.text(100)], ["20 °C", "68 °F", "328 ft"])
    assert.deepEqual([metric.steps.text(85), metric.power.text(21733), metric.pace.text(0)], ["170 steps/min", "21,733 W", "– /km"])
    assert.deepEqual(metric.height.lines(235.92240000000004, 235.92240000000004), [[235.92240000000004, "236"]])
    assert.deepEqual(metric.pace.lines(1000 / 330, 1000 / 235).map(([, text]) => text), ["4:00", "4:30", "5:00"])
    assert.deepEqual([duration(3661), duration(59.6), duration(NaN), duration(1e12)], ["1:01:01", "0:01:00", "", ""])
}

/* What the ride has, told in two goes, is what the calls make of it. */
async function seeReading() {
    const files = { ...await allFiles(), "run.fit": run(gazhdor), "swim.fit": swim(gazhdor), "cut.fit": RIDE.subarray(0, 2000), "none.fit": new Uint8Array(0) }
    for (const [name, bytes] of Object.entries(files)) {
        const told = [], ride = rideOf(gazhdor, bytes, share => told.push(share)), answer = gazhdor.check(bytes)
        assert.deepEqual([ride.finding.text, ride.finding.place, ride.finding.files], [`${answer}`, answer.place, answer.files], name)
        assert.ok(told.every((share, k) => share >= (told[k - 1] ?? 0) && share <= 1), name)
        const counts = new Map(), { altitude = [], heart_rate = [] } = ride.points, found = []
        try {
            for (const message of gazhdor.messages(bytes, { partial: true })) {
                const kind = message.name ?? `message_${message.number}`
                counts.set(kind, (counts.get(kind) ?? 0) + 1)
                if (kind === "record") found.push([message.get("enhanced_altitude") ?? message.get("altitude"), message.get("heart_rate")])
            }
        } catch {}
        assert.deepEqual(new Map(ride.counts), counts, name)
        assert.equal(ride.points.length, found.length, name)
        const number = value => (typeof value === "number" ? value : NaN)
        if (altitude.length) assert.deepEqual([...altitude], found.map(([value]) => number(value)), name)
        if (heart_rate.length) assert.deepEqual([...heart_rate], found.map(([, value]) => number(value)), name)
        for (const buffer of memoryOf(ride)) assert.ok(buffer instanceof ArrayBuffer)
    }
}

function seeExample() {
    const bytes = exampleRide(gazhdor), ride = rideOf(gazhdor, bytes, nothing)
    assert.ok(ride.finding.good)
    assert.deepEqual([ride.points.length, ride.laps.length, ride.sessions.length, ride.sessions[0].sport], [3601, 3, 1, 2])
    const sum = ride.laps.reduce((all, { total_distance }) => all + total_distance, 0)
    assert.ok(Math.abs(sum - ride.sessions[0].total_distance) < .05)
    assert.ok(Math.abs(ride.points.distance[3600] - ride.sessions[0].total_distance) < .01)
}

/* GPX and a file without places, as the module of Python makes them. */
async function seePython() {
    const place = folder(), env = { ...process.env, PYTHONPATH: inTree("python") }
    const { "mixed.fit": mixed, "recorded-developer.fit": recorded } = await allFiles()
    const python = (...words) => spawnSync("python3", ["-m", "gazhdor", ...words], { env, maxBuffer: 2 ** 30 })
    const files = [RIDE, mixed, developer(gazhdor), paused(gazhdor), RIDE.subarray(0, 2000), ...(recorded ? [recorded] : [])]
    const paths = files.map((bytes, k) => join(place, `${k}.fit`))
    paths.forEach((path, k) => writeFileSync(path, files[k]))
    assert.equal(files.map(bytes => gazhdor.gpx(bytes, { partial: true })).join(""), String(python("gpx", ...paths).stdout))
    assert.equal(gazhdor.gpx(files[3]).match(/<\/trkseg><trkseg>/g).length, 1) // the timer was stopped once
    for (const k of [0, 1, 2, 5].filter(one => one < files.length)) {
        const edited = python("edit", "--drop", "position", paths[k], join(place, "out.fit"))
        assert.equal(edited.status, 0, `${k}: ${edited.stderr}`)
        assert.deepEqual(Buffer.from(gazhdor.edit(files[k], { drop: ["position"] }).bytes), readFileSync(join(place, "out.fit")), `${k}`)
    }
}

/* A file of a definition and messages of a byte each, which are more than are drawn. */
function many(count, message) {
    const bytes = new Uint8Array(12 + 6 + count + 2), view = new DataView(bytes.buffer)
    bytes.set([12, 32, 0, 0, 0, 0, 0, 0, 0x2e, 0x46, 0x49, 0x54, 0x40, 0, 0, message, 0, 0])
    view.setUint32(4, 6 + count, true)
    return bytes // The sum is wrong, which only shows at the end.
}

function seeMany() {
    const ride = rideOf(gazhdor, many(MOST_POINTS + (1 << 19), 20), nothing)
    assert.ok(ride.isCut)
    assert.equal(ride.points.length, MOST_POINTS)
    assert.deepEqual(ride.counts, [["record", MOST_POINTS + (1 << 19)]])
    assert.equal(memoryOf(ride).length, 0) // columns in which nothing is aren't kept
    for (const [message, rows] of [[18, "sessions"], [19, "laps"], [101, "lengths"]]) {
        const found = rideOf(gazhdor, many(20000, message), nothing)
        assert.deepEqual([found[rows].length, found.counts[0][1]], [2000, 20000])
    }
}

/* 255 developer fields of one file, each with a name of its own. */
function seeManyFields() {
    const described = Array.from({ length: 200 }, (_, k) => `data,4,,field_description,,,\nfield,developer_data_index,0,,,,
field,field_definition_number,${k},,,,\nfield,fit_base_type_id,2,,,,\nfield,field_name,own ${k},,,,\n`).join("")
    const bytes = gazhdor.fromCsv(`row,a,b,c,d,e,f\nfile,12,32,0,none,,\ndef,4,0,little,206,4,\nfdef,0,1,2,,,\nfdef,1,1,2,,,\nfdef,2,1,2,,,\nfdef,3,16,7,,,
${described}def,1,0,little,20,0,200\n${Array.from({ length: 200 }, (_, k) => `ddef,${k},1,0,,,\n`).join("")}data,1,,record,,,
${Array.from({ length: 200 }, (_, k) => `dev,own ${k},${k},,,,\n`).join("")}end,,,,,,\n`)
    const ride = rideOf(gazhdor, bytes, nothing)
    assert.deepEqual([ride.ownCount, ride.points.own.length], [200, MOST_DEVELOPERS])
    assert.deepEqual(ride.points.own.map(({ name, column }) => [name, column[0]]).slice(0, 2), [["own 0", 0], ["own 1", 1]])
}

test("the power curve", seeCurve)
test("zones", seeZones)
test("ranges and lines", seeScales)
test("units", seeUnits)
test("what is read of each file", seeReading)
test("the example", seeExample)
test("GPX and places, as Python has them", program("python3") && process.env.GAZHDOR_LIBRARY ? {} : { skip: "there is no library for Python" }, seePython)
test("very many messages", seeMany)
test("very many developer fields", seeManyFields)
