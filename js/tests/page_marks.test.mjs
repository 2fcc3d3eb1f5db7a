/* What is marked, zoomed, pointed at and kept on docs/ride.html, and two rides beside each other. */
import assert from "node:assert/strict"
import { existsSync, readFileSync, rmSync } from "node:fs"
import { join } from "node:path"
import { test } from "node:test"
import { click, gazhdor, handed, how, laid, pageWith, place, press, saved, seeQuiet, texts } from "./page_tools.mjs"
import { BEGIN, run, spike, toAndFro, triathlon } from "./rides.mjs"
import { RIDE } from "./tools.mjs"

const CHARTS = ["speed", "heart_rate", "cadence"]

/* Draws the mouse along a chart, from one share of its width to another. */
async function dragged(page, chart, from, to) {
    const { left, width, y } = await page.value(`(() => {
        const box = document.querySelector("#${chart} svg").getBoundingClientRect()
        return { left: box.left + 44, width: box.width - 50, y: box.top + 30 }
    })()`)
    const mouse = (type, share, buttons) => page.ask("Input.dispatchMouseEvent", { type, x: left + share * width, y, button: "left", buttons, clickCount: 1 })
    await mouse("mousePressed", from, 1)
    for (let k = 1; k <= 5; k++) await mouse("mouseMoved", from + (to - from) * k / 5, 1)
    await mouse("mouseReleased", to, 0)
}

const key = (page, name, modifiers = 0) => page.ask("Input.dispatchKeyEvent", { type: "keyDown", key: name, modifiers }).then(() =>
    page.ask("Input.dispatchKeyEvent", { type: "keyUp", key: name, modifiers }))
const words = async (page, selector) => (await page.text(selector)).replace(/\s+/g, " ")
const bands = page => page.value(`${JSON.stringify(CHARTS)}.map(name => document.querySelector("#" + name + " .band"))
    .map(band => [band.getAttribute("visibility"), Math.round(band.getAttribute("width"))])`)

/* A lap lights up on charts and track, and its numbers are those of 250 s at 4 m/s. */
async function seeLap() {
    const page = await pageWith("run.fit", run(gazhdor))
    assert.deepEqual(await bands(page), CHARTS.map(() => ["hidden", 0]))
    await click(page, "#laps tbody tr:nth-child(2) button")
    assert.match(await words(page, "#marked"), /^Lap 2 1\.00 km distance 0:04:10 time 4:10 \/km mean pace .* 170 steps\/min/)
    const width = await page.value("document.querySelector('#speed svg').clientWidth - 50")
    for (const [visibility, band] of await bands(page)) {
        assert.equal(visibility, "visible")
        assert.ok(Math.abs(band - width * 250 / 1200) <= 2, `${band} of ${width}`)
    }
    assert.ok(await page.value("document.querySelector('#track .lit').getAttribute('d').length > 100"))
    assert.deepEqual(await texts(page, "#laps tr.lit th"), ["2"])
    const told = bytes => [...gazhdor.messages(bytes, { only: "lap" })].map(message => ({ ...message.toObject() }))
    assert.deepEqual(told(await part(page, "run-part.fit")).filter(({ start_time: start }) => start === BEGIN + 250), [told(run(gazhdor))[1]])
    await press(page, "Zoom in")
    assert.deepEqual((await texts(page, "#cadence svg text")).filter(text => /^\d:\d\d/.test(text)), ["0:05", "0:06", "0:07", "0:08"])
    await press(page, "Whole ride")
    await press(page, "Clear")
    assert.ok(await page.value("document.querySelector('#marked').hidden"))
    assert.equal(await page.value("document.querySelectorAll('.lit[visibility=visible], tr.lit').length"), 0)
    seeQuiet(page)
}

/* What is marked, saved as a FIT file. */
async function part(page, name) {
    await page.value("document.querySelector('#saved').textContent = ''")
    await press(page, "Save as FIT file")
    await page.until("document.querySelector('#saved').textContent !== ''")
    assert.ok((await page.text("#saved")).startsWith(`${name}: `), await page.text("#saved"))
    for (let k = 0; k < 100 && !existsSync(join(place, name)); k++) await new Promise(wait => setTimeout(wait, 50))
    const bytes = readFileSync(join(place, name))
    rmSync(join(place, name))
    assert.ok(gazhdor.check(bytes).good)
    return bytes
}

async function seeDragged() {
    const page = await pageWith("run.fit", run(gazhdor))
    await dragged(page, "speed", .25, .75)
    const told = /^Marked part (\d\.\d\d) km distance 0:(\d\d):(\d\d) time 4:10 \/km/.exec(await words(page, "#marked"))
    assert.ok(Math.abs(told[1] - 2.4) < .02, told[0]) // half of 1,200 s at 4 m/s
    assert.ok(Math.abs(60 * told[2] + Number(told[3]) - 600) <= 4, told[0])
    await page.value("document.querySelector('#saved').textContent = ''")
    await press(page, "Save as GPX")
    await page.until("document.querySelector('#saved').textContent !== ''")
    await new Promise(wait => setTimeout(wait, 300))
    const points = String(readFileSync(join(place, "run-part.gpx"))).match(/<trkpt /g).length
    assert.equal(points - 1, 60 * told[2] + Number(told[3]))
    const records = [...gazhdor.messages(await part(page, "run-part.fit"), { only: "record" })]
    assert.deepEqual([records.length, records[0].distance], [points, 0])
    await press(page, "distance") // what is marked stays
    assert.match(await words(page, "#marked"), new RegExp(`^Marked part ${told[1]} km`))
    seeQuiet(page)
}

/* A finger points, and marks once that is asked for. */
async function seeFinger() {
    const page = await pageWith("run.fit", run(gazhdor), { width: 390, height: 844, scale: 2 })
    await page.ask("Emulation.setTouchEmulationEnabled", { enabled: true })
    await page.value("document.querySelector('#heart_rate').scrollIntoView({ block: 'center' })")
    const { left, width, y } = await page.value(`(({ left, width, top }) => ({ left, width, y: top + 30 }))(document.querySelector("#heart_rate svg").getBoundingClientRect())`)
    const touch = (type, ...shares) => page.ask("Input.dispatchTouchEvent", { type, touchPoints: shares.map(share => ({ x: left + share * width, y })) })
    const draw = async () => {
        await touch("touchStart", .3)
        for (const share of [.4, .5, .6]) await touch("touchMove", share)
        await touch("touchEnd")
    }
    await draw()
    assert.equal(await page.value("document.querySelector('#marked').hidden"), true)
    await press(page, "Mark with a finger")
    await draw()
    assert.match(await words(page, "#marked"), /^Marked part 1\.[4-9]\d km/) // 0.3 of the width, of 4.8 km over all but the labels
    seeQuiet(page)
}

async function seeDistance() {
    const page = await pageWith("run.fit", run(gazhdor))
    await press(page, "distance")
    assert.deepEqual((await texts(page, "#cadence svg text")).slice(-4), ["1", "2", "3", "4"])
    assert.equal(await page.value("location.hash"), "#by=distance")
    await page.value("document.querySelector('#heart_rate svg').focus()")
    await key(page, "End")
    assert.equal(await page.text("#heart_rate output"), "4.80 km  120 bpm")
    await press(page, "time")
    assert.equal(await page.value("location.hash"), "")
}

/* Keys move what is pointed at, mark, zoom and go back; a reader of the screen hears it as the chart's value. */
async function seeKeys() {
    const page = await pageWith("run.fit", run(gazhdor)), told = () => page.value("document.querySelector('#heart_rate svg').getAttribute('aria-valuetext')")
    await page.value("document.querySelector('#heart_rate svg').focus()")
    await key(page, "Home")
    assert.equal(await told(), "0:00:00  120 bpm")
    await key(page, "ArrowRight")
    const [, seconds, beats] = /^0:00:(\d\d) +(\d+) bpm$/.exec(await told())
    assert.ok(seconds > 0 && Number(beats) === 120 + seconds % 40)
    await key(page, "ArrowLeft")
    assert.equal(await told(), "0:00:00  120 bpm")
    await key(page, "PageUp", 8)
    assert.match(await words(page, "#marked"), /^Marked part 0\.4\d km distance 0:0[12]:\d\d time/)
    await key(page, "Enter")
    const [low, high] = await page.value("['min', 'max'].map(end => Number(document.querySelector('#speed svg').getAttribute(`aria-value${end}`)))")
    assert.ok(low === 0 && high > 100 && high < 140, `${low} to ${high}`)
    await key(page, "Escape")
    await key(page, "Escape")
    assert.ok(await page.value("document.querySelector('#marked').hidden"))
    assert.equal(await page.value("document.querySelector('#speed svg').getAttribute('aria-valuemax')"), "1200")
    assert.equal(await page.value("document.querySelector('#track circle:last-child').getAttribute('visibility')"), "visible")
    seeQuiet(page)
}

/* The circle of the run is 2 * 0.008 degrees high, which are 1,779 m: so long is the bar that says how long it is. */
async function seeTrack() {
    const page = await pageWith("run.fit", run(gazhdor)), number = expression => page.value(`Number(${expression})`)
    const height = await number("document.querySelector('#track .drawn').getBBox().height"), metres = .016 * 111195
    const bar = await number("document.querySelector('#track .scale').getBBox().width")
    const [, told, unit] = /^(\d+) (m|km)$/.exec(await page.value("document.querySelector('#track .scale + text').textContent"))
    assert.ok(Math.abs(bar * metres / height / (told * (unit === "km" ? 1000 : 1)) - 1) < .02, `${bar} of ${height}: ${told} ${unit}`)
    assert.deepEqual(await texts(page, "#track .end"), ["start", "end"])
    await page.value("(select => { select.value = 'heart_rate'; select.onchange() })(document.querySelector('#track select'))")
    assert.equal(await number("document.querySelectorAll('#track .shade').length"), 7)
    assert.ok((await texts(page, "#track svg text")).includes("120 to 159 bpm"))
    assert.equal(await page.value("location.hash"), "#colour=heart_rate")
    await click(page, "#example") // it ends where it begins: both can be seen
    await page.until("document.querySelector('#finding').textContent.startsWith('example.fit: a good')")
    assert.deepEqual(await texts(page, "#track .end"), ["start, end"])
    const wide = end => number(`document.querySelector('#track .${end}').getBBox().width`)
    assert.ok(await wide("start") > await wide("finish") + 5)
    seeQuiet(page)
}

/* Zones by the user's numbers, which are in the address and nowhere else. */
async function seeZones() {
    const page = await pageWith("spike.fit", spike(gazhdor))
    await page.value("(input => { input.value = '200 240'; input.oninput() })(document.querySelector('#zones-power'))")
    const shown = await texts(page, "#zones-power ~ .bars tr")
    assert.deepEqual(shown.map(text => /^\d(.* W)/.exec(text)[1]), ["below 200 W", "200 to 239 W", "from 240 W"])
    const seconds = shown.map(text => /0:(\d\d):(\d\d)/.exec(text)).map(([, minutes, rest]) => 60 * minutes + Number(rest))
    assert.equal(seconds.reduce((sum, one) => sum + one, 0), 2400)
    assert.ok(Math.abs(seconds[0] - 600) <= 1 && Math.abs(seconds[1] - 1200) <= 1) // 20 and 40 of 80 values
    await page.value("(input => { input.value = '200 100'; input.oninput() })(document.querySelector('#zones-power'))")
    assert.match(await page.text("#zones-power ~ .bars"), /several that rise/)
    await page.value("(input => { input.value = '200'; input.oninput() })(document.querySelector('#zones-heart'))")
    const hearts = ["below 120 bpm", "120 to 139 bpm", "140 to 159 bpm", "160 to 179 bpm", "from 180 bpm"]
    assert.deepEqual(await texts(page, "#zones-heart ~ .bars td:nth-child(2)"), hearts)
    assert.equal(await page.value("location.hash"), "#heart=200")
    seeQuiet(page)
    const again = await pageWith("spike.fit", spike(gazhdor), { hash: "#power=250&heart=<b>&units=miles&colour=x" })
    assert.equal(await again.value("document.querySelector('#zones-power').value + document.querySelector('#zones-heart').value"), "250")
    assert.match(await words(again, "#summary"), /13\.42 mi .* 20\.1 mph/) // 21,600 m, 9 m/s
    seeQuiet(again)
}

async function seeUnits() {
    const page = await pageWith("ride.fit", RIDE)
    await press(page, "mi, ft")
    assert.match(await words(page, "#summary"), /5\.32 mi/) // 8,558.46 m
    assert.equal(await page.text("#altitude output"), "1,283 to 1,394 ft") // 391 and 425 m
    await page.give(laid("triathlon.fit", triathlon(gazhdor)))
    assert.match(await words(page, "#summary"), /547 yd distance 0:10:00 time 1:50 \/100 yd/) // 500 m in 600 s
    assert.match(await words(page, "#summary"), /3\.11 mi distance 0:20:50 time 6:42 \/mi/) // 5,000 m in 1,250 s
    await press(page, "km, m")
    assert.match(await words(page, "#summary"), /5\.00 km/)
    await page.give(laid("run.fit", run(gazhdor)))
    assert.equal(await page.text("#speed output"), "4:10 /km")
}

async function seeBeside() {
    const page = await pageWith("spike.fit", spike(gazhdor))
    await page.give(laid("run.fit", run(gazhdor)), "#other")
    assert.deepEqual(await texts(page, "#besides thead th"), ["spike.fit", "run.fit"])
    const rows = (await page.value("[...document.querySelectorAll('#besides tbody tr')].map(row => [...row.cells].map(cell => cell.textContent))"))
        .filter(([name]) => ["Sport", "Distance", "Time", "Speed", "Cadence"].includes(name))
    assert.deepEqual(rows, [["Sport", "Cycling", "Running"], ["Distance", "21.60 km", "4.80 km"], ["Time", "0:40:00", "0:20:00"],
        ["Speed", "32.4 km/h", "4:10 /km"], ["Cadence", "85 rpm", "170 steps/min"]])
    const second = "[...document.querySelectorAll('svg .beside')].map(one => one.closest('.plot').id)"
    assert.deepEqual((await page.value(second)).sort(), ["cadence", "heart_rate", "speed", "track"])
    // One that is stopped ends the Worker; what is saved then is of the first all the same.
    await handed(page, laid("long.fit", toAndFro(400000)), "#other")
    await page.until("document.querySelector('#finding button')?.textContent === 'Stop'", 10)
    await press(page, "Stop")
    assert.deepEqual(await saved(page, "table", "spike.table.csv"), Buffer.from(gazhdor.tableText(spike(gazhdor))))
    await press(page, "Put it away")
    assert.deepEqual(await page.value(second), [])
    assert.equal(await page.value("document.querySelector('#besides').childElementCount"), 0)
    seeQuiet(page)
}

/* Of two files that are dropped at once the second is beside the first. */
async function seeDropped() {
    const page = await pageWith()
    await page.value(`(files => {
        const dataTransfer = new DataTransfer()
        for (const [name, text] of files) dataTransfer.items.add(new File([Uint8Array.from(atob(text), letter => letter.charCodeAt(0))], name))
        document.dispatchEvent(new DragEvent("drop", { dataTransfer, cancelable: true }))
    })(${JSON.stringify([["ride.fit", RIDE], ["run.fit", run(gazhdor)]].map(([name, bytes]) => [name, Buffer.from(bytes).toString("base64")]))})`)
    await page.until("document.querySelectorAll('#besides thead th').length === 2")
    assert.deepEqual(await texts(page, "#besides thead th"), ["ride.fit", "run.fit"])
    assert.match(await page.text("#summary"), /8\.56 km/)
    seeQuiet(page)
}

async function seeSaved() {
    const page = await pageWith("ride.fit", RIDE)
    assert.equal(String(await saved(page, "gpx", "ride.gpx")).match(/<trkpt /g).length, 144)
    await page.value("document.querySelector('#saved').textContent = ''")
    const placeless = await saved(page, "placeless", "ride-without-places.fit")
    assert.ok(gazhdor.check(placeless).good)
    assert.equal(placeless.length, RIDE.length)
    assert.equal([...gazhdor.table(placeless)].filter(row => row.position_lat !== null || row.position_long !== null).length, 0)
    const rest = bytes => [...gazhdor.table(bytes)].map(({ timestamp, altitude, distance, speed }) => [timestamp.getTime(), altitude, distance, speed])
    assert.deepEqual(rest(placeless), rest(RIDE))
    seeQuiet(page)
}

test("a lap that is marked", how, seeLap)
test("a part that is drawn along", how, seeDragged)
test("a part that is drawn along with a finger", how, seeFinger)
test("charts by distance", how, seeDistance)
test("keys", how, seeKeys)
test("the track", how, seeTrack)
test("zones by the user's numbers", how, seeZones)
test("miles and feet", how, seeUnits)
test("two rides beside each other", how, seeBeside)
test("two files that are dropped", how, seeDropped)
test("GPX, and a file without places", how, seeSaved)
