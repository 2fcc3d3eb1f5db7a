/* What docs/ride.html shows of rides, runs, swims and several sports, and what it says while it reads. */
import assert from "node:assert/strict"
import { execFileSync } from "node:child_process"
import { join } from "node:path"
import { test } from "node:test"
import { Page } from "./browser.mjs"
import { URL_OF_PAGE, browser, click, gazhdor, handed, how, laid, pageWith, place, press, saved, seeQuiet, texts } from "./page_tools.mjs"
import { TRIATHLON, developer, manySessions, run, spike, swim, toAndFro, triathlon } from "./rides.mjs"
import { CC, RIDE, inTree } from "./tools.mjs"

/* Keeps whatever the page says of a file, and how far its bar is, from now on. */
const WATCH = `window.said = []; window.bars = []
new MutationObserver(() => {
    const finding = document.querySelector("#finding"), bar = finding.querySelector("progress")
    said.push(finding.textContent)
    if (bar) bars.push(bar.value)
}).observe(document.querySelector("#finding"), { childList: true, subtree: true, characterData: true, attributes: true })`

/* A long recording, of which the second file below doesn't wait. */
function long(size) {
    const path = join(place, `long-${size}.fit`)
    execFileSync(CC, ["-std=gnu11", "-O2", inTree("bench/recording.c"), "-o", join(place, "recording")])
    execFileSync(join(place, "recording"), ["plain", size, path])
    return path
}

async function seeMeanwhile() {
    const all = [run(gazhdor), RIDE, swim(gazhdor), RIDE.subarray(0, 2000), triathlon(gazhdor), RIDE, spike(gazhdor), run(gazhdor)]
    const paths = all.map((bytes, k) => laid(`file${k}.fit`, bytes)), page = await Page.open(browser, URL_OF_PAGE)
    await page.value(WATCH)
    for (const path of paths) await handed(page, path) // each while the one before is read
    await page.until("document.body.dataset.state === 'shown' && document.querySelector('#finding').textContent.startsWith('file7')")
    if (CC !== undefined) {
        await handed(page, long("4m"))
        await page.until("said.some(text => text.startsWith('long-4m.fit: is read'))", 10)
        await handed(page, paths[1])
        await page.until("document.body.dataset.state === 'shown' && document.querySelector('#finding').textContent.startsWith('file1')")
        await new Promise(wait => setTimeout(wait, 500)) // for what the long one may still say
    }
    const said = await page.value("said")
    assert.deepEqual(said.filter(text => /stopped|can't run|not read/.test(text)), [])
    assert.equal(said.findLastIndex(text => /^long-4m\.fit: (?!is read)/.test(text)), -1)
    assert.match(said[said.length - 1], CC === undefined ? /^file7\.fit: a good/ : /^file1\.fit: a good/)
    seeQuiet(page)
}

/* A file that is stopped says so, the next one is read, and so is the same one again. */
async function seeAgain() {
    const page = await pageWith("ride.fit", RIDE)
    assert.equal(await page.value("document.querySelector('#file').value"), "") // so that choosing the same file is a change
    await press(page, "distance")
    await page.give(join(place, "ride.fit"))
    assert.match(await page.text("#finding"), /^ride\.fit: a good FIT file/)
    assert.equal(await page.value("document.querySelector('#file').value"), "")
    if (CC !== undefined) {
        await handed(page, long("20m"))
        await page.until("[...document.querySelectorAll('button')].some(one => one.textContent === 'Stop')", 10)
        await press(page, "Stop")
        assert.equal(await page.text("#finding"), "long-20m.fit: stopped")
        await page.give(join(place, "ride.fit"))
        assert.match(await page.text("#finding"), /^ride\.fit: a good FIT file/)
    }
    seeQuiet(page)
}

async function seeBar() {
    const page = await Page.open(browser, URL_OF_PAGE)
    await page.value(WATCH)
    await page.give(long("20m"))
    const bars = await page.value("bars")
    assert.ok(bars.length > 20, `${bars.length} steps`)
    assert.deepEqual(bars, bars.toSorted?.((one, other) => one - other) ?? [...bars].sort((one, other) => one - other))
    assert.ok(bars[0] < .1 && bars[bars.length - 1] > .9)
    assert.match(await page.text("#finding"), /a good FIT file\n+20,9\d\d,\d{3} bytes/)
    seeQuiet(page)
}

/* No card is cut, and the first has the date, wherever the user is. */
async function seeCards() {
    for (const width of [360, 390, 700, 1200]) {
        const page = await pageWith("swim.fit", swim(gazhdor), { width })
        await page.value("document.querySelector('.card b').textContent = '17. Septembre 2026'")
        const isCut = "one => one.scrollWidth > one.clientWidth + 1 || getComputedStyle(one).textOverflow === 'ellipsis'"
        const cut = await page.value(`[...document.querySelectorAll('.card, .card b')].filter(${isCut}).map(one => one.textContent)`)
        assert.deepEqual(cut, [], `${width}`)
        assert.ok(await page.value("document.documentElement.scrollWidth") <= width)
    }
}

async function seeSpike() {
    const page = await pageWith("spike.fit", spike(gazhdor))
    assert.equal(await page.text("#power output"), "180 to 259 W; 1 point outside, up to 21,733 W")
    assert.equal((await page.value("document.querySelector('#power .outside').getAttribute('d')")).match(/M/g).length, 1)
    for (const text of await texts(page, "#power svg text")) assert.ok(/:/.test(text) || Number(text) < 300, text)
    assert.ok(await page.value("document.querySelector('#power .drawn').getBBox().height > 80"))
    assert.match(await page.text("#curve output"), /^5 s 25\d W · 1 min 2\d\d W · .*; 1 point over 259 W counts as that$/)
    seeQuiet(page)
}

/* What can be seen of the laps on a phone without scrolling, and what stays when they are scrolled. */
async function seeLapsOnPhone() {
    const page = await pageWith("triathlon.fit", triathlon(gazhdor), { width: 390, height: 844, scale: 2 })
    const heads = "[...document.querySelectorAll('#laps thead th')].filter(one => one.getBoundingClientRect().right <= 390).map(one => one.textContent)"
    assert.deepEqual((await page.value(heads)).slice(0, 4), ["Lap", "Start", "km", "Time"])
    assert.deepEqual(await texts(page, "#laps tbody th"), ["1Swimming", "2Transition", "3Cycling", "4Transition", "5Running"])
    assert.deepEqual(await texts(page, "#laps tbody td:nth-child(2)"), ["0:00:00", "0:10:00", "0:11:00", "0:44:20", "0:45:10"])
    const left = "document.querySelector('#laps tbody th').getBoundingClientRect().left", before = await page.value(left)
    await page.value("document.querySelector('#laps .wide').scrollLeft = 80")
    assert.equal(await page.value(left), before)
    await page.give(laid("run.fit", run(gazhdor)))
    assert.deepEqual(await texts(page, "#laps tbody th"), ["1", "2", "3", "4"]) // one sport needs no word in each row
    await click(page, "#example")
    await page.until("document.querySelector('#finding').textContent.startsWith('example.fit: a good')")
    assert.deepEqual((await page.value(heads)).slice(0, 5), ["Lap", "Start", "km", "Time", "bpm"])
}

/* Values of lines stand left of what is drawn, and have no more digits than they need. */
async function seeLabels() {
    for (const [name, bytes] of [["developer.fit", developer(gazhdor)], ["ride.fit", RIDE], ["spike.fit", spike(gazhdor)]]) {
        const page = await pageWith(name, bytes)
        for (const units of ["km, m", "mi, ft"]) {
            await press(page, units)
            const all = await texts(page, "#drawn .charts svg text")
            assert.deepEqual(all.filter(text => text.length > 8 || !/^[\d,.:]+[KM]?$/.test(text)), [], units)
            const inside = `[...document.querySelectorAll(".charts svg")].flatMap(svg => [...svg.querySelectorAll("text[text-anchor=end]")]
                .filter(text => text.getBBox().x + text.getBBox().width > 42 || text.getBBox().x < 0).map(text => text.textContent))`
            assert.deepEqual(await page.value(inside), [])
        }
    }
}

async function seeSports() {
    const page = await pageWith("triathlon.fit", triathlon(gazhdor)), summary = (await page.text("#summary")).replace(/\s+/g, " ")
    assert.match(summary, /^May 17, 2026 Several sports, .* 25\.61 km distance 1:06:00 time/)
    assert.deepEqual(await texts(page, "#summary h2"), ["Swimming", "Transition", "Cycling", "Transition", "Running"])
    assert.match(summary, /Swimming 500 m distance 0:10:00 time 2:00 \/100 m mean pace/)
    assert.match(summary, /Cycling 20\.00 km distance 0:33:20 time 36\.0 km\/h mean speed/)
    assert.match(summary, /Running 5\.00 km distance 0:20:50 time 4:10 \/km mean pace$/)
    assert.equal((await texts(page, "#sessions tbody tr")).length, TRIATHLON.length)
    await page.give(laid("run.fit", run(gazhdor)))
    assert.match((await page.text("#summary")).replace(/\s+/g, " "), /Running, .* 4\.80 km .* 4:10 \/km mean pace .* 170 steps\/min mean cadence/)
    assert.match(await page.text("#speed"), /^Pace/)
    assert.match((await page.text("#laps tbody tr")).replace(/\s+/g, " "), /^1 0:00:00 1\.00 0:04:10 4:10 170/)
    await page.give(laid("swim.fit", swim(gazhdor)))
    const swum = (await page.text("#summary")).replace(/\s+/g, " ")
    assert.match(swum, /Swimming, .* 400 m distance 0:08:00 time 2:00 \/100 m mean pace 16 lengths of 25 m 288 strokes/)
    assert.equal((await texts(page, "#lengths tbody tr")).length, 17)
    assert.match((await page.text("#lengths tbody tr:nth-child(2)")).replace(/\s+/g, " "), /^2 0:00:30 0:00:30 2:00 18 Freestyle/)
    assert.match((await page.text("#lengths tbody tr:nth-child(9)")).replace(/\s+/g, " "), /^9 0:04:00 0:00:40 Rest/)
    seeQuiet(page)
}

async function seeEmpty() {
    const page = await Page.open(browser, URL_OF_PAGE)
    assert.match(await page.text("#about"), /FIT file.*shows.*charts/s)
    await click(page, "#example")
    await page.until("document.body.dataset.state === 'shown'")
    assert.match((await page.text("#summary")).replace(/\s+/g, " "), /Cycling, .* 33\.34 km distance 1:00:00 time 33\.3 km\/h mean speed/)
    assert.equal((await texts(page, "#laps tbody tr")).length, 3)
    assert.equal(await page.value("getComputedStyle(document.querySelector('#about')).display"), "none")
    const bytes = await saved(page, "gpx", "example.gpx")
    assert.equal(String(bytes).match(/<trkpt /g).length, 3601)
    seeQuiet(page)
}

async function seeDeveloper() {
    const page = await pageWith("developer.fit", developer(gazhdor))
    assert.deepEqual(await texts(page, "#own0 span, #own1 span"), ["Core", "<i>Form</i>"])
    assert.deepEqual(await texts(page, "#own0 output, #own1 output"), ["37.5 C", "60 to 79 W"])
    assert.equal(await page.value("document.querySelectorAll('h2 i').length"), 0)
    assert.ok(await page.value("document.querySelector('#own1 .drawn').getAttribute('d').length > 500"))
    seeQuiet(page)
}

/* However many times, places and messages a file has, and however they go to and fro, the page has only so many elements and so long a line. */
async function seeBounded() {
    for (const [name, bytes] of [["to-and-fro.fit", toAndFro(200000)], ["sessions.fit", manySessions(50000)]]) {
        const page = await pageWith(name, bytes)
        assert.match(await page.text("#finding"), /: refused at byte \d+: FileSum/)
        assert.ok(await page.value("document.querySelectorAll('*').length") < 3000, name)
        const longest = await page.value("Math.max(0, ...[...document.querySelectorAll('path[d]')].map(path => path.getAttribute('d').length))")
        assert.ok(longest < 2e6, `${name}: ${longest}`)
        seeQuiet(page)
    }
}

test("nothing false is said meanwhile", how, seeMeanwhile)
test("the same file again, and one that is stopped", how, seeAgain)
test("a bar while 20 MB are read", CC === undefined ? { skip: "there is no C compiler" } : how, seeBar)
test("cards as wide as their words", how, seeCards)
test("a spike", how, seeSpike)
test("laps on a phone", how, seeLapsOnPhone)
test("labels of the lines", how, seeLabels)
test("each session, a run and a swim in their own units", how, seeSports)
test("a page without a file", how, seeEmpty)
test("developer fields", how, seeDeveloper)
test("bounds for hostile files", how, seeBounded)
