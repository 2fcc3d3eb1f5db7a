/* What docs/ride.html must show in Chromium, of a good file, a cut one and hostile ones, and that nothing goes to a network. */
import assert from "node:assert/strict"
import { spawnSync } from "node:child_process"
import { existsSync, readFileSync } from "node:fs"
import { createServer } from "node:http"
import { extname, join } from "node:path"
import { test } from "node:test"
import { Page } from "./browser.mjs"
import { URL_OF_PAGE, browser, gazhdor, how, laid, place, saved, seeQuiet } from "./page_tools.mjs"
import { RIDE, inTree, needs } from "./tools.mjs"

async function seeGood() {
    const page = await Page.open(browser, URL_OF_PAGE)
    await page.give(laid("ride.fit", RIDE))
    assert.match(await page.text("#finding"), /^ride\.fit: a good FIT file\n+3,260 bytes, read in \d+ ms$/)
    assert.match(await page.text("#summary"), /8\.56 km/)
    assert.equal(await page.value("document.querySelectorAll('#drawn .plot').length"), 3)
    for (const chart of ["#altitude", "#speed", "#track"])
        assert.ok(await page.value(`document.querySelector('${chart} .drawn').getAttribute('d').length > 500`), chart)
    assert.match(await page.text("#altitude output"), /^391 to 425 m$/)
    const middle = "(({ x, y, width }) => ({ x: x + width / 2, y: y - 10 }))(document.querySelector('#speed .grid').getBoundingClientRect())"
    const { x, y } = await page.value(middle)
    await page.ask("Input.dispatchMouseEvent", { type: "mouseMoved", x, y })
    await page.until("/^0:05:5\\d +5\\d\\.\\d km.h$/.test(document.querySelector('#speed output').textContent)", 10)
    assert.equal(await page.value("document.querySelectorAll('#tables tbody tr').length"), 1)
    assert.match(await page.text("#counts"), /144 record/)
    assert.ok(await page.value("document.querySelector('#mended').hidden"))
    assert.deepEqual(await saved(page, "table", "ride.table.csv"), Buffer.from(gazhdor.tableText(RIDE)))
    assert.deepEqual(await saved(page, "rows", "ride.csv"), Buffer.from(gazhdor.toCsv(RIDE)))
    assert.deepEqual(await saved(page, "lines", "ride.txt"), Buffer.from(gazhdor.show(RIDE)))
    seeQuiet(page)
}

async function seeCut() {
    const page = await Page.open(browser, URL_OF_PAGE), cut = RIDE.subarray(0, 2000)
    await page.give(laid("cut.fit", cut))
    const text = /^cut\.fit: truncated at byte 2000\n+The bytes end at 2000, before the file does\. .*What comes before that is shown/
    assert.match(await page.text("#finding"), text)
    assert.deepEqual(await saved(page, "mended", "cut-mended.fit"), Buffer.from(gazhdor.mend(cut)))
    await page.give(join(place, "cut-mended.fit"))
    assert.match(await page.text("#finding"), /a good FIT file/)
    await page.give(laid("text.fit", Buffer.from("<gpx></gpx>")))
    assert.match(await page.text("#finding"), /^text\.fit: refused at byte 1: Protocol\n/)
    assert.ok(await page.value("document.querySelector('#shown').hidden"))
    await page.give(laid("none.fit", Buffer.alloc(0)))
    assert.match(await page.text("#finding"), /^none\.fit: truncated at byte 0\n/)
    seeQuiet(page)
}

/* A file whose values and names are as odd as may be: floats and numbers of 64 bits where numbers are expected, times before all times, the corners
 * of the world, a text as a heart rate, and a name that would be HTML. */
function hostile() {
    const record = (time, lat, long, altitude, heart, power) => `data,1,,record,,,\nfield,timestamp,${time},s,,,\nfield,position_lat,${lat},semicircles,,,
field,position_long,${long},semicircles,,,\nfield,altitude,${altitude},m,,,\nfield,heart_rate,${heart},bpm,,,\nfield,power,${power},watts,,,\n`
    return gazhdor.fromCsv(`row,a,b,c,d,e,f
file,12,32,0,none,,
def,0,0,little,18,4,
fdef,2,8,143,,,
fdef,9,8,137,,,
fdef,7,8,142,,,
fdef,5,24,7,,,
data,0,,session,,,
field,start_time,18446744073709551614,s,,,
field,total_distance,0x7E37E43C8800759C,m,,,
field,total_elapsed_time,-9223372036854775.808,s,,,
field,sport,<img src=x onerror=1>,,,,
def,1,0,big,20,6,
fdef,253,4,134,,,
fdef,0,4,133,,,
fdef,1,4,133,,,
fdef,2,8,143,,,
fdef,3,12,7,,,
fdef,7,8,137,,,
${record(4294967294, 2147483646, -2147483648, "3689348814741909822.8", "<b>x</b>", "0x7FF0000000000000")}${
record(5, -2147483648, 2147483646, "-500.0", "</script>", "0xFFF0000000000000")}${
record(1000000000, 0, 0, "", "", "0x7E37E43C8800759C")}end,,,,,,
`)
}

async function seeHostile() {
    const page = await Page.open(browser, URL_OF_PAGE), name = "<img src=x onerror=document.title='bad'>.fit"
    await page.give(laid(name, hostile()))
    assert.ok((await page.text("#finding")).startsWith(`${name}: a good FIT file`))
    assert.equal(await page.value("document.images.length + document.querySelectorAll('b img, td b, main script').length"), 0)
    assert.equal(await page.value("document.title"), "A ride that stays here")
    await page.give(laid("cut <i>.fit", hostile().subarray(0, -5)))
    assert.match(await page.text("#finding"), /truncated at byte/)
    seeQuiet(page)
}

/* A phone's page has nothing beside its edge. */
async function seePhone() {
    const page = await Page.open(browser, URL_OF_PAGE, { width: 360, height: 780, scale: 2 })
    for (const [name, bytes] of [["ride.fit", RIDE], ["cut.fit", RIDE.subarray(0, 2000)], [`${"long".repeat(60)}.fit`, hostile()]]) {
        await page.give(laid(name, bytes))
        const outside = "one => one.closest('.wide, svg') === null && one.getBoundingClientRect().right > 360"
        assert.equal(await page.value(`[...document.querySelectorAll('main *')].filter(${outside}).map(one => one.outerHTML.slice(0, 200)).join()`), "", name)
        assert.ok(await page.value("document.documentElement.scrollWidth <= 360"), name)
    }
    seeQuiet(page)
}

/* Whatever a script in the page tries, a server on this machine hears nothing. */
async function seeNetwork() {
    let heard = 0
    const server = createServer((request, response) => { heard++; response.end() })
    await new Promise(listening => server.listen(0, "127.0.0.1", listening))
    const url = `http://127.0.0.1:${server.address().port}/`, page = await Page.open(browser, URL_OF_PAGE)
    await page.value(`(async () => {
        const tries = [() => fetch("${url}"), () => navigator.sendBeacon("${url}", "x"), () => { new Image().src = "${url}" },
            () => { const request = new XMLHttpRequest(); request.open("GET", "${url}"); request.send() }, () => new EventSource("${url}"),
            () => new WebSocket("${url.replace("http", "ws")}"), () => import("${url}"), () => new Worker("${url}"),
            () => { const form = document.createElement("form"); form.action = "${url}"; form.method = "post"; document.body.append(form); form.submit() },
            () => { const frame = document.createElement("iframe"); frame.src = "${url}"; document.body.append(frame) },
            () => { const link = document.createElement("link"); link.rel = "stylesheet"; link.href = "${url}"; document.head.append(link) }]
        for (const one of tries) try { await one() } catch {}
    })()`)
    await new Promise(wait => setTimeout(wait, 500))
    const alone = heard
    await fetch(url) // that the server hears at all
    server.close()
    assert.deepEqual([alone, heard], [0, 1])
}

/* The package as a site has it: loaded by fetch, in the page and in a Worker. */
async function seeServed() {
    const types = { ".mjs": "text/javascript", ".wasm": "application/wasm", ".fit": "application/octet-stream" }
    const server = createServer(({ url }, response) => {
        const path = inTree(url.endsWith("/ride.fit") ? "examples/ride.fit" : `js${url}`)
        if (url === "/") response.writeHead(200, { "content-type": "text/html" }).end("<body data-state=ready>")
        else if (/^[\w/.]+$/.test(url) && existsSync(path)) response.writeHead(200, { "content-type": types[extname(path)] }).end(readFileSync(path))
        else response.writeHead(404).end()
    })
    await new Promise(listening => server.listen(0, "127.0.0.1", listening))
    const page = await Page.open(browser, `http://127.0.0.1:${server.address().port}/`)
    const told = await page.value(`(async () => {
        const { open, Refused } = await import("/gazhdor.mjs"), bytes = await (await fetch("/ride.fit")).arrayBuffer()
        const gazhdor = await open(), told = [String(gazhdor.check(bytes)), gazhdor.columns(bytes, "record", ["altitude"]).altitude.length]
        let count = 0
        for await (const message of (await fetch("/ride.fit")).body.pipeThrough(gazhdor.stream("messages"))) count++
        told.push(count, await open("/none.wasm").catch(error => error.message.replace(/http.*none/, "none")))
        const worker = new Worker("/worker.mjs", { type: "module" }), answer = new Promise(done => { worker.onmessage = ({ data }) => done(data) })
        worker.postMessage({ number: 7, call: "messages", words: [bytes, { only: "lap" }] })
        const { number, made } = await answer
        return [...told, number, made[0].fields.total_distance, made[0].time.toISOString()]
    })()`)
    server.close()
    assert.deepEqual(told, ["ok", 144, 149, "gazhdor: none.wasm: 404 Not Found", 7, 8558.46, "2026-05-17T07:30:00.000Z"])
}

test("the page is of these files", needs("python3"), () => {
    const { status, stderr } = spawnSync(inTree("js/page"), ["--check"])
    assert.equal(status, 0, String(stderr))
})
test("a good file", how, seeGood)
test("cut files, a mended one, and what is none", how, seeCut)
test("hostile files", how, seeHostile)
test("a phone's width", how, seePhone)
test("nothing goes to a network", how, seeNetwork)
test("the package on a site", how, seeServed)
