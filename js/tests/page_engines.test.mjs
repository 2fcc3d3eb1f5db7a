/* docs/ride.html in the engines of Safari and Firefox, where WebKitGTK's MiniBrowser or Firefox is installed: a copy of it gives itself a file, as
 * a user does, and then leaves for a server of the test with what it shows. */
import assert from "node:assert/strict"
import { spawn } from "node:child_process"
import { createHash } from "node:crypto"
import { mkdtempSync, readFileSync, rmSync, writeFileSync } from "node:fs"
import { createServer } from "node:http"
import { tmpdir } from "node:os"
import { join } from "node:path"
import { test } from "node:test"
import { pathToFileURL } from "node:url"
import { open } from "../gazhdor.mjs"
import { run } from "./rides.mjs"
import { inTree, program } from "./tools.mjs"

const MINIBROWSERS = ["x86_64", "aarch64"].map(machine => `/usr/lib/${machine}-linux-gnu/webkit2gtk-4.1/MiniBrowser`)
const FIREFOXES = ["firefox-esr", "firefox"]

/* What the copy does: PORT and BYTES are put in. */
const SCRIPT = `
const wait = () => new Promise(done => setTimeout(done, 20)), one = selector => document.querySelector(selector), told = {}
const said = []
new MutationObserver(() => said.push(one("#finding").textContent)).observe(one("#finding"), { childList: true, subtree: true, characterData: true })
const point = (type, x) => one("#speed svg").dispatchEvent(new PointerEvent(type, { pointerId: 1, pointerType: "mouse", button: 0, clientX: x, bubbles: true }))
try {
    const taken = new DataTransfer()
    taken.items.add(new File([Uint8Array.from(atob("BYTES"), letter => letter.charCodeAt(0))], "run.fit"))
    one("#file").files = taken.files
    one("#file").dispatchEvent(new Event("change"))
    for (let k = 0; k < 9000 && !["shown", "failed"].includes(document.body.dataset.state); k++) await wait()
    Object.assign(told, { finding: one("#finding").textContent, cards: one("#summary").textContent, plots: document.querySelectorAll("#drawn .plot").length })
    told.track = one("#track .drawn").getAttribute("d").length
    told.laps = document.querySelectorAll("#laps tbody tr").length
    one("#laps tbody button").click()
    told.marked = one("#marked").textContent
    told.band = Number(one("#speed .band").getAttribute("width"))
    one("#heart_rate svg").dispatchEvent(new KeyboardEvent("keydown", { key: "End" }))
    told.last = one("#heart_rate output").textContent
    ;[...document.querySelectorAll("button")].find(({ textContent }) => textContent === "mi, ft").click()
    told.miles = one("#summary").textContent
    told.hash = location.hash
} catch (error) {
    told.error = String(error)
}
told.said = said
location.href = "http://127.0.0.1:PORT/?" + encodeURIComponent(JSON.stringify(told))
`

const sha256 = text => `'sha256-${createHash("sha256").update(text).digest("base64")}'`

/* Writes the copy into a folder, and returns its address. */
function copied(folder, port, bytes) {
    const script = SCRIPT.replace("PORT", port).replace("BYTES", Buffer.from(bytes).toString("base64")), page = readFileSync(inTree("docs/ride.html"), "utf8")
    const made = page.replace("script-src ", `script-src ${sha256(script)} `).replace("</body>", `<script type="module">${script}</script>\n</body>`)
    assert.ok(made.length > page.length + script.length + 60)
    const path = join(folder, "copy.html")
    writeFileSync(path, made)
    return pathToFileURL(path).href
}

/* Ends a program that was started here, and waits for its end. */
async function ended(child) {
    if (child.exitCode !== null || child.signalCode !== null) return
    const gone = new Promise(done => child.once("exit", done))
    child.kill("SIGTERM")
    const limit = setTimeout(() => child.kill("SIGKILL"), 5000)
    await gone
    clearTimeout(limit)
}

/* What the copy tells in a browser; `start` starts that with an address and a folder, and returns what was started. */
async function toldBy(start) {
    const folder = mkdtempSync(join(tmpdir(), "engine-")), started = []
    let hear, heardNothing
    const heard = new Promise((done, failed) => { hear = done; heardNothing = failed })
    const server = createServer(({ url }, response) => {
        response.end()
        if (url.startsWith("/?")) hear(JSON.parse(decodeURIComponent(url.slice(2))))
    })
    await new Promise(listening => server.listen(0, "127.0.0.1", listening))
    const limit = setTimeout(() => heardNothing(new Error("the browser told nothing")), 300000)
    try {
        await start(copied(folder, server.address().port, run(await open())), folder, started)
        return await heard
    } finally {
        clearTimeout(limit)
        for (const child of started.reverse()) await ended(child)
        server.closeAllConnections()
        server.close()
        rmSync(folder, { recursive: true, force: true, maxRetries: 5 })
    }
}

function see(told) {
    assert.equal(told.error, undefined)
    assert.match(told.finding, /^run\.fit: a good FIT file25,\d{3} bytes, read in \d+ ms$/)
    assert.deepEqual(told.said.filter(text => /stopped|can't run|not read/.test(text)), [])
    assert.match(told.cards, /4\.80 kmdistance0:20:00time4:10 \/kmmean pace.*170 steps\/min/)
    assert.deepEqual([told.plots, told.laps], [4, 4]) // pace, heart rate, cadence, track
    assert.ok(told.track > 500)
    assert.match(told.marked, /^Lap 1.*1\.00 kmdistance0:04:10time4:10 \/km/)
    assert.ok(told.band > 20)
    assert.match(told.last, /^0:20:00 +120 bpm$/)
    assert.match(told.miles, /2\.98 mi/) // 4,800 m / 1,609.344
    assert.equal(told.hash, "#units=miles")
}

async function seeWebKit() {
    see(await toldBy(async (url, folder, started) => {
        const screen = spawn("Xvfb", ["-displayfd", "1", "-screen", "0", "1200x900x24", "-nolisten", "tcp"], { stdio: ["ignore", "pipe", "ignore"] })
        started.push(screen)
        const number = await new Promise(done => screen.stdout.once("data", text => done(String(text).trim())))
        const env = { PATH: process.env.PATH, HOME: folder, DISPLAY: `:${number}`, GDK_BACKEND: "x11", GSETTINGS_BACKEND: "memory", NO_AT_BRIDGE: "1",
            LIBGL_ALWAYS_SOFTWARE: "1", WEBKIT_DISABLE_COMPOSITING_MODE: "1", WEBKIT_DISABLE_DMABUF_RENDERER: "1" }
        started.push(spawn(program(...MINIBROWSERS), [url], { env, stdio: "ignore" }))
    }))
}

async function seeFirefox() {
    see(await toldBy(async (url, folder, started) => {
        const prefs = { "browser.shell.checkDefaultBrowser": false, "browser.aboutwelcome.enabled": false, "datareporting.policy.dataSubmissionEnabled": false,
            "browser.startup.homepage_override.mstone": "ignore", "network.captive-portal-service.enabled": false, "app.update.enabled": false,
            "network.connectivity-service.enabled": false, "services.settings.server": "http://127.0.0.1:1/", "browser.startup.page": 0 }
        const lines = Object.entries(prefs).map(([name, value]) => `user_pref(${JSON.stringify(name)}, ${JSON.stringify(value)})\n`)
        writeFileSync(join(folder, "user.js"), lines.join(""))
        const env = { PATH: process.env.PATH, HOME: folder, MOZ_HEADLESS: "1" }
        started.push(spawn(program(...FIREFOXES), ["--headless", "--no-remote", "--profile", folder, url], { env, stdio: "ignore" }))
    }))
}

/* To be left out where there is none of these. */
const where = (...kinds) => {
    const lacks = kinds.find(names => program(...names) === undefined)
    return lacks === undefined ? { timeout: 400000 } : { skip: `there is no ${lacks[0].split("/").pop()}` }
}

test("in Safari's engine", where(MINIBROWSERS, ["Xvfb"]), seeWebKit)
test("in Firefox", where(FIREFOXES), seeFirefox)
