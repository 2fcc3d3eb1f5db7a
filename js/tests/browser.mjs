/* A headless Chromium, spoken to by two pipes, so that nothing but Node is needed. */
import { spawn } from "node:child_process"
import { mkdtempSync, rmSync } from "node:fs"
import { tmpdir } from "node:os"
import { join } from "node:path"

export class Browser {
    #child
    #waiting = new Map()
    #number = 0
    #profile = mkdtempSync(join(tmpdir(), "page-"))
    #heard = []

    constructor(program) {
        const words = ["--headless", "--remote-debugging-pipe", "--disable-gpu", "--no-first-run", "--disable-dev-shm-usage"]
        words.push("--disable-background-networking", "--disable-component-update", "--disable-sync", `--user-data-dir=${this.#profile}`)
        if (process.getuid() === 0) words.push("--no-sandbox")
        this.#child = spawn(program, [...words, "about:blank"], { stdio: ["ignore", "ignore", "ignore", "pipe", "pipe"] })
        let rest = ""
        this.#child.stdio[4].setEncoding("utf8")
        this.#child.stdio[4].on("data", piece => {
            rest += piece
            for (let end; (end = rest.indexOf("\0")) >= 0; rest = rest.slice(end + 1)) this.#hear(JSON.parse(rest.slice(0, end)))
        })
        this.#child.on("exit", () => this.#hear({ method: "gone" }))
    }

    #hear(message) {
        if (message.id === undefined) {
            for (const heard of this.#heard) heard(message)
            return
        }
        const { done, failed } = this.#waiting.get(message.id)
        this.#waiting.delete(message.id)
        message.error ? failed(new Error(message.error.message)) : done(message.result)
    }

    /* Calls with each event of the browser. */
    onEvent(heard) { this.#heard.push(heard) }

    ask(method, params = {}, sessionId = undefined) {
        return new Promise((done, failed) => {
            this.#waiting.set(++this.#number, { done, failed })
            this.#child.stdio[3].write(JSON.stringify({ id: this.#number, method, params, sessionId }) + "\0")
        })
    }

    async close() {
        const ended = new Promise(done => this.#child.once("exit", done))
        const limit = setTimeout(() => this.#child.kill("SIGKILL"), 5000)
        this.ask("Browser.close").catch(() => {})
        await ended
        clearTimeout(limit)
        rmSync(this.#profile, { recursive: true, force: true, maxRetries: 5 })
    }
}

/* A page of a browser, with what it said of faults and which addresses it asked for. */
export class Page {
    #browser
    #session
    faults = []
    requests = []

    static async open(browser, url, { width = 1100, height = 900, scale = 1 } = {}) {
        const page = new Page()
        const { targetId } = await browser.ask("Target.createTarget", { url: "about:blank" })
        page.#browser = browser
        page.#session = (await browser.ask("Target.attachToTarget", { targetId, flatten: true })).sessionId
        browser.onEvent(message => page.#hear(message))
        for (const domain of ["Runtime", "Log", "Page", "DOM", "Network"]) await page.ask(`${domain}.enable`)
        await page.ask("Emulation.setDeviceMetricsOverride", { width, height, deviceScaleFactor: scale, mobile: width < 600 })
        await page.ask("Page.navigate", { url })
        await page.until("document.body?.dataset.state === 'ready'")
        return page
    }

    #hear({ method, params, sessionId }) {
        if (sessionId !== this.#session) return
        if (method === "Runtime.exceptionThrown") this.faults.push(params.exceptionDetails.exception?.description ?? params.exceptionDetails.text)
        if (method === "Log.entryAdded" && params.entry.level === "error") this.faults.push(params.entry.text)
        if (method === "Network.requestWillBeSent") this.requests.push(params.request.url)
    }

    ask(method, params) { return this.#browser.ask(method, params, this.#session) }

    /* The value of an expression in the page. */
    async value(expression) {
        const found = await this.ask("Runtime.evaluate", { expression, awaitPromise: true, returnByValue: true })
        if (found.exceptionDetails) throw new Error(found.exceptionDetails.exception?.description ?? found.exceptionDetails.text)
        return found.result.value
    }

    async until(expression, seconds = 60) {
        const end = Date.now() + 1000 * seconds
        while (!await this.value(expression).catch(() => false)) {
            if (Date.now() > end || this.faults.length) throw new Error(`not within ${seconds} seconds: ${expression}; ${this.faults}`)
            await new Promise(done => setTimeout(done, 20))
        }
    }

    /* Hands the page a file, as a user does, and waits until it is shown, or isn't. */
    async give(path, input = "#file") {
        const { root } = await this.ask("DOM.getDocument")
        const { nodeId } = await this.ask("DOM.querySelector", { nodeId: root.nodeId, selector: input })
        await this.value("document.body.dataset.state = 'waiting'")
        await this.ask("DOM.setFileInputFiles", { nodeId, files: [path] })
        await this.until("['shown', 'failed'].includes(document.body.dataset.state)")
    }

    text(selector) { return this.value(`document.querySelector(${JSON.stringify(selector)}).innerText`) }

    async picture() { return Buffer.from((await this.ask("Page.captureScreenshot", { captureBeyondViewport: true })).data, "base64") }
}
