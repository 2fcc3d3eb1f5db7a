/* What the tests of docs/ride.html in Chromium share. */
import assert from "node:assert/strict"
import { existsSync, readFileSync, writeFileSync } from "node:fs"
import { join } from "node:path"
import { after } from "node:test"
import { open } from "../gazhdor.mjs"
import { Browser, Page } from "./browser.mjs"
import { folder, needs, program } from "./tools.mjs"

const BROWSERS = ["chromium", "chromium-browser", "google-chrome"]
export const URL_OF_PAGE = new URL("../../docs/ride.html", import.meta.url).href
export const gazhdor = await open()
export const place = folder()
const chromium = program(...BROWSERS)
export const browser = chromium === undefined ? null : new Browser(chromium)
if (browser !== null) {
    await browser.ask("Browser.setDownloadBehavior", { behavior: "allow", downloadPath: place })
    after(() => browser.close())
}
// A browser that ends early, or a page that is not there, would be waited for.
export const how = { ...needs(...BROWSERS), timeout: 300000 }

/* Lays a file down under a name, for the page to be given. */
export function laid(name, bytes) {
    const path = join(place, name)
    writeFileSync(path, bytes)
    return path
}

/* The page with a file, in a window of some size; `hash` is what its address has after the #. */
export async function pageWith(name, bytes, { hash = "", ...size } = {}) {
    const page = await Page.open(browser, URL_OF_PAGE + hash, size)
    if (bytes !== undefined) await page.give(laid(name, bytes))
    return page
}

/* Hands the page a file without waiting for it. */
export async function handed(page, path, input = "#file") {
    const { root } = await page.ask("DOM.getDocument")
    const { nodeId } = await page.ask("DOM.querySelector", { nodeId: root.nodeId, selector: input })
    await page.ask("DOM.setFileInputFiles", { nodeId, files: [path] })
}

export const click = (page, selector) => page.value(`document.querySelector(${JSON.stringify(selector)}).click()`)

/* Presses the button of the page that has such a text. */
export const press = (page, text) => page.value(`[...document.querySelectorAll("button")].find(one => one.textContent === ${JSON.stringify(text)}).click()`)

/* The texts of all elements that a selector names. */
export const texts = (page, selector) => page.value(`[...document.querySelectorAll(${JSON.stringify(selector)})].map(one => one.textContent)`)

/* Presses a button of the page, and returns the bytes that it saves. */
export async function saved(page, call, name) {
    await click(page, `#${call}`)
    await page.until("document.querySelector('#saved').textContent !== ''")
    assert.ok((await page.text("#saved")).startsWith(`${name}: `), await page.text("#saved"))
    for (let k = 0; k < 100 && !existsSync(join(place, name)); k++) await new Promise(wait => setTimeout(wait, 50))
    return readFileSync(join(place, name))
}

/* The page asked for nothing but itself, and no script failed. */
export function seeQuiet(page) {
    assert.deepEqual(page.faults, [])
    assert.deepEqual(page.requests.filter(url => !/^(file|data|blob):/.test(url)), [])
}
