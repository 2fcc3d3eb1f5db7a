/* Prints the seconds from when docs/ride.html is handed a file to when the ride is drawn, the best of five: node wasm_page.mjs CHROMIUM FILE */
import { resolve } from "node:path"
import { Browser, Page } from "../js/tests/browser.mjs"

const [program, path] = process.argv.slice(2)
const browser = new Browser(program)
try {
    let best = Infinity
    for (let k = 0; k < 5; k++) {
        const page = await Page.open(browser, new URL("../docs/ride.html", import.meta.url).href)
        await page.value(`new MutationObserver(() => {
            if (document.body.dataset.state === "reading") globalThis.began = performance.now()
            if (document.body.dataset.state !== "shown") return
            requestAnimationFrame(() => setTimeout(() => { globalThis.took = performance.now() - globalThis.began }))
        }).observe(document.body, { attributes: true }), 0`)
        await page.give(resolve(path))
        await page.until("globalThis.took > 0")
        best = Math.min(best, await page.value("globalThis.took") / 1000)
    }
    console.log(best)
} finally {
    await browser.close()
}
