/* Writes pictures of FILEs as docs/ride.html shows them on a desktop and on a phone, light and dark, to be looked at:
 * node pictures.mjs FOLDER FILE.. ; "-" is the page without a file. With A=B a file has another beside it. */
import { writeFileSync } from "node:fs"
import { basename, join, resolve } from "node:path"
import { Browser, Page } from "./browser.mjs"
import { program } from "./tools.mjs"

const [to, ...files] = process.argv.slice(2)
const SIZES = { desktop: { width: 1200, height: 900 }, phone: { width: 390, height: 844, scale: 2 } }
const browser = new Browser(program("chromium", "chromium-browser", "google-chrome"))
try {
    for (const told of files)
        for (const [name, size] of Object.entries(SIZES)) {
            const [path, other] = told.split("="), page = await Page.open(browser, new URL("../../docs/ride.html", import.meta.url).href, size)
            if (path !== "-") await page.give(resolve(path))
            if (other !== undefined) await page.give(resolve(other), "#other")
            for (const value of ["light", "dark"]) {
                await page.ask("Emulation.setEmulatedMedia", { features: [{ name: "prefers-color-scheme", value }] })
                writeFileSync(join(to, `${basename(path)}.${name}.${value}.png`), await page.picture())
            }
            console.log(`${name}: ${await page.text("#finding")}`)
        }
} finally {
    await browser.close()
}
