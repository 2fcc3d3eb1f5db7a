/* Saves what the Worker makes of a ride, as a file of the user's. */
import { byId, element } from "./element.mjs"
import { ask } from "./link.mjs"

/* Of each button what it saves: how the name ends, and the type. */
const KINDS = {
    table: [".table.csv", "text/csv"], rows: [".csv", "text/csv"], lines: [".txt", "text/plain"], gpx: [".gpx", "application/gpx+xml"],
    cut: [".fit", "application/octet-stream"], mended: ["-mended.fit", "application/octet-stream"], placeless: ["-without-places.fit", "application/octet-stream"],
}

function download(name, bytes, type) {
    const href = URL.createObjectURL(new Blob([bytes], { type }))
    element("a", undefined, { href, download: name }).click()
    setTimeout(() => URL.revokeObjectURL(href), 60000)
}

/* Saves what a call makes of a ride, of which `hold` sees that the Worker has it, and says so. */
export async function save(button, call, { name, hold }, data) {
    const [ending, type] = KINDS[call]
    button.disabled = true
    byId("saved").textContent = ""
    try {
        await hold()
        const bytes = await ask(call, data), whole = `${name.replace(/\.fit$/i, "")}${data === undefined ? "" : "-part"}${ending}`
        download(whole, bytes, type)
        byId("saved").textContent = `${whole}: ${bytes.length.toLocaleString("en")} bytes`
    } catch (error) {
        byId("saved").textContent = `Not saved: ${error.message}`
    }
    button.disabled = false
}
