/* Gazhdor for JavaScript: checks and converts FIT files where they are, in Node and in a browser.
 *
 *     import { open } from "gazhdor"
 *     const gazhdor = await open()
 *     const answer = gazhdor.check(bytes)                     // an ArrayBuffer, a Uint8Array or a Buffer
 *     if (!answer.good) console.log(`${answer}`)              // refused at byte 3258: FileSum
 *     for (const message of gazhdor.messages(bytes, { only: "record" }))
 *         console.log(message.time, message.get("heart_rate"))
 *     const { timestamp, altitude } = gazhdor.columns(bytes, "record", ["timestamp", "altitude"])
 *     for await (const message of response.body.pipeThrough(gazhdor.stream("messages"))) console.log(message.name)
 *
 * gazhdor.d.ts has all of it, and docs/JS.md of the project says more. What the module returns is proved of what it was compiled from; the
 * module itself, its heap and this wrapper are tested. */
import { Gazhdor } from "./src/library.mjs"
import { limited } from "./src/limited.mjs"

export {
    Answer, BlocksRefused, FitError, NotDescribed, OutOfMemory, Refused, TextRefused, TooManyCells, Trapped, Truncated, WrongModule, WrongValue,
} from "./src/answers.mjs"
export { VERSION } from "./src/core.mjs"
export { Gazhdor, Stream } from "./src/library.mjs"
export { Field, Message } from "./src/messages.mjs"
export { EXTRA, Names } from "./src/names.mjs"
export { degrees, semicircles, when } from "./src/plain.mjs"
export { UnknownName } from "./src/profile.mjs"
export { DeveloperField } from "./src/shapes.mjs"
export { words } from "./src/words.mjs"
export { WrittenMessage, Writer } from "./src/writer.mjs"

async function fetched(url) {
    if (url.protocol === "file:" && globalThis.process?.versions?.node !== undefined) {
        const files = "node:fs/promises" // a name, so that what packs pages doesn't look for it
        return (await import(/* webpackIgnore: true */ /* @vite-ignore */ files)).readFile(url)
    }
    return fetch(url)
}

async function bytesOf(source) {
    const found = await (source instanceof URL || typeof source === "string" ? fetched(new URL(source, import.meta.url)) : source)
    if (typeof Response === "undefined" || !(found instanceof Response)) return found
    if (!found.ok) throw new Error(`gazhdor: ${found.url}: ${found.status} ${found.statusText}`)
    return found.arrayBuffer()
}

/* Opens an instance of the module, of gazhdor.wasm beside this file or of what is given: its bytes, a URL, a Response or a promise of one, or a
 * WebAssembly.Module. With `maximum` its memory never has more bytes, and a call that needs more throws OutOfMemory. */
export async function open(source = new URL("./gazhdor.wasm", import.meta.url), { maximum } = {}) {
    const found = await bytesOf(source)
    const isModule = found instanceof WebAssembly.Module
    if (maximum !== undefined && isModule) throw new TypeError("`maximum` needs the bytes of the module")
    const module = isModule ? found : await WebAssembly.compile(maximum === undefined ? found : limited(found, maximum))
    return new Gazhdor(await WebAssembly.instantiate(module, {}))
}
