/* Gazhdor in a Worker, so that a page doesn't wait for a long file:
 *
 *     const worker = new Worker(new URL("gazhdor/worker", import.meta.url), { type: "module" })
 *     worker.onmessage = ({ data }) => data.error ? console.log(data.error.text) : draw(data.made)
 *     worker.postMessage({ number: 1, call: "columns", words: [await file.arrayBuffer(), "record", ["timestamp", "altitude"]] })
 *
 * Each request has a number of the caller's, a call of Gazhdor and its words; the answer has the same number and what the call made, or an
 * error: its name, text, place, reason and explanation. Messages and rows come as arrays of plain objects. A Worker that takes too long is ended
 * by `terminate`. In Node it is a Worker of node:worker_threads. */
import { Message, open } from "./gazhdor.mjs"

const CALLS = ["check", "table", "tableText", "toCsv", "show", "gpx", "fromCsv", "blocks", "fromBlocks", "mend", "edit", "join", "messages", "columns"]
const isBrowser = globalThis.WorkerGlobalScope !== undefined
const port = isBrowser ? globalThis : (await import(/* webpackIgnore: true */ /* @vite-ignore */ "node:worker_threads")).parentPort

let opened = open()

const sent = message => ({ ...message.toJSON(), fields: message.toObject(), time: message.time })

/* What can be sent to another thread of what a call made. */
function plain(call, made) {
    if (call === "check") return { ...made, text: `${made}`, explanation: made.explanation }
    if (call === "messages") return Array.from(made, message => (message instanceof Message ? sent(message) : { ...message }))
    return call === "table" ? [...made] : made
}

/* The memory that goes with an answer, so that it isn't copied. */
function memory(made) {
    return (made instanceof Uint8Array ? [made] : Object.values(made ?? {})).filter(part => ArrayBuffer.isView(part)).map(part => part.buffer)
}

async function answer(request) {
    const { number, call, words = [] } = Object(request)
    try {
        if (!CALLS.includes(call)) throw new TypeError(`there is no call ${call}`)
        const gazhdor = await opened
        const made = plain(call, gazhdor[call](...words))
        port.postMessage({ number, made }, typeof made === "object" ? memory(made) : [])
    } catch (error) {
        if (error.name === "Trapped") opened = open()
        const { name, message: text, place, reason, explanation } = error
        port.postMessage({ number, error: { name, text, place, reason, explanation } })
    }
}

if (isBrowser) port.addEventListener("message", event => answer(event.data))
else port.on("message", answer)
