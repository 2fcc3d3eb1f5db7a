/* The page's Worker, and what it is asked. */
import { byId } from "./element.mjs"

let worker, number = 0, module, starts = 0
const waiting = new Map()

/* What came of a request that was given up because its Worker was ended. Nobody is told of it. */
export class GivenUp extends Error {}

function end(error) {
    for (const { failed } of waiting.values()) failed(error)
    waiting.clear()
}

/* Starts a Worker anew; what the one before had to do is given up. `failed` is called where this browser can't run the module. */
export function start(failed) {
    worker?.terminate()
    end(new GivenUp("another file came"))
    module ??= Uint8Array.from(atob(byId("module").textContent), letter => letter.charCodeAt(0))
    const url = URL.createObjectURL(new Blob([byId("reader").textContent], { type: "text/javascript" }))
    worker = new Worker(url)
    starts++
    URL.revokeObjectURL(url)
    worker.onmessage = ({ data }) => {
        const asked = waiting.get(data.number)
        if (data.done !== undefined) return asked?.tell(data.done)
        waiting.delete(data.number)
        data.error === undefined ? asked?.done(data.made) : asked?.failed(new Error(data.error))
    }
    worker.onerror = event => end(new Error(event.message || "this browser can't run the module"))
    ask("module", module).catch(error => { if (!(error instanceof GivenUp)) failed(error) })
}

export const isBusy = () => waiting.size > 0

/* How many Workers there were: another one knows nothing of what was asked before. */
export const startsSoFar = () => starts

/* What a call of the Worker makes. `tell` is told of a long one the share that is done. */
export function ask(call, data, { memory = [], tell = () => {} } = {}) {
    return new Promise((done, failed) => {
        waiting.set(++number, { done, failed, tell })
        worker.postMessage({ number, call, data }, memory)
    })
}
