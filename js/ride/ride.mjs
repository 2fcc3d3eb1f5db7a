/* What the page's Worker answers. */
import { gpxOf } from "../src/gpx.mjs"
import { Gazhdor } from "../src/library.mjs"
import { exampleRide } from "./example.mjs"
import { memoryOf, rideOf } from "./reading.mjs"

let module, bytes, gazhdor

const opened = async () => new Gazhdor(await WebAssembly.instantiate(await module, {}))

const CALLS = {
    async module({ data }) {
        module = WebAssembly.compile(data)
        await module
    },
    /* The ride of which the calls below make something. It gets an instance of the module of its own, so the memory that a long one took is
     * given back. */
    async ride({ data }, tell) {
        await CALLS.hold({ data })
        return rideOf(gazhdor, bytes, tell)
    },
    async hold({ data }) {
        bytes = new Uint8Array(data)
        gazhdor = await opened()
    },
    beside: async ({ data }, tell) => rideOf(await opened(), new Uint8Array(data), tell),
    example: async () => exampleRide(await opened()),
    table: () => gazhdor.tableText(bytes, { partial: true, encoded: true }),
    rows: () => gazhdor.toCsv(bytes, { partial: true, encoded: true }),
    lines: () => gazhdor.show(bytes, { partial: true, encoded: true }),
    mended: () => gazhdor.mend(bytes),
    gpx: ({ data: { from, to } = {} }) => new TextEncoder().encode(gpxOf(gazhdor, bytes, { partial: true, from, to })),
    placeless: () => gazhdor.edit(gazhdor.mend(bytes), { drop: "position" }).bytes,
    /* A part of it, from one moment to another. */
    cut: ({ data: { begin, end } }) => gazhdor.edit(gazhdor.mend(bytes), { begin: new Date(begin), end: new Date(end) }).bytes,
}

/* Answers a request of the page: what a call made and the memory that goes with it, or what is wrong in words. `tell` is told of a long one the
 * share that is done. */
export async function answerTo({ number, call, data }, tell = () => {}) {
    try {
        const made = await CALLS[call]({ data }, done => tell({ number, done }))
        return [{ number, made }, made instanceof Uint8Array ? [made.buffer] : made?.points ? memoryOf(made) : []]
    } catch (error) {
        if (error.name === "Trapped") gazhdor = await opened()
        return [{ number, error: error.explanation ?? error.message }, []]
    }
}
