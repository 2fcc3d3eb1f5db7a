/* What a program in TypeScript may write with js/gazhdor.d.ts; the lines that must be refused say so. */
import {
    Answer, BlocksRefused, EXTRA, Field, FitError, Gazhdor, Message, Names, Refused, Stream, Truncated, UnknownName, Value, VERSION, Writer,
    WrongValue, degrees, open, semicircles, when, words,
} from "./gazhdor.mjs"

async function all(bytes: Uint8Array, response: Response): Promise<void> {
    const gazhdor: Gazhdor = await open()
    await open(fetch("gazhdor.wasm"), { maximum: 2 ** 26 })
    const answer: Answer = gazhdor.check(bytes)
    const reason: string | null = answer.reason
    for (const message of gazhdor.messages(bytes, { only: ["record", 20], partial: true })) {
        const value: Value | undefined = message.get("heart_rate")
        const fields: Field[] = message.fields
        const names: string[] = [...message].map(([name]) => name)
        const time = message.time
        if (time instanceof Date) time.toISOString()
        else if (time !== null) time.startsWith("system+")
        message.get([0, 2])
        message.get(3)
        // @ts-expect-error: a key is no object
        message.get({})
        const word: string | null | undefined = message.word("sport") ?? fields[0].word
        void [value, fields, names, word]
    }
    for (const row of gazhdor.table(bytes)) row.heart_rate?.toFixed(0)
    gazhdor.messages(bytes, { words: true, names: EXTRA.with([["record", 200, { name: "own", scale: 10 }], [140, "physiology"]]) })
    gazhdor.columns(bytes, "record", ["left_pco"], { names: new Names("message\tfield\tfield name") })
    // @ts-expect-error: a name is no number
    new Names([["record", 200, 5]])
    const track: string = gazhdor.gpx(bytes, { partial: true })
    const sports: Record<number, string> = words("sport")
    const { altitude } = gazhdor.columns(bytes, "record", ["altitude"])
    if (altitude instanceof Float64Array) altitude[0].toFixed(1)
    const text: string = gazhdor.toCsv(bytes)
    const encoded: Uint8Array = gazhdor.toCsv(bytes.buffer, { encoded: true })
    // @ts-expect-error: encoded text is no string
    const wrong: string = gazhdor.show(bytes, { encoded: true })
    const made: Uint8Array = gazhdor.fromCsv(text)
    const again: Uint8Array = gazhdor.fromBlocks(gazhdor.blocks(bytes, { partial: true }))
    // @ts-expect-error: blocks are bytes
    gazhdor.fromBlocks(text)
    const out = new Writer(gazhdor, { names: EXTRA })
    const core = out.describe("Core", { unit: "C", base: "float32", native: ["record", 139] })
    out.define("record", ["timestamp", [200, "uint16", 2], core]).write(new Map<string | number | typeof core, number | number[]>([["timestamp", 5], [200, [1, 2]], [core, 37.5]]))
    out.write("session", { sport: "cycling", start_time: new Date(), start_position_lat: semicircles(47.3) })
    // @ts-expect-error: a value is no object
    out.write("session", { sport: {} })
    for (const message of gazhdor.messages(bytes)) out.copy(message.adding({ heart_rate: 120 }).replace({ heart_rate: null }))
    const written: Uint8Array = out.finish()
    const { bytes: edited, emptied } = gazhdor.edit(bytes, { drop: ["position"], begin: new Date(), end: "2026-05-17T07:30:00Z", shift: 60 })
    const joined: Uint8Array = gazhdor.join([edited, written], { one: emptied[0].count > 0 })
    gazhdor.mend(joined, { whole: true })
    const stream = new Stream(gazhdor, "table")
    stream.feed(bytes)
    stream.close()
    const reader = response.body!.pipeThrough(gazhdor.stream("messages", { only: "lap" })).getReader()
    const next: Message | undefined = (await reader.read()).value
    // @ts-expect-error: there is no such kind
    gazhdor.stream("rows")
    try {
        gazhdor.show(made)
    } catch (error) {
        if (error instanceof Refused || error instanceof Truncated) error.place.toFixed(0)
        if (error instanceof BlocksRefused && error.reason === "Undefined") error.block?.toFixed(0)
        if (error instanceof WrongValue) error.field.trim()
        if (error instanceof UnknownName) error.nearest?.trim()
        if (error instanceof FitError && error.reason === "FileSum") error.explanation.trim()
    }
    void [track, reason, encoded, wrong, again, next, sports, when(5), degrees(5), VERSION]
}

void all
