/* What a ride has, from a shell: node js/example.mjs examples/ride.fit */
import { readFile } from "node:fs/promises"
import { Refused, Truncated, open } from "./gazhdor.mjs"

if (process.argv.length !== 3) {
    console.error("usage: node example.mjs FILE.fit")
    process.exit(2)
}
const bytes = await readFile(process.argv[2])
const gazhdor = await open()
console.log(`${gazhdor.check(bytes)}`)
try {
    for (const lap of gazhdor.messages(bytes, { only: "lap" }))
        console.log(`lap  ${lap.time instanceof Date ? lap.time.toISOString() : lap.time}  ${lap.get("total_distance")} ${lap.unit("total_distance")}`)
    const { altitude, heart_rate } = gazhdor.columns(bytes, "record", ["altitude", "heart_rate"])
    console.log(`${altitude.length} records, up to ${altitude.reduce((most, one) => (one > most ? one : most), -Infinity)} m`)
    if (heart_rate.some(rate => !Number.isNaN(rate))) console.log(`mean heart rate ${mean(heart_rate).toFixed(1)} bpm`)
} catch (error) {
    if (!(error instanceof Refused || error instanceof Truncated)) throw error
    console.error(`byte ${error.place}: ${error.explanation}`)
    process.exitCode = 1
}

function mean(column) {
    const told = column.filter(one => !Number.isNaN(one))
    return told.reduce((sum, one) => sum + one, 0) / told.length
}
