/* The record messages of a ride as columns of numbers, which a chart or a track can have. */
import { Columns } from "../src/columns.mjs"
import { Walk } from "../src/messages.mjs"

const RECORD = 20
const FIELDS = ["heart_rate", "power", "cadence", "field_53", "temperature"]
const NAMES = ["timestamp", ".latitude", ".longitude", ".altitude", ".distance", ".speed", ...FIELDS]
/* So many records are drawn, and so many developer fields: a file of few bytes may have very many of both. */
export const MOST_POINTS = 1 << 20
export const MOST_DEVELOPERS = 12

const isThere = column => column.some(one => !Number.isNaN(one))

/* A column of numbers that a chart can have; of a field of another kind, none. */
function numeric(column, length) {
    if (!(column instanceof Float64Array)) return new Float64Array(length).fill(NaN)
    for (let k = 0; k < length; k++) if (!(Math.abs(column[k]) < 1e14)) column[k] = NaN
    return column
}

/* Which developer fields records have, by the labels of their columns. */
export class Developers {
    labels = new Map()
    count = 0
    #rows = 0

    take({ definition, begin, end, length }) {
        if (definition.number !== RECORD || this.#rows >= MOST_POINTS) return
        this.#rows += (end - begin) / length
        for (const [label, entry] of definition.labels) {
            if (entry.index === null || !entry.isNumber || FIELDS.includes(label) || this.labels.has(label)) continue
            this.count++
            if (this.labels.size < MOST_DEVELOPERS) this.labels.set(label, { name: entry.name ?? label, unit: entry.unit ?? "" })
        }
    }
}

/* The columns of the records up to so many, of blocks that come in pieces. */
export class Points {
    #walk = new Walk("record")
    #columns
    #labels
    #rows = 0
    isCut = false

    constructor(developers) {
        this.#labels = developers.labels
        this.#columns = new Columns("record", [...NAMES, ...this.#labels.keys()])
    }

    take(blocks) {
        const runs = this.#walk.runs(blocks).map(run => {
            const rows = Math.min((run.end - run.begin) / run.length, MOST_POINTS - this.#rows), end = run.begin + rows * run.length
            this.#rows += rows
            this.isCut ||= end < run.end
            return { ...run, end }
        })
        this.#columns.take(blocks, runs.filter(({ begin, end }) => begin < end))
    }

    done() {
        const found = this.#columns.done(), length = found.timestamp.length
        const of = name => numeric(found[name], length)
        const cadence = of("cadence"), parts = of("field_53")
        for (let k = 0; k < length; k++) if (parts[k] < 128) cadence[k] += parts[k] / 128
        const points = {
            time: of("timestamp"), latitude: of(".latitude"), longitude: of(".longitude"), altitude: of(".altitude"),
            distance: of(".distance"), speed: of(".speed"), heart_rate: of("heart_rate"), power: of("power"), cadence, temperature: of("temperature"),
        }
        for (const [name, column] of Object.entries(points)) if (!isThere(column)) delete points[name]
        const own = [...this.#labels].map(([label, told]) => ({ ...told, column: of(label) })).filter(({ column }) => isThere(column))
        return { length, ...points, own }
    }
}
