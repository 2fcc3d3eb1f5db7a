/* Sessions, laps and lengths as rows: what the page shows of such a message, as plain numbers, and null for what it doesn't say. */
import { Message } from "../src/messages.mjs"
import { SYSTEM_TIMES, milliseconds } from "../src/plain.mjs"

const TOTALS = [
    "total_distance", "total_elapsed_time", "total_timer_time", "total_ascent", "total_descent", "total_calories", "total_cycles",
    "avg_speed", "max_speed", "avg_heart_rate", "max_heart_rate", "avg_cadence", "avg_power", "max_power",
]
/* Fields that the proved profile hasn't, by their numbers and scales as Garmin's public profile has them. */
const MORE = {
    session: {
        lengths: [47, 1], all_lengths: [33, 1], pool_length: [44, 100], stroke: [43, 1], fast_avg: [124, 1000], fast_max: [125, 1000], normalized: [34, 1],
    },
    lap: { lengths: [40, 1], all_lengths: [32, 1], stroke: [38, 1], fast_avg: [110, 1000], fast_max: [111, 1000], normalized: [33, 1] },
    length: { elapsed: [3, 1000], timer: [4, 1000], strokes: [5, 1], swum: [6, 1000], stroke: [7, 1], length_type: [12, 1] },
}
const KINDS = { 18: "session", 19: "lap", 101: "length" }
const START = { session: 2, lap: 2, length: 2 }
const SUB_SPORT = 39 // of a lap, where the proved profile doesn't name it
const MOST_ROWS = 2000

const number = value => (typeof value === "number" && Number.isFinite(value) ? value : null)
const moment = seconds => (seconds !== null && seconds >= SYSTEM_TIMES && seconds < 2 ** 32 ? milliseconds(seconds) : null)
const first = (...values) => values.find(value => value !== null && value !== undefined) ?? null

/* What sport a message tells of: its number, its word, and the word of what kind of it. */
function sportOf(message) {
    const sub_word = message.word("sub_sport") ?? message.word(SUB_SPORT) ?? null
    return { sport: number(message.get("sport")), sport_word: message.word("sport") ?? null, sub_word }
}

function rowOf(kind, message) {
    const more = {}
    for (const [name, [field, scale]] of Object.entries(MORE[kind])) {
        const told = number(message.get(field))
        more[name] = told === null ? null : told / scale
    }
    const row = { start: moment(number(message.get(START[kind]))), end: moment(message.seconds), normalized: first(more.normalized) }
    Object.assign(row, kind === "length" ? { sport: null } : sportOf(message), { stroke: more.stroke, stroke_word: message.word(MORE[kind].stroke[0]) ?? null })
    for (const name of TOTALS) row[name] = kind === "length" ? null : number(message.get(name))
    row.lengths = first(more.lengths, more.all_lengths)
    row.pool_length = first(more.pool_length)
    row.total_elapsed_time = first(row.total_elapsed_time, more.elapsed)
    row.total_timer_time = first(row.total_timer_time, more.timer)
    row.total_cycles = first(row.total_cycles, more.strokes)
    row.length_type = first(more.length_type)
    row.avg_speed = first(row.avg_speed, more.fast_avg, more.swum)
    row.max_speed = first(row.max_speed, more.fast_max)
    if (row.avg_speed === null && row.total_distance !== null && row.total_timer_time > 0) row.avg_speed = row.total_distance / row.total_timer_time
    // The end is where its own time says, but no later than it took.
    if (row.start !== null && row.total_elapsed_time >= 0) row.end = first(row.end, row.start + 1000 * (row.total_elapsed_time ?? 0))
    return row
}

/* The rows of some messages, at most so many of each kind; and how many messages of each name there are. */
export class Rows {
    session = []
    lap = []
    length = []
    counts = new Map()
    sport = null

    take(blocks, { definition, begin, end, length }) {
        const name = definition.name ?? `message_${definition.number}`, rows = this[KINDS[definition.number]]
        this.counts.set(name, (this.counts.get(name) ?? 0) + (end - begin) / length)
        const isSport = definition.name === "sport" && this.sport === null
        if (rows === undefined && !isSport) return
        const bytes = blocks.slice(begin, end), part = { bytes, view: new DataView(bytes.buffer) }
        for (let at = 0; at < bytes.length && (isSport || rows.length < MOST_ROWS); at += length) {
            const message = new Message(definition, part, at)
            if (isSport) this.sport = sportOf(message)
            else rows.push(rowOf(KINDS[definition.number], message))
            if (isSport) break
        }
    }
}
