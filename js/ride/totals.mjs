/* What a ride, a session or a part of the points has together: distance, time, means. */
import { mean, range } from "./scales.mjs"

const orNull = value => (Number.isNaN(value) ? null : value)
const least = column => (column === undefined ? null : orNull(range(column).low))
const most = column => (column === undefined ? null : orNull(range(column).high))
const first = (...values) => values.find(value => value !== null && value !== undefined) ?? null
const speedOf = (distance, time) => (distance !== null && time > 0 ? distance / time : null)

/* Of a session or a lap, as its message says. */
export function rowTotals(row) {
    const distance = row.total_distance, time = first(row.total_timer_time, row.total_elapsed_time)
    return {
        start: row.start, distance, time, speed: first(row.avg_speed, speedOf(distance, time)), ascent: row.total_ascent, calories: row.total_calories,
        heart_rate: row.avg_heart_rate, most_heart_rate: row.max_heart_rate, power: row.avg_power, normalized: row.normalized, cadence: row.avg_cadence,
        lengths: row.lengths, strokes: row.total_cycles, pool_length: row.pool_length,
    }
}

/* Of the points from one to another. What they don't say is null. */
export function pointTotals(points, from = 0, to = points.length - 1) {
    const part = name => points[name]?.subarray(from, to + 1)
    const across = (name, scale) => {
        const { low, high } = points[name] === undefined ? {} : range(part(name))
        return high >= low ? (high - low) / scale : null
    }
    const average = name => (points[name] === undefined ? null : mean(part(name)))
    const distance = across("distance", 1), time = across("time", 1000)
    return {
        start: part("time")?.find(one => !Number.isNaN(one)) ?? null, distance, time, speed: speedOf(distance, time), heart_rate: average("heart_rate"),
        most_heart_rate: most(part("heart_rate")), power: average("power"), most_power: most(part("power")), cadence: average("cadence"),
        low: least(part("altitude")), high: most(part("altitude")),
    }
}

/* Of all sessions; where there is none, of the points. */
export function rideTotals({ sessions, points }) {
    const all = pointTotals(points), rows = sessions.map(rowTotals)
    if (rows.length === 1) return { ...all, ...Object.fromEntries(Object.entries(rows[0]).filter(([, value]) => value !== null)) }
    const sum = name => rows.reduce((sum, one) => (one[name] === null ? sum : (sum ?? 0) + one[name]), null)
    if (rows.length === 0) return { ...all, ascent: null, calories: null }
    const hearts = rows.map(one => one.most_heart_rate).filter(one => one !== null)
    return {
        ...all, start: first(rows[0].start, all.start), distance: first(sum("distance"), all.distance), time: first(sum("time"), all.time),
        speed: null, cadence: null, ascent: sum("ascent"), calories: sum("calories"),
        most_heart_rate: hearts.length > 0 ? Math.max(...hearts) : all.most_heart_rate,
    }
}
