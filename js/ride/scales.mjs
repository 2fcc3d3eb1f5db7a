/* Columns of numbers: their ranges, where they stand across a chart, and what of them is drawn. */

export const MOST_DRAWN = 40000 // So many points has a line at most; only times and places that go to and fro make more of them.
const BREAK = 300 // A line is broken where so many seconds lie between two points.
const SAMPLE = 1 << 14
const REST = .0005 // of the points at each end, which may lie outside of what a chart shows

/* The least and the greatest of a column, from one point to another; without any, both are NaN. */
export function range(column, from = 0, to = column.length - 1) {
    let low = NaN, high = NaN
    for (let k = from; k <= to; k++) {
        const one = column[k]
        if (!(one >= low)) low = Number.isNaN(one) ? low : one
        if (!(one <= high)) high = Number.isNaN(one) ? high : one
    }
    return { low, high }
}

/* Of the numbers of a column from one point to another so many at most, evenly taken, in rising order. */
function sampled(column, from, to) {
    const step = Math.ceil((to - from + 1) / SAMPLE), found = new Float64Array(Math.ceil((to - from + 1) / step))
    let count = 0
    for (let k = from; k <= to; k += step) if (!Number.isNaN(column[k])) found[count++] = column[k]
    return found.subarray(0, count).sort()
}

/* What a chart shows of a column: all of it, or the range of its middle 99.9 % where the rest lies far outside of that. */
export function shownRange(column, from, to) {
    const whole = range(column, from, to), sorted = sampled(column, from, to)
    const rest = Math.ceil(sorted.length * REST), low = sorted[rest], high = sorted[sorted.length - 1 - rest]
    if (sorted.length < 20 || !(low < high)) return whole
    const far = (high - low) / 2
    return { low: whole.low < low - far ? low : whole.low, high: whole.high > high + far ? high : whole.high }
}

/* The mean of what is there, from one point to another, or null. */
export function mean(column, from = 0, to = column.length - 1) {
    let sum = 0, count = 0
    for (let k = from; k <= to; k++) if (!Number.isNaN(column[k])) sum += column[k], count++
    return count === 0 ? null : sum / count
}

/* The seconds of each point since the first that has a time; without any, its number. */
export function elapsed({ time, length }) {
    if (time === undefined) return Float64Array.from({ length }, (_, k) => k)
    const first = time.find(one => !Number.isNaN(one))
    return time.map(one => (one - first) / 1000)
}

/* Where each point from one to another stands across a chart, and which point is nearest to each pixel. */
export function across(xs, { from, to }, left, width) {
    const { low, high } = range(xs, from, to), scale = width / (high - low || 1)
    const at = new Float64Array(xs.length).fill(NaN), nearest = new Int32Array(Math.max(1, Math.ceil(width) + 1)).fill(-1)
    for (let k = from; k <= to; k++) {
        at[k] = left + (xs[k] - low) * scale
        if (!Number.isNaN(at[k])) nearest[Math.round(at[k] - left)] = k
    }
    if (!Number.isNaN(at[from])) nearest[Math.round(at[from] - left)] = from // so that both ends can be reached
    let seen = -1
    for (let x = 0; x < nearest.length; x++) if (nearest[x] >= 0) seen = nearest[x]; else nearest[x] = seen
    for (let x = nearest.length - 1; x >= 0; x--) if (nearest[x] >= 0) seen = nearest[x]; else nearest[x] = seen
    return { at, nearest, low, high, scale, left, width, from, to }
}

/* The points from one to another that are drawn of a column, as parts that hang together: of those in each column of pixels the first, the
 * least, the greatest and the last. */
export function thinned({ at, from, to }, seconds, column) {
    const parts = []
    let count = 0, part = null, pixel = NaN, before = NaN, first = -1, low = -1, high = -1, last = -1
    const flush = () => {
        if (first < 0) return
        let before = -1
        for (const k of [first, Math.min(low, high), Math.max(low, high), last]) {
            if (k === before) continue
            part.push({ x: at[before = k], y: column[k] })
            count++
        }
        first = -1
    }
    for (let k = from; k <= to && count < MOST_DRAWN; k++) {
        const y = column[k], x = Math.floor(at[k])
        if (Number.isNaN(y) || Number.isNaN(x)) continue
        const isApart = part === null || Math.abs(seconds[k] - before) > BREAK
        if (isApart || x !== pixel) flush()
        if (isApart) parts.push(part = [])
        before = seconds[k]
        pixel = x
        if (first < 0) first = low = high = k
        if (y < column[low]) low = k
        if (y > column[high]) high = k
        last = k
    }
    flush()
    return parts
}
