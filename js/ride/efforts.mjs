/* The power curve of a ride, and how long it was in each zone. */

const PAUSE = 10 // Where so many seconds have no record, the rider stood.
const MOST_SECONDS = 1 << 20
const TIMES = [1, 2, 3, 5, 8, 10, 15, 20, 30, 45, 60, 90, 120, 180, 300, 480, 600, 900, 1200, 1800, 2700, 3600, 5400, 7200, 10800, 14400, 18000]

/* How many seconds each point stands for: up to the next one, but one where a pause follows. */
export function secondsOf(seconds) {
    return seconds.map((one, k) => {
        const next = seconds[k + 1] - one
        return next > 0 && next <= PAUSE ? next : 1
    })
}

/* The power of each second, with zeros in pauses, of which no more is kept than the longest time of the curve. */
function everySecond(seconds, power) {
    const each = []
    for (let k = 0; k < power.length && each.length < MOST_SECONDS; k++) {
        const gap = Math.round(seconds[k + 1] - seconds[k]), value = Number.isNaN(power[k]) ? 0 : power[k]
        if (Number.isNaN(seconds[k]) || gap === 0) continue
        const stay = gap > 0 && gap <= PAUSE ? gap : 1, pause = gap > PAUSE ? Math.min(gap - 1, TIMES[TIMES.length - 1]) : 0
        for (let one = 0; one < stay; one++) each.push(value)
        for (let one = 0; one < pause && each.length < MOST_SECONDS; one++) each.push(0)
    }
    return each
}

/* The greatest mean power over each of some times: pairs of seconds and watts. */
export function powerCurve(seconds, power) {
    const each = everySecond(seconds, power), sums = new Float64Array(each.length + 1)
    for (let k = 0; k < each.length; k++) sums[k + 1] = sums[k] + each[k]
    return TIMES.filter(time => time <= each.length).map(time => {
        let most = 0
        for (let k = time; k < sums.length; k++) most = Math.max(most, sums[k] - sums[k - time])
        return [time, most / time]
    })
}

const SHARES = { power: [.55, .75, .9, 1.05, 1.2, 1.5], heart: [.6, .7, .8, .9] }

/* The bounds of the zones that a text says: rising numbers are the bounds, one number alone is the threshold power or the maximum heart rate, of
 * which the bounds are usual shares. Null where it says none. */
export function boundsOf(text, kind) {
    const numbers = text.split(/[\s,;]+/).filter(word => word).map(Number)
    if (numbers.length === 0 || numbers.length > 12 || numbers.some((one, k) => !(one > 0 && one < 1e5) || one <= numbers[k - 1])) return null
    return numbers.length > 1 ? numbers : SHARES[kind].map(share => Math.round(share * numbers[0]))
}

/* How many seconds are in each zone, the first being below the first bound. */
export function zoneTimes(column, weights, bounds) {
    const times = Array(bounds.length + 1).fill(0)
    for (let k = 0; k < column.length; k++) {
        if (Number.isNaN(column[k])) continue
        const zone = bounds.findIndex(bound => column[k] < bound)
        times[zone < 0 ? bounds.length : zone] += weights[k]
    }
    return times
}
