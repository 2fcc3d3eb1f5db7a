/* What laps and sessions say of themselves, in columns: of a message that has one byte in its file a few are kept, and of no message all. */

/* What adds up where rides are put together. */
export const ADDED = ["total_calories", "total_ascent", "total_descent", "total_cycles"]

/* A number that a message has, or another one. */
export function numberIn(message, name, other = null) {
    const value = message.get(name), number = typeof value === "bigint" ? Number(value) : value
    return typeof number === "number" && Number.isFinite(number) ? number : other
}

/* The first and the last second of a lap or a session; null where it has no time. */
export function spanOf(message) {
    let start = message.get("start_time"), end = message.seconds
    const elapsed = numberIn(message, "total_elapsed_time"), lasts = elapsed === null ? null : Math.floor(elapsed + .5)
    if (!Number.isInteger(start)) start = end === null || lasts === null ? end : end - lasts
    else if (lasts !== null) end = start + lasts
    return start === null || end === null ? null : [start, Math.max(start, end)]
}

export const sportOf = message => saidOf(message.get("sport"), message.get("sub_sport"))

function saidOf(sport, subSport) {
    const said = {}
    if (sport !== null && sport !== undefined) said.sport = sport
    if (subSport !== null && subSport !== undefined) said.sub_sport = subSport
    return said
}

const PIECE = 1 << 10

/* Seconds, which are whole numbers below 2 ** 32 mostly: each takes four bytes, and is never copied as they become more. */
class Seconds {
    length = 0
    #pieces = []
    #others = new Map()

    push(second) {
        const at = this.length++ % PIECE
        if (at === 0) this.#pieces.push(new Uint32Array(PIECE))
        if (second >>> 0 === second) this.#pieces.at(-1)[at] = second
        else this.#others.set(this.length - 1, second)
    }

    at(row) { return this.#others.get(row) ?? this.#pieces[Math.floor(row / PIECE)][row % PIECE] }
}

/* Laps, or sessions, of one file that have a time, by their order. */
export class Told {
    first = null // the first and the last second of all
    last = null
    added = ADDED.map(() => 0) // what all come to; null where not all of them say it
    #ends = new Seconds()
    // Of these only what is said, and of the first seconds those that aren't the last ones.
    #starts = []
    #timers = []
    #indices = []
    #sports = []
    #subSports = []

    take(message) {
        const span = spanOf(message)
        if (span === null) return
        const [start, end] = span, row = this.length
        this.#ends.push(end)
        if (start !== end) this.#starts[row] = start
        this.first = Math.min(this.first ?? start, start)
        this.last = Math.max(this.last ?? end, end)
        const timer = numberIn(message, "total_timer_time"), index = message.get("message_index"), { sport, sub_sport: subSport } = sportOf(message)
        if (timer !== null) this.#timers[row] = timer
        if (index !== undefined) this.#indices[row] = index
        if (sport !== undefined) this.#sports[row] = sport
        if (subSport !== undefined) this.#subSports[row] = subSport
        for (const [k, name] of ADDED.entries()) {
            const more = this.added[k] === null ? null : numberIn(message, name)
            this.added[k] = more === null ? null : this.added[k] + more
        }
    }

    get length() { return this.#ends.length }

    /* The first and the last second. */
    span(row) {
        const end = this.#ends.at(row)
        return [this.#starts[row] ?? end, end]
    }

    /* How long the timer ran, as it says; null where it doesn't. */
    timer(row) { return this.#timers[row] ?? null }

    /* Its number; null where it has no value, undefined where it has no such field. */
    index(row) { return this.#indices[row] }
    sport(row) { return saidOf(this.#sports[row], this.#subSports[row]) }

    /* Of each its first and its last second. */
    *spans() { for (let row = 0; row < this.length; row++) yield this.span(row) }
}

/* Messages of a kind, by the numbers that they have: which of them it is, from 0. Of several that have one number the first counts. */
export class Counted {
    #count = 0
    #byIndex = new Map()

    take(index) {
        if (index !== null && !this.#byIndex.has(index)) this.#byIndex.set(index, this.#count)
        this.#count++
    }

    /* Which one has that number; undefined where none has. */
    get(index) { return this.#byIndex.get(index) }
}
