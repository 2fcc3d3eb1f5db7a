/* A column of messages: a typed array, filled from blocks where they lie in the module's memory. */
import { OutOfMemory } from "./answers.mjs"
import { codeOf, invalidOf, numberAt, wideAt } from "./items.mjs"
import { FLOAT } from "./numbers.mjs"
import { SYSTEM_TIMES, milliseconds } from "./plain.mjs"

function numbersOf(length) {
    try {
        return new Float64Array(length)
    } catch {
        throw new OutOfMemory(`no memory for a column of ${length} numbers`)
    }
}

/* What makes the number of a column of that of a field: a time, or so many times as much. */
function told(entry) {
    if (entry.isTime) return number => (number < SYSTEM_TIMES ? NaN : milliseconds(number))
    return entry.factor === undefined ? null : number => number * entry.factor
}

/* Numbers as float64, and NaN for none, until a message has a text, bytes or several numbers there; then an array of values. */
export class Column {
    #numbers = new Float64Array(0)
    #values = null
    #length = 0

    /* Has so many rows; those that nobody fills have no value. */
    reach(rows) {
        if (this.#values !== null) while (this.#length < rows) this.#values[this.#length++] = null
        if (this.#length >= rows) return
        if (rows > this.#numbers.length) {
            const more = numbersOf(Math.max(rows, 2 * this.#numbers.length, 256))
            more.set(this.#numbers.subarray(0, this.#length))
            this.#numbers = more
        }
        this.#numbers.fill(NaN, this.#length, rows)
        this.#length = rows
    }

    /* Takes the values of some messages of one definition, which begin at `places` and have these rows, of `all` that there are now. */
    take(part, { places, rows }, all, entry) {
        this.reach(all)
        if (!entry.isNumber && this.#values === null)
            this.#values = Array.from(this.#numbers.subarray(0, all), number => (Number.isNaN(number) ? null : number))
        if (this.#values !== null) {
            for (let k = 0; k < rows.length; k++) this.#values[rows[k]] = entry.read(part, places[k])
            return
        }
        for (const one of [entry, ...(entry.others ?? [])]) this.#fill(part.view, { places, rows, isFirst: one === entry }, one)
    }

    /* Fills in the numbers of a field; those of another one where there are none yet. */
    #fill(view, { places, rows, isFirst }, entry) {
        const { begins, scale, width } = entry, code = codeOf(entry), invalid = invalidOf(entry), numbers = this.#numbers
        const isWide = width === 8 && entry.kind !== FLOAT, shift = scale * entry.offset, as = told(entry)
        for (let k = 0; k < rows.length; k++) {
            const row = rows[k], at = places[k] + begins
            if (!isFirst && !Number.isNaN(numbers[row])) continue
            if (isWide) numbers[row] = wideNumber(wideAt(view, code, invalid, at), entry)
            else if (entry.kind === FLOAT) numbers[row] = numberAt(view, code, invalid, at) / scale - entry.offset
            else numbers[row] = (numberAt(view, code, invalid, at) - shift) / scale
            if (as !== null) numbers[row] = as(numbers[row])
        }
    }

    done(rows) {
        this.reach(rows)
        return this.#values ?? this.#numbers.slice(0, rows)
    }
}

const wideNumber = (item, entry) => (item === null ? NaN : Number(entry.scaled(item)))
