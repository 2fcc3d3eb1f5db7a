/* How many seconds the timer ran, by its events; all the time where there are none. */

/* Numbers of the profile: the event of the timer, and its types. */
const TIMER = 0
const START = 0, STOPS = [1, 4, 8, 9]
export const STOP = 1
const EVER = 2 ** 40 // more seconds than a file can tell

/* Takes all events in, and then says how long it ran. */
export class Timer {
    #events = [] // twice the second of each, and one more where it stops
    #isSorted = true
    #ran = null // the beginnings of the times in which it ran, and how long it ran before each, and in all

    take(message) {
        const type = message.get(1), { seconds } = message
        if (message.get(0) !== TIMER || seconds === null || !(type === START || STOPS.includes(type))) return
        const event = 2 * seconds + (type === START ? 0 : 1)
        this.#isSorted &&= this.#events.length === 0 || secondOf(this.#events.at(-1)) <= seconds
        this.#events.push(event)
    }

    #found() {
        if (this.#ran !== null) return this.#ran
        const events = this.#events, begins = [], befores = []
        if (!this.#isSorted) events.sort((one, other) => secondOf(one) - secondOf(other))
        let since = events.length > 0 && events[0] % 2 === START ? null : -EVER, before = 0
        events.push(2 * EVER + 1)
        for (const event of events) {
            const time = secondOf(event)
            if (event % 2 === START) since ??= time
            else if (since !== null) {
                begins.push(since)
                befores.push(before)
                before += time - since
                since = null
            }
        }
        befores.push(before)
        this.#events = []
        return this.#ran = { begins, befores }
    }

    #upTo(time) {
        const { begins, befores } = this.#found()
        let low = 0, high = begins.length // the times in which it ran that begin by then
        while (low < high) {
            const middle = (low + high) >> 1
            if (begins[middle] <= time) low = middle + 1
            else high = middle
        }
        return low === 0 ? 0 : Math.min(befores[low - 1] + time - begins[low - 1], befores[low])
    }

    /* How long it ran from a second to another one. */
    ran(start, end) { return this.#upTo(end) - this.#upTo(start) }
}

const secondOf = event => Math.floor(event / 2)
