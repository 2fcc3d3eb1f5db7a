/* What the records of a ride say as a whole, and what a file says of itself: its sessions, its laps, its activity. */
import { WrongValue } from "./answers.mjs"
import { NO_TIME } from "./numbers.mjs"
import { SYSTEM_TIMES } from "./plain.mjs"
import { STOP, Timer } from "./timers.mjs"
import { ADDED, Counted, Told, numberIn, sportOf } from "./told.mjs"

const [LAP, SESSION, RECORD, EVENT, SPORT, ACTIVITY, LENGTH] = [19, 18, 20, 21, 12, 34, 101]
export { ACTIVITY, LAP, LENGTH, RECORD, SESSION, SPORT }
export const INDEX = 254
/* Numbers of the profile: events, and what ends a lap. */
const OF_SESSION = 8, OF_LAP = 9, OF_ACTIVITY = 26
export const LAP_ENDS = { event: OF_LAP, event_type: STOP, lap_trigger: 7 }
export const SESSION_ENDS = { event: OF_SESSION, event_type: STOP, trigger: 0 }
const MEANS = ["heart_rate", "cadence", "power"]
const isWhole = value => typeof value === "number" && Number.isInteger(value)

/* Takes in the records of a ride, and says what they come to. Of what no record has it says nothing. */
export class Summary {
    start = null
    end = 0
    #places = []
    #distances = []
    #most = new Map()
    #sums = new Map()

    take(message) {
        const { seconds } = message
        if (seconds !== null) {
            this.start = Math.min(this.start ?? seconds, seconds)
            this.end = Math.max(this.end, seconds)
        }
        const place = [message.get(0), message.get(1)]
        if (place.every(isWhole)) this.#places[Math.min(this.#places.length, 1)] = place
        const distance = numberIn(message, "distance", message.distance)
        if (distance !== null) this.#distances[Math.min(this.#distances.length, 1)] = distance
        const speed = numberIn(message, "enhanced_speed", numberIn(message, "speed", message.speed))
        for (const [name, value] of [["speed", speed], ...MEANS.map(name => [name, numberIn(message, name)])]) {
            if (value === null) continue
            this.#most.set(name, Math.max(value, this.#most.get(name) ?? value))
            const [total, count] = this.#sums.get(name) ?? [0, 0]
            this.#sums.set(name, [total + value, count + 1])
        }
    }

    get lastDistance() { return this.#distances.at(-1) ?? 0 }

    /* The fields that a lap and a session of this span have alike, in which the timer ran so long. */
    told(start, end, ran) {
        const found = { timestamp: end, start_time: start, total_elapsed_time: end - start, total_timer_time: ran }
        if (this.#places.length > 0) [found.start_position_lat, found.start_position_long] = this.#places[0]
        if (this.#distances.length > 0) found.total_distance = Math.max(0, this.#distances.at(-1) - this.#distances[0])
        for (const name of ["speed", ...MEANS].filter(name => this.#sums.has(name))) {
            const [total, count] = this.#sums.get(name)
            found[`avg_${name}`] = total / count
            found[`max_${name}`] = this.#most.get(name)
        }
        if (ran && found.total_distance !== undefined) found.avg_speed = found.total_distance / ran
        return Object.fromEntries(Object.entries(found).filter(([name, value]) => !name.endsWith("_speed") || value < 65.535))
    }

    lap(start, end, ran) {
        const found = this.told(start, end, ran)
        if (this.#places.length > 0) [found.end_position_lat, found.end_position_long] = this.#places.at(-1)
        return found
    }
}

/* What a file says of itself: its laps, its sessions, their sports, its activity, and when its timer ran. */
export class Outline {
    laps = new Told()
    sessions = new Told()
    sports = 0 // so many messages say one
    timer = new Timer()
    counted = new Map([[LAP, new Counted()], [LENGTH, new Counted()]]) // all laps and lengths
    activity = null // what the first activity says
    zone = null // how many seconds the clock of the place is ahead of UTC
    #sport = null // what the first message says of it that does

    /* The laps, or the sessions. */
    of(number) { return number === LAP ? this.laps : this.sessions }

    take(message) {
        const { number } = message
        this.counted.get(number)?.take(message.get(INDEX) ?? null)
        if (number === EVENT) this.timer.take(message)
        else if (number === LAP || number === SESSION) this.of(number).take(message)
        else if (number === SPORT) this.#takeSport(message)
        else if (number === ACTIVITY) this.#takeActivity(message)
    }

    #takeSport(message) {
        const sport = sportOf(message)
        if (this.#sport === null && Object.keys(sport).length > 0) this.#sport = sport
        this.sports++
    }

    #takeActivity(message) {
        const local = message.get("local_timestamp"), { seconds } = message
        this.activity ??= activityIn(message)
        if (this.zone === null && isWhole(local) && seconds !== null) this.zone = local - seconds
    }

    /* The sport of its first session, or where it has none, the one that it names first. */
    get sport() {
        for (let row = 0; row < this.sessions.length; row++) {
            const sport = this.sessions.sport(row)
            if (Object.keys(sport).length > 0) return sport
        }
        return this.#sport ?? {}
    }

    /* The first and the last second of all laps and sessions; Infinity and 0 without any. */
    get span() {
        const all = [this.laps, this.sessions].filter(({ length }) => length > 0)
        return [Math.min(...all.map(({ first }) => first)), Math.max(0, ...all.map(({ last }) => last))]
    }

    /* How long the timer ran in a lap, as it says, or else by the events. */
    lapRan(row) { return this.laps.timer(row) ?? this.timer.ran(...this.laps.span(row)) }

    /* The same of all laps. */
    get lapsRan() {
        let sum = 0
        for (let row = 0; row < this.laps.length; row++) sum += this.lapRan(row)
        return sum
    }

    /* What its sessions come to, or its laps; null where not all of them say it. */
    added(name) {
        const at = ADDED.indexOf(name), told = [this.sessions, this.laps].find(({ length, added }) => length > 0 && added[at] !== null)
        return told === undefined ? null : told.added[at]
    }
}

/* The records of a file: all of them, and those after its last lap. */
export class Ride {
    all = new Summary()
    #rest = new Summary()
    #lapsEnd

    constructor(told) {
        this.told = told
        this.#lapsEnd = told.laps.last
    }

    take(record) {
        this.all.take(record)
        if (record.seconds !== null && (this.#lapsEnd === null || record.seconds > this.#lapsEnd)) this.#rest.take(record)
    }

    /* A lap of the records that are in none, by what it is counted; null where the timer didn't run in it. */
    lastLap(index) {
        if (this.#rest.start === null) return null
        const begin = this.#lapsEnd ?? this.#rest.start, end = Math.max(this.told.span[1], this.#rest.end)
        const ran = this.told.timer.ran(begin, end)
        return ran === 0 && this.#lapsEnd !== null ? null : new Anew("lap", { message_index: index, ...this.#rest.lap(begin, end, ran), ...LAP_ENDS })
    }
}

/* The outline of each file that says something of itself, by its number. */
export function outlines(files) {
    const found = new Map()
    for (const message of files.messages(LAP, SESSION, SPORT, ACTIVITY, EVENT, LENGTH)) {
        const { file } = message
        if (!found.has(file)) found.set(file, new Outline())
        found.get(file).take(message)
    }
    return found
}

/* A message that is made anew: its name, and its values. */
export class Anew {
    constructor(message, values) { Object.assign(this, { message, values }) }

    /* Writes it, and nothing of what its fields can't have, as the mean of values that no ride has. */
    write(out) {
        for (let values = this.values;;) {
            try {
                return out.write(this.message, values)
            } catch (wrong) {
                if (!(wrong instanceof WrongValue && Object.hasOwn(values, wrong.field))) throw wrong
                values = Object.fromEntries(Object.entries(values).filter(([name]) => name !== wrong.field))
            }
        }
    }
}

/* What an activity says of itself, beside its times. */
export const activityIn = message =>
    Object.fromEntries(["type", "event", "event_type"].map(name => [name, message.get(name) ?? null]).filter(([, value]) => value !== null))

/* The message of an activity of so many sessions in which the timer ran so long, which ends at a second; of one that was told what it says. */
export function activityOf(end, { count, ran }, zone, told) {
    const values = { timestamp: end, total_timer_time: ran, num_sessions: count, type: 0 }
    const local = zone === null || end + zone < SYSTEM_TIMES || end + zone >= NO_TIME ? {} : { local_timestamp: end + zone }
    return new Anew("activity", { ...values, event: OF_ACTIVITY, event_type: STOP, ...told, ...local })
}
