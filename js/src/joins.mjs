/* Files that are joined: as a chain, or as one activity. */
import { NotDescribed, judge } from "./answers.mjs"
import { Copier } from "./copying.mjs"
import { Odometer } from "./distances.mjs"
import { Files } from "./events.mjs"
import { insideOf } from "./messages.mjs"
import { EXTRA } from "./names.mjs"
import { FILE_END, FILE_HEADER } from "./numbers.mjs"
import { filesOf } from "./sources.mjs"
import { ACTIVITY, Anew, INDEX, LAP, LENGTH, Outline, RECORD, Ride, SESSION, SESSION_ENDS, Summary, activityOf, outlines } from "./summaries.mjs"
import { ADDED } from "./told.mjs"

const FILE_ID = [0, 49] // file_id, file_creator
const ZONES = 216, OF = 0, OF_INDEX = 1 // time_in_zone: what it is of, and the number of that
const FIRST_LENGTH = 35 // of a lap

/* Puts one file after another into an activity. */
class Joined {
    #out
    #all = new Summary()
    #first = null
    #counts = new Map([[LAP, 0], [LENGTH, 0]])
    #start = Infinity // the first and the last second of all parts
    #end = 0
    #ran = 0
    #added = new Map(ADDED.map(name => [name, 0]))

    constructor(out) { this.#out = out }

    /* Adds files of a source, which has that number. */
    add(files, number) {
        const told = outlines(files)
        let added = null
        for (const event of files.events()) {
            if (event.kind === FILE_HEADER) added = this.#begin(event, told.get(event.file) ?? new Outline(), number)
            else if (event.kind === FILE_END) this.#ended(added)
            else if (event.message === undefined) this.#out.event(event)
            else this.#put(event.message, added)
        }
        this.#named(added, () => this.#out.flush())
    }

    #begin(header, told, number) {
        const before = this.#all.start === null ? null : this.#all.end, isFirst = this.#first === null
        if (isFirst) {
            this.#out.event(header)
            this.#first = told
        }
        const firsts = new Map(this.#counts)
        return { number, before, ride: new Ride(told), odometer: isFirst ? null : new Odometer(this.#all.lastDistance), firsts, counted: told.counted }
    }

    /* Writes what stays of a file: not what tells more of its sessions. */
    #put(message, added) {
        const { number } = message
        if ([SESSION, ACTIVITY].includes(number) || (FILE_ID.includes(number) && added.odometer !== null)) return
        if (number === ZONES && message.get(OF) === SESSION) return
        if (number === RECORD) {
            message = moved(message, added)
            this.#all.take(message)
        }
        const put = this.#numbered(message, added)
        this.#named(added, () => this.#out.message(put))
    }

    /* A lap or a length with its number among all, where it has one, and what names one by its number. */
    #numbered(message, added) {
        const kind = message.number, count = this.#counts.get(kind)
        if (count !== undefined) {
            message = insideOf(message).definition.entry(INDEX)?.isNumber ? message.replace(new Map([[INDEX, count]])) : message
            this.#counts.set(kind, count + 1)
        }
        if (kind === LAP && (message.get(FIRST_LENGTH) ?? null) !== null) return naming(message, FIRST_LENGTH, LENGTH, added)
        if (kind === ZONES && message.get(OF) === LAP && (message.get(OF_INDEX) ?? null) !== null) return naming(message, OF_INDEX, LAP, added)
        return message
    }

    /* Does something, and names the file whose developer field can't be told as it is. */
    #named(added, call) {
        try {
            call()
        } catch (error) {
            if (!(error instanceof NotDescribed)) throw error
            const what = `file ${added.number} doesn't describe its developer field ${error.field}`
            throw new RangeError(`${what}, and would get the name and the type of one of a file before it`)
        }
    }

    /* Takes in what a file comes to. Records that are in no lap become one. */
    #ended(added) {
        const { all, told } = added.ride, [start, end] = told.span
        if (all.start === null) return
        this.#start = Math.min(this.#start, all.start, start)
        this.#end = Math.max(this.#end, all.end, end)
        this.#ran += told.lapsRan
        const laps = this.#counts.get(LAP), last = added.ride.lastLap(laps)
        if (last !== null) {
            this.#named(added, () => last.write(this.#out))
            this.#counts.set(LAP, laps + 1)
            this.#ran += last.values.total_timer_time
        }
        for (const [name, sum] of this.#added) {
            const more = told.added(name)
            this.#added.set(name, sum === null || more === null ? null : sum + more)
        }
    }

    /* Writes the session and the activity, where there are records with times. */
    end() {
        if (this.#first === null || this.#all.start === null) return
        const counts = { first_lap_index: 0, num_laps: this.#counts.get(LAP) }
        const added = Object.fromEntries([...this.#added].filter(([, sum]) => sum !== null).map(([name, sum]) => [name, Math.round(sum)]))
        const values = { message_index: 0, ...this.#all.told(this.#start, this.#end, this.#ran), ...this.#first.sport, ...counts, ...added, ...SESSION_ENDS }
        new Anew("session", values).write(this.#out)
        activityOf(this.#end, { count: 1, ran: this.#ran }, this.#first.zone).write(this.#out)
    }
}

/* A message that names another one of a kind by the number that this gets; it has none where there is no such one. */
function naming(message, field, kind, { firsts, counted }) {
    const at = counted.get(kind).get(message.get(field))
    return message.replace(new Map([[field, at === undefined ? null : firsts.get(kind) + at]]))
}

/* A record as it goes on from the file before. */
function moved(record, { number, before, ride, odometer }) {
    if (before !== null && record.seconds !== null && record.seconds < before)
        throw new RangeError(`file ${number} begins before the one before it ends: name them in the order of their times`)
    ride.take(record)
    return odometer?.moved(record) ?? record
}

/* The bytes of several files as a chain or, with `one`, as one activity. */
export function joinedFiles(gazhdor, sources, one = false) {
    const out = new Copier(gazhdor)
    try {
        const joined = new Joined(out)
        for (const [k, bytes] of sources.entries()) {
            judge(gazhdor.check(bytes))
            if (one) for (const some of filesOf(bytes)) joined.add(new Files(gazhdor, some, EXTRA), k + 1)
            else for (const event of new Files(gazhdor, bytes).events()) out.take(event)
        }
        if (one) joined.end()
        return out.finish()
    } finally {
        out.close()
    }
}
