/* A part of a recording: the messages of a span of time, and what says of them what they come to. */
import { Odometer } from "./distances.mjs"
import {
    ACTIVITY, Anew, LAP, LAP_ENDS, Outline, RECORD, SESSION, SESSION_ENDS, SPORT, Summary, activityIn, activityOf, outlines,
} from "./summaries.mjs"
import { spanOf, sportOf } from "./told.mjs"

const STAYS = [0, 206, 207] // the file_id, and what describes developer fields
const ZONES = 216 // time_in_zone, which is of a session or a lap
const MOST = 100 // So many laps and sessions are cut.
const CALORIES = "total_calories"

/* The first and the last second that stay; null where nothing is left out. */
export class Span {
    constructor(begin, end) { Object.assign(this, { begin, end }) }

    has(time) { return (this.begin === null || time >= this.begin) && (this.end === null || time <= this.end) }
    hasAll([first, last]) { return this.has(first) && this.has(last) }

    /* Whether some second of both is the same. */
    touches([first, last]) { return (this.begin === null || last >= this.begin) && (this.end === null || first <= this.end) }

    /* Whether some time of both is the same, and not a second alone with which the one ends and the other begins. */
    overlaps([first, last]) { return this.hasAll([first, last]) || ((this.begin === null || last > this.begin) && (this.end === null || first < this.end)) }
}

/* What a lap or a session that is cut keeps of its own: its number, and why it ended. */
function ownOf(message, usual) {
    const told = ["message_index", "sport", "sub_sport", ...Object.keys(usual)].map(name => [name, message.get(name) ?? null])
    return { ...usual, ...Object.fromEntries(told.filter(([, value]) => value !== null)) }
}

/* What stays of a file. Its records are taken in first, and then each of its messages is asked for. */
class Part {
    #span
    #outline
    #all = new Summary()
    #overlap = new Map() // whether a lap, and a session, has more in the span than the second with which it ends or begins
    #cut = new Map() // of the laps and sessions that are cut, the part of each
    #recordTime = null
    #time = null
    #hasRecord = false // whether a record stays
    #isLater = false // whether one before it was left out
    #odometer = null
    #sportsAsked = 0
    #wholes = null // of laps and sessions that stay as they are the numbers
    #sports = null // of each sport whether a session stays
    #sessionsEnd = null // what the sessions that stay come to

    constructor(span, outline) {
        this.#span = span
        this.#outline = outline
        for (const number of [LAP, SESSION]) {
            this.#overlap.set(number, some(outline.of(number).spans(), of => span.overlaps(of)))
            for (const of of outline.of(number).spans()) if (this.#isIn(number, of) && !span.hasAll(of)) this.#cuts(of)
        }
    }

    #cuts(span) {
        const inner = this.#inner(span)
        if (this.#cut.has(`${inner}`)) return
        if (this.#cut.size === MOST) throw new RangeError(`over ${MOST} laps and sessions begin before the span, or end after it`)
        this.#cut.set(`${inner}`, { inner, summary: new Summary() })
    }

    /* Whether a lap or a session has a part in the span: the second with which it begins or ends, if that is all that there is of any. */
    #isIn(number, span) { return this.#overlap.get(number) ? this.#span.overlaps(span) : this.#span.touches(span) }

    /* What of a lap or a session is in the span; null where it ends, or begins, outside. */
    #inner(span) { return span.map(time => (this.#span.has(time) ? time : null)) }

    /* Takes in a record. */
    take(record) {
        const time = this.#recordTime = record.seconds ?? this.#recordTime
        if (time === null || !this.#span.has(time)) return
        this.#all.take(record)
        for (const { inner: [first, last], summary } of this.#cut.values())
            if ((first === null || time >= first) && (last === null || time <= last)) summary.take(record)
    }

    get isEmpty() { return this.#all.start === null }

    // ---- what stays

    /* What stands where a message was: itself, one that is made anew, or null. */
    kept(message) {
        const { number } = message
        if (STAYS.includes(number)) return message
        this.#time = message.seconds ?? this.#time
        if (number === SPORT) return this.#hasSport(this.#sportsAsked++, message) ? message : null
        if (number === ACTIVITY) return this.#activity(message)
        if (number === LAP || number === SESSION) {
            const span = spanOf(message)
            if (span !== null) return this.#span.hasAll(span) ? message : number === LAP ? this.#lap(message, span) : this.#session(message, span)
        }
        if (number === ZONES && !this.#isOfWhole(message)) return null
        if (this.#time === null || this.#stays(message, this.#time)) return number === RECORD ? this.#ofRecord(message) : message
        this.#isLater ||= number === RECORD && !this.#hasRecord
        return null
    }

    /* Whether a message stays that has this time; one that sums up a time of its own, where all of that does. */
    #stays(message, time) {
        if (!this.#span.has(time)) return false
        const start = message.get("start_time")
        return !Number.isInteger(start) || this.#span.has(start)
    }

    /* A record that stays. Where some before the first one don't, distances begin at 0 again. */
    #ofRecord(record) {
        this.#hasRecord = true
        if (this.#isLater) this.#odometer ??= new Odometer()
        return this.#odometer?.moved(record) ?? record
    }

    /* Whether the lap or the session that a message is of stays as it is. */
    #isOfWhole(message) {
        this.#wholes ??= new Map([LAP, SESSION].map(number => [number, this.#wholesOf(this.#outline.of(number))]))
        return this.#wholes.get(message.get(0))?.has(message.get(1) ?? null) ?? false
    }

    #wholesOf(told) {
        const numbers = new Set()
        for (let row = 0; row < told.length; row++) if (this.#span.hasAll(told.span(row))) numbers.add(told.index(row) ?? null)
        return numbers
    }

    // ---- what is made anew

    /* What a lap or a session that is cut comes to in the span, and the first and the last second of that; null where nothing of it is there. */
    #summary(number, span) {
        const inner = this.#inner(span), summary = this.#isIn(number, span) ? this.#cut.get(`${inner}`)?.summary : undefined
        return summary === undefined || summary.start === null ? null : { summary, start: inner[0] ?? summary.start, end: inner[1] ?? summary.end }
    }

    #lap(lap, span) {
        const told = this.#summary(LAP, span)
        if (told === null) return null
        const { summary, start, end } = told, values = summary.lap(start, end, this.#outline.timer.ran(start, end))
        return new Anew("lap", { ...values, ...ownOf(lap, LAP_ENDS), ...this.#calories(lap, span) })
    }

    /* What a session comes to: its timer is that of its laps, where it has some, and of what comes after them. */
    #session(session, span) {
        const told = this.#summary(SESSION, span)
        if (told === null) return null
        const { summary, start, end } = told, { count, first, ran } = this.#lapsOf(span, start, end)
        const counts = count > 0 ? { first_lap_index: first, num_laps: count } : {}
        const values = { ...summary.told(start, end, ran), ...ownOf(session, SESSION_ENDS), ...sportOf(session), ...counts }
        return new Anew("session", { ...values, ...this.#calories(session, span) })
    }

    /* How many laps of a session stay, the number of the first, and how long the timer ran in them, and after them up to an end. */
    #lapsOf([begin, over], start, end) {
        const { timer } = this.#outline, found = this.#laps(first => begin <= first && first < Math.max(over, begin + 1), end)
        return { ...found, ran: found.ran + timer.ran(found.count > 0 ? Math.max(start, found.end) : start, end) }
    }

    /* Of some laps: how many stay, the number of the first one, how long the timer ran in them; and where the last of all of them ends up to an end. */
    #laps(isOne, until = Infinity) {
        const { laps } = this.#outline, found = { count: 0, first: 0, ran: 0, end: -Infinity }
        for (let row = 0; row < laps.length; row++) {
            const [first, last] = laps.span(row)
            if (!isOne(first)) continue
            if (first <= until) found.end = Math.max(found.end, Math.min(last, until))
            const ran = this.#lapRan(row)
            if (ran === null) continue
            if (found.count++ === 0) found.first = indexOf(laps.index(row))
            found.ran += ran
        }
        return found
    }

    /* How long the timer ran in what stays of a lap; null where nothing does. */
    #lapRan(row) {
        const span = this.#outline.laps.span(row)
        if (this.#span.hasAll(span)) return this.#outline.lapRan(row)
        const told = this.#summary(LAP, span)
        return told === null ? null : this.#outline.timer.ran(told.start, told.end)
    }

    /* The calories of a lap or a session that is cut: as many as its part of the time in which the timer ran, so that those of all parts are those
     * of the whole. */
    #calories(message, [first, last]) {
        const calories = message.get(CALORIES), { timer } = this.#outline, whole = timer.ran(first, last)
        if (!Number.isInteger(calories)) return {}
        const upTo = time => {
            const ran = timer.ran(first, Math.min(Math.max(time, first), last))
            return whole ? Math.floor(calories * ran / whole) : time >= last ? calories : 0
        }
        const { begin, end } = this.#span
        // The second with which it begins, or ends, is mostly no part of it.
        const before = begin === null || begin <= first + 1 ? 0 : upTo(begin)
        const after = end === null || end >= last ? calories : end > first ? upTo(end + 1) : 0
        return { [CALORIES]: after - before }
    }

    /* Whether a session stays that has this sport: the one with its number, where there is one for each. */
    #hasSport(number, message) {
        const { sessions, sports } = this.#outline, label = sport => JSON.stringify(sport)
        if (sessions.length === sports) return this.#isIn(SESSION, sessions.span(number))
        if (this.#sports === null) {
            this.#sports = new Map()
            for (let row = 0; row < sessions.length; row++) {
                const sport = label(sessions.sport(row))
                this.#sports.set(sport, this.#sports.get(sport) || this.#isIn(SESSION, sessions.span(row)))
            }
        }
        return this.#sports.get(label(sportOf(message))) ?? true
    }

    /* The activity message: none without a session; itself where all of them stay as they are. */
    #activity(message) {
        if (this.#outline.sessions.length === 0) return null
        const { areAll, count, ran, end } = this.#sessionsEnd ??= this.#sessions()
        return areAll ? message : activityOf(count > 0 ? end : this.#all.end, { count, ran }, this.#outline.zone, activityIn(message))
    }

    /* How many sessions stay, whether all do as they are, where the last one ends, and how long the timer ran in them. */
    #sessions() {
        const { sessions, timer } = this.#outline, found = { areAll: true, count: 0, end: -Infinity, ran: 0 }
        for (let row = 0; row < sessions.length; row++) {
            const span = sessions.span(row), isWhole = this.#span.hasAll(span), told = isWhole ? null : this.#summary(SESSION, span)
            found.areAll &&= isWhole
            if (!isWhole && told === null) continue
            found.count++
            found.end = Math.max(found.end, told?.end ?? span[1])
            found.ran += isWhole ? sessions.timer(row) ?? timer.ran(...span) : this.#lapsOf(span, told.start, told.end).ran
        }
        return found
    }

    /* What a file gets at its end that has records in the span, and no session: a lap, where it has none, a session and an activity. */
    rest() {
        const all = this.#all, told = this.#outline
        if (all.start === null || told.sessions.length > 0) return []
        const { start, end } = all, laps = this.#laps(() => true), ran = laps.count > 0 ? laps.ran : told.timer.ran(start, end)
        const first = laps.count > 0 ? [] : [new Anew("lap", { message_index: 0, ...all.lap(start, end, ran), ...LAP_ENDS })]
        const counts = { first_lap_index: laps.first, num_laps: Math.max(laps.count, 1) }
        const session = { message_index: 0, ...all.told(start, end, ran), ...told.sport, ...counts, ...SESSION_ENDS }
        return [...first, new Anew("session", session), activityOf(end, { count: 1, ran }, told.zone, told.activity)]
    }
}

/* Whether that is so of some items. */
function some(items, isSo) {
    for (const item of items) if (isSo(item)) return true
    return false
}

/* The number of a lap; 0 where it has no such field. */
const indexOf = index => (index === undefined ? 0 : index)

/* What stays of files. */
export class Cut {
    #span
    #parts = new Map()

    /* `changed` is what records say when they are summed up. */
    constructor(files, span, changed) {
        this.#span = span
        for (const [file, outline] of outlines(files)) this.#parts.set(file, new Part(span, outline))
        for (const record of files.messages(RECORD)) this.of(record.file).take(changed(record))
    }

    /* The part of a file, by its number. */
    of(file) {
        if (!this.#parts.has(file)) this.#parts.set(file, new Part(this.#span, new Outline()))
        return this.#parts.get(file)
    }

    /* What a file gets at its end. */
    rest(file) { return this.#parts.get(file)?.rest() ?? [] }

    get isEmpty() { return [...this.#parts.values()].every(part => part.isEmpty) }
}
