/* What is so of the parts of an activity, or of any recording, that is cut at 20 places, and of these joined again: by the sums of what is read. */
import assert from "node:assert/strict"

import { EXTRA } from "../gazhdor.mjs"
import { random } from "./tools.mjs"

const PLACES = 20, LEFT_OUT = [253, 5, 19, 29] // what may be written anew of a record: its time, and what is accumulated
const LAP = 19, SESSION = 18, DESCRIPTION = 206
const STAYS = [0, DESCRIPTION, 207] // file_id, and what describes developer fields

const sumOf = (messages, name) => messages.reduce((sum, message) => sum + message.get(name), 0)
const near = (found, wanted, what) => assert.ok(Math.abs(found - wanted) < 1e-6, `${what}: ${found}, and not ${wanted}`)
const objects = messages => messages.map(message => message.toObject())

/* The messages of a file: all of them, and those of a name. */
class Read {
    #byName = new Map()

    constructor(gazhdor, bytes) {
        this.all = [...gazhdor.messages(bytes, { names: EXTRA })]
        for (const message of this.all) {
            if (!this.#byName.has(message.name)) this.#byName.set(message.name, [])
            this.#byName.get(message.name).push(message)
        }
        this.records = this.of("record")
    }

    of(name) { return this.#byName.get(name) ?? [] }
}

/* All that a record says but for its distance, and what is written of what was accumulated. */
function whole(record) {
    const fields = record.fields.filter(({ number, developer }) => developer !== null || !LEFT_OUT.includes(number))
    return [record.seconds, fields.map(({ number, developer, name, unit, baseType, raw }) => [number, developer, name, unit, baseType, raw])]
}

/* The cycles and watts that a record is told of all before it: by a field, or as a reader accumulates them. */
const counted = record => [record.get(19) ?? record.totalCycles, record.get(29) ?? record.accumulatedPower]

/* The seconds in which the timer ran up to a time, by the events. */
function ranUpTo(read, time) {
    let total = 0, since = null
    for (const event of read.of("event").filter(message => message.get("event") === 0 && message.seconds <= time)) {
        if (event.get("event_type") === 0) since ??= event.seconds
        else if (since !== null) [total, since] = [total + event.seconds - since, null]
    }
    return since === null ? total : total + time - since
}

/* The seconds at which a file is cut: at random times of its records, and where these are few, at all of them but the first, and at others from before
 * them to after them. */
function placesOf(records, below) {
    const times = [...new Set(timed(records).map(({ seconds }) => seconds))].sort((one, other) => one - other), left = times.slice(1), cuts = new Set()
    while (cuts.size < PLACES && left.length > 0) cuts.add(...left.splice(below(left.length), 1))
    const first = Math.max(times[0] - PLACES, 1), length = times.at(-1) + PLACES - first
    while (cuts.size < PLACES && times.length > 0) cuts.add(first + below(length))
    return [...cuts].sort((one, other) => one - other)
}

/* The parts of a file between these, with the first and the last second of each; those in which no record is are left out. */
function partsOf(gazhdor, bytes, records, below) {
    const cuts = placesOf(records, below)
    return [undefined, ...cuts].flatMap((begin, k) => {
        const end = k < cuts.length ? cuts[k] - 1 : undefined, made = partOf(gazhdor, bytes, { begin, end })
        return made === null ? [] : [{ begin, end, made, read: new Read(gazhdor, made) }]
    })
}

function partOf(gazhdor, bytes, span) {
    if (span.begin === undefined && span.end === undefined) return gazhdor.edit(bytes).bytes
    try {
        return gazhdor.edit(bytes, span).bytes
    } catch (error) {
        if (error instanceof RangeError && error.message === "no record has a time in that span") return null
        throw error
    }
}

/* That a part has nothing of outside but messages that stay in each. */
function seeInside({ begin = 0, end = Infinity, read }, stays = []) {
    for (const { seconds, number } of read.all) assert.ok(seconds === null || stays.includes(number) || (seconds >= begin && seconds <= end))
}

/* That a part says of itself what its records say, and has nothing of outside. */
function seePart({ begin, end, read }) {
    seeInside({ begin, end, read })
    const laps = read.of("lap"), sessions = read.of("session"), [told, ...more] = read.of("activity"), timer = sumOf(sessions, "total_timer_time")
    assert.deepEqual([more.length, told.get("num_sessions"), told.get("total_timer_time")], [0, sessions.length, timer])
    assert.equal(sumOf(laps, "total_timer_time"), timer)
    const counts = sessions.flatMap(message => Array.from({ length: message.get("num_laps") }, (_, k) => message.get("first_lap_index") + k))
    assert.deepEqual(laps.map(lap => lap.get("message_index")), counts)
    const sports = sessions.map(message => message.get("sport"))
    for (const sport of read.of("sport")) assert.ok(sports.includes(sport.get("sport")))
    for (const message of [...laps, ...sessions]) seeTold(read, message)
    if (begin !== undefined) assert.equal(read.records[0].distance, 0)
}

/* That a lap, or a session, says what the records in its time do. */
function seeTold({ records }, told) {
    const inside = records.filter(({ seconds }) => told.get("start_time") <= seconds && seconds <= told.seconds)
    near(told.get("total_distance"), inside.at(-1).distance - inside[0].distance, "the distance")
    assert.equal(told.get("total_elapsed_time"), told.seconds - told.get("start_time"))
    if (!told.has("max_heart_rate")) return
    const rates = inside.map(record => record.get("heart_rate")), mean = Math.floor(sumOf(inside, "heart_rate") / rates.length + 0.5)
    assert.deepEqual([told.get("max_heart_rate"), told.get("avg_heart_rate")], [Math.max(...rates), mean])
}

/* That records, beats and lengths of the parts together are those of the whole, and what counts on over all records. */
function seeMessages(data, both, parts) {
    assert.deepEqual(both.records.map(whole), data.records.map(whole))
    const accumulated = data.records.map(record => [record.totalCycles, record.accumulatedPower])
    assert.deepEqual(both.records.map(counted), accumulated)
    assert.deepEqual(parts.flatMap(({ read }) => read.records.map(counted)), accumulated)
    seeBeats(data, both)
    const begins = parts.map(({ begin }) => begin), strokes = lengths => lengths.map(message => message.get("total_strokes"))
    assert.deepEqual(strokes(both.of("length")), strokes(data.of("length").filter(({ seconds }) => !begins.includes(seconds))))
}

function seeBeats(data, both) {
    const beats = read => read.of("hrv").flatMap(message => message.values("time"))
    assert.deepEqual(beats(both), beats(data))
}

/* What lies between the parts: of each gap what the first record after it has more than the last one before it. */
function lostBetween({ records }, parts) {
    const gaps = parts.slice(1).map(({ begin }) => records.findIndex(({ seconds }) => seconds >= begin)).map(at => [records[at - 1], records[at]])
    return of => gaps.reduce((sum, [before, after]) => sum + of(after) - of(before), 0)
}

/* That what is joined names laps and lengths by the numbers that these have there, and no session that is gone. */
function seeNumbers(both) {
    const laps = both.of("lap"), lengths = both.of("length"), indexOf = message => message.get("message_index")
    assert.deepEqual(lengths.map(indexOf), [...lengths.keys()])
    for (const zone of both.of("time_in_zone"))
        assert.deepEqual([zone.get("reference_mesg"), zone.seconds], [LAP, laps[zone.get("reference_index")].seconds])
    for (const lap of laps) {
        const [first] = lengths.filter(({ seconds }) => lap.get("start_time") < seconds && seconds <= lap.seconds), told = lap.get("first_length_index") ?? null
        if (first !== undefined && told !== null) assert.equal(told, indexOf(first))
    }
}

/* That sums are those of the whole: what is lost lies between the last record of a part and the first of the next one. */
function seeSums(data, both, parts) {
    const { records } = data, laps = both.of("lap"), sessions = data.of("session"), [session, ...more] = both.of("session")
    const lost = lostBetween(data, parts)
    const distance = records.at(-1).distance - records[0].distance - lost(record => record.distance)
    near(session.get("total_distance"), distance, "the distance of all")
    const timer = sumOf(sessions, "total_timer_time") - lost(record => ranUpTo(data, record.seconds))
    assert.deepEqual([session.get("total_timer_time"), sumOf(laps, "total_timer_time"), more.length], [timer, timer, 0])
    if (sessions.every(message => message.get("total_elapsed_time") > 1))
        assert.equal(session.get("total_calories"), sumOf(sessions, "total_calories"))
    assert.deepEqual([session.get("num_laps"), ...laps.map(lap => lap.get("message_index"))], [laps.length, ...laps.keys()])
}

/* That whole laps, or sessions, stay as they are, with what tells more of them; that what is cut has its sport, and its share of the calories. */
function seeWholes(data, parts, name, number) {
    const told = new Map(data.of(name).map(message => [message.get("message_index"), message])), shares = new Map()
    for (const { begin = 0, end = Infinity, read } of parts) {
        const inside = [...told.values()].filter(message => message.get("start_time") >= begin && message.seconds <= end)
        const numbers = inside.map(message => message.get("message_index")), found = read.of(name)
        assert.deepEqual(objects(found.filter(message => numbers.includes(message.get("message_index")))), objects(inside))
        for (const zone of read.of("time_in_zone")) if (zone.get("reference_mesg") === number) assert.ok(numbers.includes(zone.get("reference_index")))
        for (const message of found) {
            const index = message.get("message_index")
            assert.equal(message.get("sport"), told.get(index).get("sport"))
            shares.set(index, (shares.get(index) ?? 0) + message.get("total_calories"))
        }
    }
    // Of one that has a second alone, each part may have but one end.
    for (const [index, share] of shares)
        if (told.get(index).get("total_elapsed_time") > 1) assert.equal(share, told.get(index).get("total_calories"))
}

const sorted = records => records.map(record => JSON.stringify(whole(record), (_, value) => (typeof value === "bigint" ? `${value}n` : value))).sort()
const timed = records => records.filter(({ seconds }) => seconds !== null)

/* The developer fields that messages have before their file describes them. */
function undescribed({ all }) {
    const found = new Set(), described = new Set()
    let current = null
    for (const message of all) {
        if (message.file !== current) described.clear()
        current = message.file
        if (message.number === DESCRIPTION) described.add(`${message.get("developer_data_index")} ${message.get("field_definition_number")}`)
        const own = message.fields.filter(({ developer }) => developer !== null).map(({ developer, number }) => `${developer} ${number}`)
        for (const label of own) if (!described.has(label)) found.add(label)
    }
    return found
}

const lapsRan = read => read.of("lap").reduce((sum, lap) => sum + (lap.get("total_timer_time") ?? lap.get("total_elapsed_time") ?? 0), 0)
const sessionsRan = read => sumOf(read.of("session"), "total_timer_time")

/* From the first distance that records tell to the last one; 0 where none is told. */
function metres(records) {
    const told = records.map(({ distance }) => distance).filter(distance => distance !== null)
    return told.length > 0 ? told.at(-1) - told[0] : 0
}

/* That the activity of a part of a recording says what its sessions say, and these and its laps what its records do. */
function seeRecorded(read) {
    const sessions = read.of("session"), [told, ...more] = read.of("activity")
    assert.deepEqual([more.length, told.get("num_sessions"), told.get("total_timer_time")], [0, sessions.length, sessionsRan(read)])
    for (const of of [...read.of("lap"), ...sessions]) {
        const begin = of.get("start_time"), end = of.seconds
        assert.equal(of.get("total_elapsed_time"), end - begin)
        const within = timed(read.records).filter(({ seconds }) => begin <= seconds && seconds <= end)
        near(of.get("total_distance") ?? 0, metres(within), "the distance")
        const rates = within.map(record => record.get("heart_rate") ?? null).filter(rate => rate !== null)
        const mean = Math.floor(rates.reduce((sum, rate) => sum + rate, 0) / rates.length + 0.5)
        if (rates.length > 0) assert.deepEqual([of.get("max_heart_rate"), of.get("avg_heart_rate")], [Math.max(...rates), mean])
    }
}

/* That the parts of a recording, joined, come to what the whole did, but for what lies between them. */
function seeRecordedSums(data, both, parts) {
    const { records } = data, laps = both.of("lap"), [session, ...more] = both.of("session"), lost = lostBetween(data, parts)
    const wholes = data.of("session").length > 0 ? data.of("session") : data.of("lap"), up = record => ranUpTo(data, record.seconds)
    // Where it has none of these, its records alone say how long it ran.
    const ran = wholes.length > 0 ? null : up(records.at(-1)) - up(records[0])
    const timer = wholes.reduce((sum, of) => sum + (of.get("total_timer_time") ?? of.get("total_elapsed_time")), ran ?? 0) - lost(up)
    assert.deepEqual([session.get("total_timer_time"), sumOf(laps, "total_timer_time"), more.length], [timer, timer, 0])
    assert.equal(laps.length, session.get("num_laps"))
    const calories = wholes.map(of => of.get("total_calories") ?? null)
    assert.deepEqual([session.get("total_calories") ?? null], calories.length > 0 ? calories : [null])
    const begins = [0, ...parts.slice(1).map(({ begin }) => records.findIndex(({ seconds }) => seconds >= begin))]
    const distance = begins.reduce((sum, begin, k) => sum + metres(records.slice(begin, begins[k + 1])), 0)
    assert.equal((session.get("total_distance") ?? null) === null, records.every(record => record.distance === null))
    near(session.get("total_distance") ?? 0, distance, "the distance of all")
}

/* Any recording: its parts, and the sums of these joined. Returns why they can't be joined, else null: a part has a developer field before its
 * description, which one before it has. */
export function seeRecording(gazhdor, bytes) {
    const data = new Read(gazhdor, bytes), parts = partsOf(gazhdor, bytes, data.records, random(bytes.length)), agrees = lapsRan(data) === sessionsRan(data)
    assert.deepEqual(sorted(timed(parts.flatMap(({ read }) => read.records))), sorted(timed(data.records)))
    for (const part of parts) {
        seeInside(part, STAYS)
        if (parts.length === 1) continue
        seeRecorded(part.read)
        assert.ok(!agrees || lapsRan(part.read) === sessionsRan(part.read)) // Some recordings end after their last lap.
    }
    const first = undescribed(parts[0].read), isRefused = parts.slice(1).some(({ read }) => [...undescribed(read)].some(label => first.has(label)))
    const joined = () => gazhdor.join(parts.map(({ made }) => made), { one: true })
    if (isRefused) return reasonOf(joined)
    const both = new Read(gazhdor, joined())
    assert.deepEqual(sorted(both.records), sorted(data.records))
    seeBeats(data, both)
    if (timed(data.records).length > 0) seeRecordedSums(data, both, parts)
    else assert.deepEqual([both.of("session"), both.of("activity")], [[], []])
    return null
}

/* Why a call is refused. */
function reasonOf(call) {
    try {
        call()
    } catch (error) {
        assert.ok(error instanceof RangeError, error.stack)
        return error.message
    }
    return assert.fail("it isn't refused")
}

/* The activity of a number. */
export function seeActivity(gazhdor, bytes, number) {
    const data = new Read(gazhdor, bytes), parts = partsOf(gazhdor, bytes, data.records, random(number))
    assert.equal(parts.length, PLACES + 1)
    const both = new Read(gazhdor, gazhdor.join(parts.map(({ made }) => made), { one: true }))
    for (const part of parts) seePart(part)
    seeMessages(data, both, parts)
    seeNumbers(both)
    seeSums(data, both, parts)
    seeWholes(data, parts, "lap", LAP)
    seeWholes(data, parts, "session", SESSION)
}
