/* What an activity lacks that was broken off: laps, a session, the activity message. */
import { judge } from "./answers.mjs"
import { Copier } from "./copying.mjs"
import { Files } from "./events.mjs"
import { EXTRA } from "./names.mjs"
import { FILE_END } from "./numbers.mjs"
import { filesOf } from "./sources.mjs"
import { Anew, Outline, RECORD, Ride, SESSION_ENDS, activityOf, outlines } from "./summaries.mjs"

/* The messages that a file lacks: none where it has a session, or no record with a time. */
function lacking(ride) {
    const { told, all: { start, end } } = ride, { laps } = told
    if (start === null || told.sessions.length > 0) return []
    const last = ride.lastLap(laps.length), made = last === null ? [] : [last]
    // Laps that go on after the last record are those of a file that has more, and was broken off.
    const ran = laps.last > end ? told.timer.ran(start, end) : made.reduce((sum, { values }) => sum + values.total_timer_time, told.lapsRan)
    const counts = { first_lap_index: 0, num_laps: laps.length + made.length }
    made.push(new Anew("session", { message_index: 0, ...ride.all.told(start, end, ran), ...told.sport, ...counts, ...SESSION_ENDS }))
    return told.activity !== null ? made : [...made, activityOf(end, { count: 1, ran }, told.zone)]
}

/* Writes files with what they lack. */
function complete(files, out) {
    const told = outlines(files), rides = new Map()
    for (const record of files.messages(RECORD)) {
        if (!rides.has(record.file)) rides.set(record.file, new Ride(told.get(record.file) ?? new Outline()))
        rides.get(record.file).take(record)
    }
    for (const event of files.events()) {
        if (event.kind === FILE_END) for (const anew of rides.has(event.file) ? lacking(rides.get(event.file)) : []) anew.write(out)
        out.take(event)
    }
}

/* The files of a chain, each with the lap, the session and the activity message that it lacks. */
export function completed(gazhdor, bytes) {
    const out = new Copier(gazhdor)
    try {
        judge(gazhdor.check(bytes))
        for (const some of filesOf(bytes)) complete(new Files(gazhdor, some, EXTRA), out)
        return out.finish()
    } finally {
        out.close()
    }
}
