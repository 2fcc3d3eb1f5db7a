/* The track of a ride as GPX 1.1, a text that maps and other programs read. */
import { FitError } from "./answers.mjs"
import { VERSION } from "./core.mjs"
import { pieces } from "./sources.mjs"
import { Stream } from "./streams.mjs"

const HEAD = `<?xml version="1.0" encoding="UTF-8"?>
<gpx version="1.1" creator="gazhdor ${VERSION}" xmlns="http://www.topografix.com/GPX/1/1" \
xmlns:gpxtpx="http://www.garmin.com/xmlschemas/TrackPointExtension/v1" \
xmlns:pwr="http://www.garmin.com/xmlschemas/PowerExtension/v1">
`
const BEGIN = "<trk><trkseg>\n", NEXT = "</trkseg><trkseg>\n", END = "</trkseg></trk>\n", FOOT = "</gpx>\n"
const RECORD = 20, EVENT = 21
/* The event of the timer, and its types. */
const TIMER = 0, START = 0, STOPS = [1, 4, 8, 9]
const DECIMAL = /^-?\d+(\.\d+)?$/, TIME = /^\d{4}-\d\d-\d\dT\d\d:\d\d:\d\dZ$/

/* The cell, where it is a number that may be there. */
const within = (cell, least, most) => (DECIMAL.test(cell) && Number(cell) >= least && Number(cell) <= most ? cell : null)
const element = (name, text) => (text === null ? "" : `<${name}>${text}</${name}>`)

/* The point of a row of the table; an empty text where it has no place on the earth. */
function point(cells) {
    const lat = within(cells[2], -90, 90), long = within(cells[3], -180, 180)
    if (lat === null || long === null) return ""
    const more = element("gpxtpx:atemp", within(cells[10], -273.15, 1e6)) + element("gpxtpx:hr", within(cells[7], 1, 255)) +
        element("gpxtpx:cad", within(cells[8], 0, 254))
    const all = (more && `<gpxtpx:TrackPointExtension>${more}</gpxtpx:TrackPointExtension>`) + element("pwr:PowerInWatts", within(cells[9], 0, 65534))
    const time = element("time", TIME.test(cells[1]) ? cells[1] : null), extensions = all && `<extensions>${all}</extensions>`
    return `<trkpt lat="${lat}" lon="${long}">${element("ele", within(cells[4], -1e6, 1e6))}${time}${extensions}</trkpt>\n`
}

/* Whether the timer of a ride was stopped, and has begun again. */
class Timer {
    #isStopped = false
    #begins = false

    take(event) {
        if (event.get(0) !== TIMER) return
        if (event.get(1) === START) {
            this.#begins ||= this.#isStopped
            this.#isStopped = false
        } else if (STOPS.includes(event.get(1))) this.#isStopped = true
    }

    /* Whether it has begun again since this was asked before. */
    hasBegun() {
        const begins = this.#begins
        this.#begins = false
        return begins
    }
}

/* What a stream makes of a piece, or in the end, and what is wrong there. */
function madeOf(stream, piece) {
    try {
        return [piece === null ? stream.finish() : stream.feed(piece), null]
    } catch (fault) {
        if (!(fault instanceof FitError)) throw fault
        return [fault.before, fault]
    }
}

/* The text, part by part, of bytes that come in pieces: a track for each file, a segment for each stretch from a start of the timer to a stop. Of
 * the records only those from one number to another are in it, counted from 0. */
export class Track {
    #table
    #messages
    #from
    #to
    #isHead = true
    #file = 0
    #track = 0
    #timer = new Timer()
    #isEmpty = true
    #count = 0
    #begin = HEAD

    constructor(gazhdor, { from = 0, to = Infinity } = {}) {
        this.#table = new Stream(gazhdor, "table")
        this.#messages = new Stream(gazhdor, "messages", { only: [RECORD, EVENT] })
        this.#from = from
        this.#to = to
    }

    /* Takes the next bytes, and returns the text that they complete. A fault is thrown with all that comes before it and the end of the text, as
     * `before`. */
    feed(piece) { return this.#taken(piece, false) }
    finish() { return this.#taken(null, true) }

    close() {
        this.#table.close()
        this.#messages.close()
    }

    get #end() { return (this.#track === 0 ? "" : END) + FOOT }

    #taken(piece, isEnd) {
        const [text, fault] = madeOf(this.#table, piece), parts = [this.#begin], rows = text.split("\n")
        let k = this.#isHead && text !== "" ? 1 : 0
        this.#isHead &&= text === ""
        this.#begin = ""
        for (const message of madeOf(this.#messages, piece)[0]) parts.push(this.#told(message, message.number === RECORD ? rows[k++].split(",") : null))
        if (fault === null) return parts.join("") + (isEnd ? this.#end : "")
        fault.before = parts.join("") + this.#end
        throw fault
    }

    /* What an event of the timer, or a record with its row of the table, adds. */
    #told(message, cells) {
        if (message.file !== this.#file) [this.#file, this.#timer] = [message.file, new Timer()]
        if (cells === null) this.#timer.take(message)
        if (cells === null || this.#count++ < this.#from || this.#count > this.#to + 1) return ""
        let front = ""
        if (this.#file !== this.#track) {
            front = (this.#track === 0 ? "" : END) + BEGIN
            this.#track = this.#file
            this.#isEmpty = true
        }
        const made = point(cells)
        if (made !== "" && this.#timer.hasBegun() && !this.#isEmpty) front += NEXT
        this.#isEmpty &&= made === ""
        return front + made
    }
}

/* The text of all bytes. A fault is thrown where `partial` doesn't say that what comes before it is enough. */
export function gpxOf(gazhdor, bytes, { partial = false, from, to } = {}) {
    const track = new Track(gazhdor, { from, to }), parts = []
    try {
        for (const piece of pieces(bytes)) parts.push(track.feed(piece))
        parts.push(track.finish())
    } catch (fault) {
        if (!partial || !(fault instanceof FitError)) throw fault
        parts.push(fault.before)
    } finally {
        track.close()
    }
    return parts.join("")
}
