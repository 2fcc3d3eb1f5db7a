/* The summary of a ride as cards: of several sessions some cards for each. */
import { card, element } from "./element.mjs"
import { isSwim, mannerOf, soleSport, soleWord, sportWord } from "./sports.mjs"
import { rideTotals, rowTotals } from "./totals.mjs"
import { duration } from "./units.mjs"

const DAY = { day: "numeric", month: "short", year: "numeric" }, HOUR = { hour: "2-digit", minute: "2-digit" }
const MOST_SESSIONS = 20

/* Values and what they are, as texts, of what a ride, a session or a part has together. */
export function toldOf(all, sport, units) {
    const { speed, cadence } = mannerOf(sport), told = []
    const add = (quantity, value, name) => { if (Number.isFinite(value)) told.push([units[quantity].text(value), name]) }
    if (all.distance !== null) add(isSwim(sport) ? "pool" : "distance", all.distance, "distance")
    if (all.time !== null) told.push([duration(all.time), "time"])
    add(speed, all.speed > 0 ? all.speed : null, units[speed].isPace ? "mean pace" : "mean speed")
    add("count", all.lengths, all.pool_length > 0 ? `lengths of ${units.pool.text(all.pool_length)}` : "lengths")
    if (isSwim(sport)) add("count", all.strokes, "strokes")
    add("height", all.ascent, "ascent")
    add("heart", all.heart_rate, all.most_heart_rate === null ? "mean heart rate" : `mean heart rate, at most ${units.heart.number(all.most_heart_rate)}`)
    add("power", all.power, all.normalized > 0 ? `mean power, normalized ${units.power.number(all.normalized)}` : "mean power")
    add(cadence, all.cadence, "mean cadence")
    add("energy", all.calories, "energy")
    return told.filter(([text]) => text !== "")
}

const cardsOf = told => element("div", undefined, { className: "cards" }, ...told.map(([value, name]) => card(value, name)))

/* When it began, and what it is. */
function beginOf({ start }, word) {
    if (start === null) return []
    const moment = new Date(start)
    return [[moment.toLocaleDateString(undefined, DAY), [word, moment.toLocaleTimeString(undefined, HOUR)].filter(text => text).join(", ")]]
}

/* The cards of a ride; `mark` marks the points of a session. */
export function summaryOf(ride, units, mark) {
    const all = rideTotals(ride), sole = soleSport(ride), sessions = ride.sessions.slice(0, MOST_SESSIONS)
    const word = sessions.length > 1 && sole === null ? "Several sports" : soleWord(ride)
    const parts = [cardsOf([...beginOf(all, word || "Start"), ...toldOf(all, sole, units)])]
    if (sessions.length > 1) sessions.forEach((row, k) => {
        const title = sportWord(row) || `Session ${k + 1}`
        const button = element("button", title, { type: "button", className: "plain", onclick: () => mark(row, title) })
        const told = toldOf(rowTotals(row), row.sport, units)
        parts.push(element("h2", undefined, {}, button), ...(told.length > 0 ? [cardsOf(told)] : []))
    })
    return parts
}
