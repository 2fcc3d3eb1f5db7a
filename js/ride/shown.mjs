/* What is shown of a ride, and of one beside it. */
import { besideTable } from "./beside.mjs"
import { summaryOf } from "./cards.mjs"
import { Drawn } from "./charts.mjs"
import { Curve, zonesOf } from "./effort_charts.mjs"
import { byId, element } from "./element.mjs"
import { save } from "./saving.mjs"
import { keep, settings } from "./settings.mjs"
import { soleSport } from "./sports.mjs"
import { tableOf } from "./tables.mjs"
import { rideTotals } from "./totals.mjs"
import { unitsOf } from "./units.mjs"
import { View } from "./view.mjs"

let shown = null // the ride, its name, what sees that the Worker has it, the ride beside it, and how it is looked at and drawn

function tables({ ride, view }, units, mark) {
    const begin = rideTotals(ride).start, sport = soleSport(ride), how = { units, sport, begin, mark }
    const all = [["Session", ride.sessions.length > 1 ? ride.sessions : []], ["Lap", ride.laps], ["Length", ride.lengths]]
    byId("tables").replaceChildren(...all.filter(([, rows]) => rows.length > 0).map(([word, rows]) => tableOf(word, rows, how)))
    const told = ride.counts.slice(0, 100).map(([message, count]) => `${count.toLocaleString("en")} ${message}`)
    byId("counts").replaceChildren(element("h2", "Messages"), element("p", told.join(" · "), { className: "quiet" }))
    view.on("span", span => {
        const row = span?.row ?? null
        for (const line of document.querySelectorAll("#tables tbody tr")) line.classList.toggle("lit", row !== null && line.row === row)
    })
}

function efforts({ ride: { points } }, units) {
    const { seconds } = shown.view, parts = [], curve = points.power === undefined || points.time === undefined ? null : new Curve(seconds, points.power, units)
    if (curve !== null && curve.points.length > 1) parts.push(curve.place)
    for (const [kind, column] of [["power", "power"], ["heart", "heart_rate"]])
        if (points[column] !== undefined && points.time !== undefined) parts.push(zonesOf(kind, points, seconds, settings[kind], text => keep(kind, text)))
    byId("efforts").replaceChildren(...parts)
    return curve !== null && curve.points.length > 1 ? [curve] : []
}

/* Marks the points of a session, a lap or a length, and shows them. */
function markRow(row, title) {
    const { view } = shown, end = row.total_elapsed_time >= 0 && row.start !== null ? row.start + 1000 * row.total_elapsed_time : row.end
    const found = view.between(row.start, row.end === null ? end : Math.min(end, row.end))
    if (found === null) return view.mark(null)
    view.mark(found.from, found.to, { title, row })
    byId("drawn").scrollIntoView({ block: "start", behavior: matchMedia("(prefers-reduced-motion: reduce)").matches ? "auto" : "smooth" })
}

/* Keeps what was chosen by a button, and shows the ride anew; the button that is pressed then is where the keys go. */
function again(setting, value) {
    const group = document.activeElement?.closest(".choice")?.getAttribute("aria-label")
    keep(setting, value)
    render()
    if (group) document.querySelector(`.choice[aria-label="${group}"] [aria-pressed=true]`)?.focus()
}

/* Shows the ride anew, as after other units were chosen; what is marked and zoomed stays. */
function render() {
    const units = unitsOf(settings.units === "miles"), { ride, name, other, view: old } = shown, view = shown.view = new View(ride)
    byId("summary").replaceChildren(...summaryOf(ride, units, markRow))
    const away = () => { shown.other = null; render() }
    const drawn = new Drawn(ride, other?.ride, { view, units, again, save: (button, call, part) => save(button, call, shown, part) })
    const curves = efforts(shown, units)
    tables(shown, units, markRow)
    byId("besides").replaceChildren(...(other ? [besideTable([ride, other.ride], [name, other.name], units, away)] : []))
    shown.draw = () => { if (byId("drawn").clientHeight > 0) for (const one of [drawn, ...curves]) one.draw() } // while it isn't hidden
    if (old) view.window = old.window
    shown.draw()
    if (old?.span) view.mark(old.span.from, old.span.to, old.span)
}

/* Shows a ride; `hold` sees that the Worker has it when something is to be saved. */
export function show(name, ride, hold) {
    shown = { name, ride, hold, other: null }
    const { points } = ride
    byId("shown").hidden = ride.counts.length === 0
    byId("saved").textContent = ""
    byId("mended").hidden = ride.finding.good
    byId("gpx").hidden = byId("placeless").hidden = points.latitude === undefined
    document.body.classList.add("loaded")
    const rows = points.length + ride.sessions.length + ride.laps.length
    for (const part of ["drawn", "efforts", "tables", "summary"]) byId(part).hidden = rows === 0
    render()
}

/* Shows a ride beside the one that is shown, where there is something in it. */
export function showBeside(name, ride) {
    if (ride.counts.length === 0) return
    shown.other = { name, ride }
    render()
}

/* Draws what is shown anew, as where the page has become wider. */
export const redraw = () => shown?.draw()

/* Saves what a call makes of the ride that is shown. */
export const saveShown = (button, call) => save(button, call, shown)
