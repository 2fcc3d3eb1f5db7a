/* Two rides beside each other, as a table; the charts and the track have the second as a line of its own. */
import { element } from "./element.mjs"
import { mannerOf, soleSport, soleWord } from "./sports.mjs"
import { rideTotals } from "./totals.mjs"
import { duration } from "./units.mjs"

const ROWS = [
    ["Start", "start"], ["Distance", "distance", "distance"], ["Time", "time"], ["Speed", "speed"], ["Ascent", "ascent", "height"],
    ["Heart rate", "heart_rate", "heart"], ["Max. heart rate", "most_heart_rate", "heart"], ["Power", "power", "power"], ["Cadence", "cadence"],
    ["Energy", "calories", "energy"],
]

function textOf(ride, all, name, quantity, units) {
    const value = all[name]
    if (value === null || value === undefined || !Number.isFinite(value)) return ""
    if (name === "start") return new Date(value).toLocaleString()
    if (name === "time") return duration(value)
    return units[quantity ?? mannerOf(soleSport(ride))[name]].text(value)
}

/* The table of two rides with their names; `away` puts the second away. */
export function besideTable(rides, names, units, away) {
    const all = rides.map(rideTotals), table = element("table"), head = table.createTHead().insertRow(), body = table.createTBody()
    head.append(element("td"), ...names.map((name, k) => element("th", name, { scope: "col", className: k === 1 ? "second" : "" })))
    const words = rides.map(soleWord)
    const rows = [["Sport", words], ...ROWS.map(([title, name, quantity]) => [title, rides.map((ride, k) => textOf(ride, all[k], name, quantity, units))])]
    for (const [title, texts] of rows) {
        if (texts.every(text => text === "")) continue
        body.insertRow().append(element("th", title, { scope: "row" }), ...texts.map(text => element("td", text)))
    }
    return element("div", undefined, { className: "besides" }, element("h2", "Beside each other"), element("div", undefined, { className: "wide" }, table),
        element("p", undefined, {}, element("button", "Put it away", { type: "button", onclick: away })))
}
