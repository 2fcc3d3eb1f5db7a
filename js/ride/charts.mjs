/* The charts and the track of a ride, and what is marked on them. */
import { Chart } from "./chart.mjs"
import { toldOf } from "./cards.mjs"
import { momentsOf } from "./cutting.mjs"
import { byId, card, choice, element } from "./element.mjs"
import { follow } from "./pointing.mjs"
import { elapsed } from "./scales.mjs"
import { keep, settings } from "./settings.mjs"
import { mannerOf, soleSport } from "./sports.mjs"
import { pointTotals } from "./totals.mjs"
import { Track } from "./track.mjs"
import { ownQuantity } from "./units.mjs"

const COLOURS = ["speed", "heart_rate", "altitude", "power"]

/* What charts there are of a ride: of its own columns, and of each developer field. */
function chartsOf(ride, units, other, by) {
    const manner = mannerOf(soleSport(ride)), beside = other && besideOf(other.points, by)
    const told = [
        ["altitude", "Altitude", units.height, true], ["speed", units[manner.speed].isPace ? "Pace" : "Speed", units[manner.speed]],
        ["heart_rate", "Heart rate", units.heart], ["power", "Power", units.power], ["cadence", "Cadence", units[manner.cadence]],
        ["temperature", "Temperature", units.temperature],
    ].filter(([name]) => ride.points[name] !== undefined).map(([name, title, quantity, filled = false]) => {
        const drawn = column => column.map(value => quantity.drawn(value)), same = beside && other.points[name]
        return { key: name, colour: name, title, quantity, filled, column: drawn(ride.points[name]), beside: same && { ...beside, column: drawn(same) } }
    })
    const own = ride.points.own.map(({ name, unit, column }, k) =>
        ({ key: `own${k}`, colour: `own${k % 3}`, title: name, quantity: ownQuantity(unit, column), filled: false, column }))
    return [...told, ...own]
}

/* Where the points of a ride beside it stand along the charts; undefined where it has no such measure. */
function besideOf(points, by) {
    const seconds = elapsed(points), xs = by === "distance" ? points.distance : points.time && seconds
    return xs && { seconds, xs }
}

/* The numbers of the marked part, and what can be done with it. */
function marked(view, units, sport, save) {
    const place = element("section", undefined, { id: "marked", hidden: true })
    place.setAttribute("aria-live", "polite")
    const button = (text, onclick) => element("button", text, { type: "button", onclick })
    const buttons = element("p", undefined, {}, button("Zoom in", () => view.zoom(view.span)), button("Clear", () => view.mark(null)))
    if (view.points.latitude !== undefined) buttons.append(button("Save as GPX", event => save(event.target, "gpx", view.span)))
    if (view.hasTime) buttons.append(button("Save as FIT file", event => save(event.target, "cut", momentsOf(view.points, view.span))))
    view.on("span", span => {
        place.hidden = span === null
        if (span === null) return
        const all = pointTotals(view.points, span.from, span.to), told = toldOf(all, span.row?.sport ?? sport, units)
        if (all.low !== null) told.push([`${units.height.number(all.low)} to ${units.height.text(all.high)}`, "altitude"])
        if (all.most_power !== null) told.push([units.power.text(all.most_power), "most power"])
        const cards = element("div", undefined, { className: "cards" }, ...told.map(([value, name]) => card(value, name)))
        place.replaceChildren(element("h2", span.title), cards, buttons)
    })
    return place
}

/* By what colours the track has. */
function colourChoice(charts, recolour) {
    const select = element("select", undefined, { onchange: () => recolour(select.value) })
    select.append(element("option", "one colour", { value: "" }))
    for (const name of COLOURS) {
        const chart = charts.find(({ key }) => key === name)
        if (chart !== undefined) select.append(element("option", `by ${chart.title.toLowerCase()}`, { value: name }))
    }
    select.value = charts.some(({ key }) => key === settings.colour) ? settings.colour : ""
    select.setAttribute("aria-label", "Colour of the track")
    return select
}

export class Drawn {
    constructor(ride, other, { view, units, save, again }) {
        Object.assign(this, { view, units })
        view.measure(settings.by)
        const { points } = ride, isTracked = points.latitude !== undefined && points.longitude !== undefined
        this.charts = chartsOf(ride, units, other, view.by).map(told => new Chart(told, view, units))
        const isOtherTracked = other?.points.latitude !== undefined && other.points.longitude !== undefined
        this.track = isTracked ? new Track(view, settings.units === "miles", isOtherTracked ? other.points : undefined) : null
        this.marked = marked(view, units, soleSport(ride), save)
        this.#lay(again)
        for (const chart of this.charts) follow(chart.svg, view, () => chart.frameNow)
        view.on("here", k => { for (const one of this.#all()) one.show(k) })
        view.on("span", span => { for (const one of this.#all()) one.light(span) })
        view.on("window", () => this.draw())
    }

    #all() { return this.track === null ? this.charts : [...this.charts, this.track] }

    /* Puts them on the page. */
    #lay(again) {
        const column = element("div", undefined, { className: "charts" }, ...this.charts.map(({ place }) => place))
        const aside = element("div", undefined, { className: "aside" })
        if (this.track !== null) {
            this.colour = colourChoice(this.charts, name => { keep("colour", name); this.draw() })
            this.track.head.append(this.colour)
            aside.append(this.track.place)
        }
        aside.append(this.marked)
        byId("drawn").replaceChildren(...(this.charts.length > 0 ? [this.#tools(again)] : []), column, aside)
        byId("drawn").classList.toggle("tracked", this.track !== null && this.charts.length > 0)
    }

    /* What stands above the charts. */
    #tools(again) {
        const { view } = this, tools = element("div", undefined, { className: "tools" })
        if (view.hasDistance && view.hasTime) tools.append(choice("Charts by", [["", "time"], ["distance", "distance"]], settings.by, by => again("by", by)))
        tools.append(choice("Units", [["", "km, m"], ["miles", "mi, ft"]], settings.units, units => again("units", units)))
        this.out = element("button", "Whole ride", { type: "button", hidden: true, onclick: () => view.zoom(view.whole) })
        const finger = element("button", "Mark with a finger", { type: "button", className: "finger", onclick: () => {
            view.isMarking = !view.isMarking
            finger.setAttribute("aria-pressed", view.isMarking)
            byId("drawn").classList.toggle("marking", view.isMarking)
        } })
        finger.setAttribute("aria-pressed", false)
        const hint = "Drag along a chart to mark a part, double-click to zoom. Keys: arrows, Shift with arrows, Enter, Esc."
        tools.append(this.out, finger, element("p", hint, { className: "quiet hint" }))
        return tools
    }

    draw() {
        const frame = this.charts[0]?.frame()
        this.charts.forEach((chart, k) => chart.draw(frame, k === this.charts.length - 1))
        this.track?.draw(this.charts.find(({ key }) => key === this.colour?.value))
        if (this.out !== undefined) this.out.hidden = !this.view.isZoomed
    }
}
