/* Shows the power curve, and the zones by the user's own numbers. */
import { drawing, element } from "./element.mjs"
import { GUTTER } from "./chart.mjs"
import { boundsOf, powerCurve, secondsOf, zoneTimes } from "./efforts.mjs"
import { shownRange } from "./scales.mjs"
import { duration } from "./units.mjs"

const TOLD = [5, 60, 300, 1200, 3600]
const timeText = time => (time < 60 ? `${time} s` : time < 3600 ? `${time / 60} min` : `${time / 3600} h`)

/* The power curve, with time as its logarithm. */
export class Curve {
    constructor(seconds, power, units) {
        // A spike counts as what the chart shows at most.
        const { high } = shownRange(power, 0, power.length - 1), rest = power.reduce((sum, one) => sum + (one > high), 0)
        this.points = powerCurve(seconds, power.map(one => Math.min(one, high)))
        this.units = units
        this.svg = drawing("svg", { role: "img" })
        const told = this.points.filter(([time]) => TOLD.includes(time)).map(([time, watts]) => `${timeText(time)} ${units.power.text(watts)}`).join(" · ") +
            (rest > 0 ? `; ${rest} ${rest === 1 ? "point" : "points"} over ${units.power.text(high)} ${rest === 1 ? "counts" : "count"} as that` : "")
        this.svg.setAttribute("aria-label", `Power curve: ${told}`)
        const head = element("h2", undefined, {}, element("span", "Power curve"), element("output", told))
        this.place = element("div", undefined, { className: "plot", id: "curve" }, head, this.svg)
        this.place.style.setProperty("--of", "var(--power)")
    }

    draw() {
        const { svg, points } = this, width = svg.clientWidth, height = svg.clientHeight, last = points[points.length - 1][0], high = points[0][1] || 1
        const x = time => GUTTER + 4 + Math.log(time) / (Math.log(last) || 1) * (width - GUTTER - 24)
        const y = watts => height - 18 - watts / high * (height - 28)
        const lines = this.units.power.lines(0, high).flatMap(([at, text]) => [
            drawing("line", { class: "grid", x1: GUTTER, x2: width - 6, y1: y(at), y2: y(at) }),
            drawing("text", { x: GUTTER - 5, y: y(at) + 4, "text-anchor": "end" }, text)])
        const feet = [1, 5, 15, 60, 300, 1200, 3600, 10800].filter(time => time <= last).flatMap(time => [
            drawing("line", { class: "grid", x1: x(time), x2: x(time), y1: 0, y2: height - 18 }),
            drawing("text", { x: x(time), y: height - 4, "text-anchor": "middle" }, timeText(time))])
        svg.setAttribute("viewBox", `0 0 ${width} ${height}`)
        const knots = points.map(([time, watts]) => [x(time).toFixed(1), y(watts).toFixed(1)])
        svg.replaceChildren(...lines, ...feet, drawing("path", { class: "drawn", d: `M${knots.map(knot => knot.join(" ")).join("L")}` }),
            ...knots.map(([cx, cy]) => drawing("circle", { class: "knot", cx, cy, r: 2 })))
    }
}

const KINDS = {
    power: { column: "power", title: "Power zones", label: "Threshold power, or bounds, in W", unit: "W" },
    heart: { column: "heart_rate", title: "Heart rate zones", label: "Maximum heart rate, or bounds, in bpm", unit: "bpm" },
}

/* A bar for each zone, as a table. */
function barsOf(times, bounds, unit) {
    const all = times.reduce((sum, one) => sum + one, 0) || 1, body = element("tbody")
    times.forEach((time, k) => {
        const name = k === 0 ? `below ${bounds[0]}` : k === bounds.length ? `from ${bounds[k - 1]}` : `${bounds[k - 1]} to ${bounds[k] - 1}`
        const bar = element("meter", undefined, { min: 0, max: 1, value: time / all })
        bar.setAttribute("aria-hidden", "true")
        const cells = [element("td", `${name} ${unit}`), element("td", undefined, {}, bar), element("td", duration(time))]
        body.append(element("tr", undefined, {}, element("th", `${k + 1}`, { scope: "row" }), ...cells, element("td", `${Math.round(100 * time / all)} %`)))
    })
    return element("table", undefined, {}, body)
}

/* The zones of power or of heart rate, with a place for the user's numbers, of which `keep` is told. */
export function zonesOf(kind, points, seconds, text, keep) {
    const { column, title, label, unit } = KINDS[kind], weights = secondsOf(seconds), shown = element("div", undefined, { className: "bars" })
    const input = element("input", undefined, { value: text, autocomplete: "off", size: 14, maxLength: 80, id: `zones-${kind}` })
    const show = () => {
        const bounds = boundsOf(input.value, kind)
        const isWrong = bounds === null && input.value.trim() !== ""
        input.setAttribute("aria-invalid", isWrong)
        const hint = isWrong ? "One number, or several that rise, as 120 150 180." : "Write one number, and the zones are the usual shares of it."
        shown.replaceChildren(bounds === null ? element("p", hint, { className: "quiet" }) : barsOf(zoneTimes(points[column], weights, bounds), bounds, unit))
        keep(bounds === null ? "" : input.value.trim())
    }
    input.oninput = show
    show()
    const named = element("label", label, { htmlFor: input.id, className: "quiet" })
    return element("div", undefined, { className: "plot zones" }, element("h2", title), named, input, shown)
}
