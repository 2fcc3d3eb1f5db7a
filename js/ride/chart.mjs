/* One chart over the time or the distance of a ride, as SVG in pixels of the page. */
import { drawing, element } from "./element.mjs"
import { across, range, shownRange, thinned } from "./scales.mjs"
import { duration } from "./units.mjs"

export const GUTTER = 44 // Left of what is drawn stand the values of the lines.
const PAD = 8, RIGHT = 6, FOOT = 16
const STEPS = [1, 2, 5, 10, 15, 30, 60, 120, 300, 600, 900, 1800, 3600, 7200, 10800, 21600, 43200, 86400]

/* Where there are lines along a chart, and their texts. */
function alongs({ low, high, width }, view, units) {
    const { distance } = units
    if (view.by === "distance") return distance.lines(distance.drawn(low), distance.drawn(high), width / 90).map(([at, text]) => [at / distance.factor, text])
    if (!view.hasTime) return []
    const step = STEPS.find(one => (high - low) / one <= width / 90) ?? high - low, found = []
    for (let one = Math.ceil(low / step) * step; one <= high && step > 0 && found.length < 50; one += step)
        found.push([one, duration(one).replace(/:00$/, "")])
    return found.filter(([at]) => at > low)
}

/* Small arrows where something lies outside of what is shown. */
function arrows(parts, { low, high }, y) {
    let path = ""
    for (const { x, y: one } of parts.flat()) {
        if (one > high) path += `M${x.toFixed(1)} ${(y(high) - 6).toFixed(1)}l3.5 6h-7z`
        if (one < low) path += `M${x.toFixed(1)} ${(y(low) + 6).toFixed(1)}l3.5 -6h-7z`
    }
    return path
}

export class Chart {
    /* `told` has a key, a title, the quantity, the column of what is drawn, whether it is filled, and of a ride beside it the same column. */
    constructor(told, view, units) {
        Object.assign(this, told, { view, units })
        this.svg = drawing("svg", { role: "slider", tabindex: 0, "aria-label": told.title, "aria-orientation": "horizontal" })
        this.output = element("output", undefined, { ariaLive: "off" }) // The chart itself says it, as its value.
        const head = element("h2", undefined, {}, element("span", told.title), this.output)
        this.place = element("div", undefined, { className: "plot", id: told.key }, head, this.svg)
        this.place.style.setProperty("--of", `var(--${told.colour})`)
    }

    text(drawn) { return this.quantity.withUnit(this.quantity.label(drawn)) }

    /* What of the column is on the chart, in words. */
    #whole({ from, to }) {
        const whole = range(this.column, from, to)
        if (Number.isNaN(whole.low)) return "nothing here"
        const { low, high } = this.shown
        let rest = 0
        for (let k = from; k <= to; k++) if (this.column[k] < low || this.column[k] > high) rest++
        const several = this.quantity.isPace ? `fastest ${this.text(high)}` : `${this.quantity.label(low)} to ${this.text(high)}`
        const text = low === high ? this.text(low) : several
        if (rest === 0) return text
        const far = whole.high > high ? this.text(whole.high) : this.text(whole.low)
        return `${text}; ${rest} ${rest === 1 ? "point" : "points"} outside, ${whole.high > high ? "up" : "down"} to ${far}`
    }

    /* How points stand across the chart now; charts of one width share it. */
    frame() {
        const { clientWidth } = this.svg
        return across(this.view.xs, this.view.window, GUTTER, Math.max(1, clientWidth - GUTTER - RIGHT))
    }

    draw(frame, isLast) {
        const { svg, view } = this, width = svg.clientWidth, height = svg.clientHeight, foot = isLast && (view.hasTime || view.by === "distance") ? FOOT : 0
        this.frameNow = frame
        this.bottom = height - foot
        const { low, high } = this.shown = shownRange(this.column, frame.from, frame.to)
        const share = one => (low < high ? (Math.max(low, Math.min(one, high)) - low) / (high - low) : .5)
        this.y = one => this.bottom - PAD - share(one) * (this.bottom - 2 * PAD)
        svg.setAttribute("viewBox", `0 0 ${width} ${height}`)
        this.band = drawing("rect", { class: "band", y: 0, height: this.bottom, visibility: "hidden" })
        const feet = isLast ? this.#feet(frame) : []
        svg.replaceChildren(this.band, ...this.#lines(width), ...feet, ...this.#beside(frame), ...this.#line(frame), this.#cross())
        this.whole = this.#whole(frame)
        this.show(view.here)
        this.light(view.span)
    }

    /* Lines at round values, and these left of them. */
    #lines(width) {
        return this.quantity.lines(this.shown.low, this.shown.high).flatMap(([value, text]) => [
            drawing("line", { class: "grid", x1: GUTTER, x2: width - RIGHT, y1: this.y(value), y2: this.y(value) }),
            drawing("text", { x: GUTTER - 5, y: this.y(value) + 4, "text-anchor": "end" }, text),
        ])
    }

    #feet(frame) {
        return alongs(frame, this.view, this.units).flatMap(([at, text]) => {
            const x = frame.left + (at - frame.low) * frame.scale
            const place = { x: Math.min(x, frame.left + frame.width - 12), y: this.bottom + 13, "text-anchor": "middle" }
            return [drawing("line", { class: "grid", x1: x, x2: x, y1: 0, y2: this.bottom }), drawing("text", place, text)]
        })
    }

    #line(frame) {
        const parts = thinned(frame, this.view.seconds, this.column), outside = arrows(parts, this.shown, this.y)
        let drawn = "", under = ""
        for (const part of parts) {
            const path = this.#path(part)
            drawn += part.length > 1 ? path : `${path}h.1`
            if (this.filled) under += `${path}V${this.bottom}H${part[0].x.toFixed(1)}Z`
        }
        return [["under", under], ["drawn", drawn], ["outside", outside]].filter(([, d]) => d !== "").map(([kind, d]) => drawing("path", { class: kind, d }))
    }

    /* The same of the ride beside it, as far as it goes. */
    #beside({ left, low, scale, width }) {
        if (this.beside === undefined) return []
        const { xs, seconds, column } = this.beside
        const at = xs.map(one => (left + (one - low) * scale >= left && (one - low) * scale <= width ? left + (one - low) * scale : NaN))
        const parts = thinned({ at, from: 0, to: at.length - 1 }, seconds, column)
        return parts.length === 0 ? [] : [drawing("path", { class: "beside", d: parts.map(part => this.#path(part)).join("") })]
    }

    #path(part) { return part.map(({ x, y }, k) => `${k ? "L" : "M"}${x.toFixed(1)} ${this.y(y).toFixed(1)}`).join("") }

    #cross() {
        this.here = drawing("g", { visibility: "hidden" })
        this.bar = drawing("line", { class: "here", y1: 0, y2: this.bottom })
        this.dot = drawing("circle", { r: 4, fill: "var(--of)" })
        this.here.append(this.bar, this.dot)
        return this.here
    }

    /* Shows the value of a point, or of none. */
    show(k) {
        const { at } = this.frameNow, isTold = k >= 0 && !Number.isNaN(this.column[k]) && !Number.isNaN(at[k])
        this.here.setAttribute("visibility", isTold ? "visible" : "hidden")
        this.output.textContent = isTold ? `${this.#where(k)}  ${this.text(this.column[k])}`.trim() : this.whole
        this.#tell({ valuemin: this.frameNow.from, valuemax: this.frameNow.to, valuenow: isTold ? k : this.frameNow.from, valuetext: this.output.textContent })
        if (!isTold) return
        for (const end of ["x1", "x2"]) this.bar.setAttribute(end, at[k])
        this.dot.setAttribute("cx", at[k])
        this.dot.setAttribute("cy", this.y(this.column[k]))
    }

    /* Where a point is along the chart, in words. */
    #where(k) {
        if (this.view.by === "distance") return this.units.distance.text(this.view.points.distance[k])
        return this.view.hasTime ? duration(this.view.seconds[k]) : ""
    }

    /* What a reader of the screen says of the chart. */
    #tell(told) { for (const [name, value] of Object.entries(told)) this.svg.setAttribute(`aria-${name}`, value) }

    /* Lights up a part, or none. */
    light(span) {
        const { at, from, to, left, width } = this.frameNow
        this.band.setAttribute("visibility", span === null || span.to < from || span.from > to ? "hidden" : "visible")
        if (span === null) return
        const x = k => (k <= from ? left : k >= to ? left + width : at[k])
        const [begin, end] = [x(span.from), x(span.to)]
        if (Number.isNaN(begin + end)) return
        this.band.setAttribute("x", Math.min(begin, end))
        this.band.setAttribute("width", Math.max(1, Math.abs(end - begin)))
    }
}
