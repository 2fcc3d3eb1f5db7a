/* The track of a ride, drawn from its coordinates, as SVG in pixels of the page. */
import { drawing, element } from "./element.mjs"
import { MOST_DRAWN, range, shownRange } from "./scales.mjs"

const EDGE = 16, DEGREE = 111195 // metres of a degree of latitude
export const SHADES = 7 // as the style sheet has colours for

/* Longitudes that go on where the track crosses the one of 180 degrees. */
function unwound(longitude) {
    let turns = 0, before = NaN
    return longitude.map(one => {
        if (Number.isNaN(one)) return NaN
        if (Math.abs(one + turns - before) > 180) turns += one + turns > before ? -360 : 360
        return before = one + turns
    })
}

const spanOf = one => one.high - one.low
const joint = (one, other) => ({ low: Math.min(one.low, other.low), high: Math.max(one.high, other.high) })

/* Tracks in the pixels of their place, north up and as wide as they are there; one that is far from the first has no place. */
function placed(tracks, width, height) {
    const all = tracks.map(({ latitude, longitude }) => ({ latitude, east: unwound(longitude) }))
    let up = range(all[0].latitude), along = range(all[0].east)
    const near = all.filter(({ latitude, east }) => {
        const far = 5 * Math.max(spanOf(up), spanOf(along), .01), more = [joint(up, range(latitude)), joint(along, range(east))]
        if (!(spanOf(more[0]) <= far && spanOf(more[1]) <= far) && latitude !== all[0].latitude) return false
        ;[up, along] = more
        return true
    })
    const squeeze = Math.max(Math.abs(Math.cos((up.low + up.high) / 2 * Math.PI / 180)), .01)
    const scale = Math.min((width - 2 * EDGE) / (spanOf(along) * squeeze || 1e-9), (height - 2 * EDGE) / (spanOf(up) || 1e-9))
    const left = (width - spanOf(along) * squeeze * scale) / 2, top = (height - spanOf(up) * scale) / 2
    const found = near.map(({ latitude, east }) => ({
        xs: east.map(one => left + (one - along.low) * squeeze * scale), ys: latitude.map(one => top + (up.high - one) * scale),
    }))
    return { found, metres: DEGREE / scale }
}

/* The path of the points between two, of those that are apart by most of a pixel. */
function path({ xs, ys }, from, to) {
    let made = "", x = NaN, y = NaN, pen = "M"
    for (let k = from, count = 0; k <= to && count < MOST_DRAWN; k++) {
        if (Number.isNaN(xs[k]) || Number.isNaN(ys[k]) || Math.abs(xs[k] - x) + Math.abs(ys[k] - y) < .8) continue
        made += `${pen}${(x = xs[k]).toFixed(1)} ${(y = ys[k]).toFixed(1)}`
        pen = "L"
        count++
    }
    return made === "" ? "" : `${made}h.1`
}

/* A path for each shade, of the points whose value is of it. */
function shaded({ xs, ys }, column, { low, high }) {
    const paths = Array(SHADES).fill("")
    let x = NaN, y = NaN, before = -1
    for (let k = 0, count = 0; k < xs.length && count < MOST_DRAWN; k++) {
        if (Number.isNaN(xs[k]) || Number.isNaN(ys[k]) || Number.isNaN(column[k]) || Math.abs(xs[k] - x) + Math.abs(ys[k] - y) < .8) continue
        const shade = Math.max(0, Math.min(SHADES - 1, Math.floor((column[k] - low) / (high - low || 1) * SHADES)))
        if (shade !== before) paths[shade] += Number.isNaN(x) ? `M${xs[k].toFixed(1)} ${ys[k].toFixed(1)}h.1` : `M${x.toFixed(1)} ${y.toFixed(1)}`
        paths[shade] += `L${(x = xs[k]).toFixed(1)} ${(y = ys[k]).toFixed(1)}`
        before = shade
        count++
    }
    return paths.map((d, k) => drawing("path", { class: `shade shade${k}`, d })).filter(one => one.getAttribute("d") !== "")
}

/* A length that is round in kilometres and metres or in miles and feet, with its text; at most so many metres. */
function roundLength(most, isMiles) {
    const units = isMiles ? [[1609.344, "mi"], [.3048, "ft"]] : [[1000, "km"], [1, "m"]]
    for (const [metres, unit] of units) {
        const ten = 10 ** Math.floor(Math.log10(most / metres)), step = [5, 2, 1].find(one => one * ten <= most / metres)
        const isWhole = step * ten >= 1 || unit === units[1][1]
        if (isWhole && step !== undefined) return [step * ten * metres, `${Number((step * ten).toPrecision(1)).toLocaleString("en")} ${unit}`]
    }
    return null
}

export class Track {
    /* `beside` are the points of a ride beside it; `quantityOf` says by which quantity a column is told. */
    constructor(view, isMiles, beside) {
        Object.assign(this, { view, isMiles, beside })
        this.svg = drawing("svg", { role: "img", "aria-label": "Track" })
        this.head = element("h2", undefined, {}, element("span", "Track"))
        this.place = element("div", undefined, { className: "plot track", id: "track" }, this.head, this.svg)
        this.place.style.setProperty("--of", "var(--strong)")
        this.svg.onpointermove = this.svg.onpointerdown = event => this.#point(event)
        this.svg.onpointerleave = () => view.point(-1)
    }

    /* Draws it; `colour` is a chart by whose column it has its colours, or undefined. */
    draw(colour) {
        const { svg, view } = this, width = svg.clientWidth, height = svg.clientHeight
        const { found, metres } = placed([view.points, ...(this.beside ? [this.beside] : [])], width, height)
        this.at = found[0]
        svg.setAttribute("viewBox", `0 0 ${width} ${height}`)
        this.lit = drawing("path", { class: "lit", visibility: "hidden" })
        this.here = drawing("circle", { r: 6, fill: "var(--strong)", visibility: "hidden" })
        const line = colour === undefined ? [drawing("path", { class: "drawn", d: path(this.at, 0, view.whole.to) })]
            : shaded(this.at, colour.column, shownRange(colour.column, 0, view.whole.to))
        svg.replaceChildren(...found.slice(1).map(one => drawing("path", { class: "beside", d: path(one, 0, one.xs.length - 1) })),
            this.lit, ...line, ...this.#ends(width), ...this.#scale(metres, width, height), ...this.#legend(colour, width, height), this.here)
        this.light(view.span)
        this.show(view.here)
    }

    /* Where it begins, as a ring, and where it ends, as a dot that leaves the ring to be seen. */
    #ends(width) {
        const { xs, ys } = this.at, isThere = (x, k) => !Number.isNaN(x) && !Number.isNaN(ys[k])
        const first = xs.findIndex(isThere), last = xs.findLastIndex(isThere)
        if (first < 0) return []
        const isNear = Math.hypot(xs[first] - xs[last], ys[first] - ys[last]) < 30
        const text = (k, word) => {
            const isRight = xs[k] > width - 80
            return drawing("text", { class: "end", x: xs[k] + (isRight ? -11 : 11), y: ys[k] + 4, "text-anchor": isRight ? "end" : "start" }, word)
        }
        return [
            drawing("circle", { class: "start", cx: xs[first], cy: ys[first], r: 8 }),
            drawing("circle", { class: "finish", cx: xs[last], cy: ys[last], r: 4.5 }),
            ...(isNear ? [text(first, "start, end")] : [text(first, "start"), text(last, "end")]),
        ]
    }

    #scale(metres, width, height) {
        const round = roundLength(metres * width / 3, this.isMiles)
        if (round === null || !(metres < 1e5)) return []
        const [length, text] = round, x = EDGE / 2, y = height - 6
        const bar = `M${x} ${y - 5}v5h${(length / metres).toFixed(1)}v-5`
        return [drawing("path", { class: "scale", d: bar }), drawing("text", { x: x + 4, y: y - 8 }, text)]
    }

    /* What the colours stand for. */
    #legend(colour, width, height) {
        if (colour === undefined) return []
        const { low, high } = shownRange(colour.column, 0, this.view.whole.to), x = width - EDGE / 2 - 10 * SHADES, y = height - 14
        const text = (at, value) => drawing("text", { x: at, y: y - 4, "text-anchor": "end" }, value)
        return [
            ...Array.from({ length: SHADES }, (_, k) => drawing("rect", { class: `fill${k}`, x: x + 10 * k, y, width: 10, height: 8 })),
            text(width - EDGE / 2, `${colour.quantity.label(low)} to ${colour.text(high)}`),
        ]
    }

    show(k) {
        const isTold = k >= 0 && !Number.isNaN(this.at.xs[k]) && !Number.isNaN(this.at.ys[k])
        this.here.setAttribute("visibility", isTold ? "visible" : "hidden")
        if (isTold) this.here.setAttribute("cx", this.at.xs[k]), this.here.setAttribute("cy", this.at.ys[k])
    }

    light(span) {
        this.lit.setAttribute("visibility", span === null ? "hidden" : "visible")
        if (span !== null) this.lit.setAttribute("d", path(this.at, span.from, span.to))
    }

    /* Points at the point that is nearest, where one is near. */
    #point({ clientX, clientY }) {
        const { left, top } = this.svg.getBoundingClientRect(), { xs, ys } = this.at
        let nearest = -1, least = 30
        for (let k = 0; k < xs.length; k++) {
            const away = Math.abs(xs[k] - clientX + left) + Math.abs(ys[k] - clientY + top)
            if (away < least) [nearest, least] = [k, away]
        }
        this.view.point(nearest)
    }
}
