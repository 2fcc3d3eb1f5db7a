/* What of a ride is looked at: from which point to which the charts go, which part is marked, which point is pointed at. Points are told by their
 * numbers, so all of it means the same by time, by distance and on the track. */
import { elapsed, range } from "./scales.mjs"

export class View {
    here = -1
    span = null
    isMarking = false // whether a finger that is drawn along a chart marks a part
    #hearers = { window: [], span: [], here: [] }

    constructor({ points }) {
        this.points = points
        this.seconds = elapsed(points)
        this.whole = { from: 0, to: points.length - 1 }
        this.window = this.whole
    }

    get hasTime() { return this.points.time !== undefined }

    get hasDistance() {
        const { low, high } = this.points.distance === undefined ? {} : range(this.points.distance)
        return low < high
    }

    /* Whether charts go by time or by distance, as far as the ride has both. */
    measure(by) {
        this.by = by === "distance" && this.hasDistance ? "distance" : "time"
        this.xs = this.by === "distance" ? this.points.distance : this.seconds
    }

    on(what, hear) { this.#hearers[what].push(hear) }
    #tell(what) { for (const hear of this.#hearers[what]) hear(this[what]) }

    point(k) {
        if (k === this.here) return
        this.here = k
        this.#tell("here")
    }

    /* Marks the points between two, in either order; null marks none. A part that is a lap or a session has its title and its row. */
    mark(one, other = one, { title = "Marked part", row = null } = {}) {
        this.span = one === null || one < 0 || other < 0 ? null : { from: Math.min(one, other), to: Math.max(one, other), title, row }
        this.#tell("span")
    }

    zoom(window) {
        if (window.to <= window.from) return
        this.window = { from: window.from, to: window.to }
        this.#tell("window")
    }

    get isZoomed() { return this.window.from !== this.whole.from || this.window.to !== this.whole.to }

    /* The points between two moments, in milliseconds since 1970, or null. */
    between(start, end) {
        const { time } = this.points
        if (time === undefined || start === null || end === null) return null
        const from = time.findIndex(one => one >= start)
        const to = time.findLastIndex(one => one <= end)
        return from >= 0 && to > from ? { from, to } : null
    }
}
