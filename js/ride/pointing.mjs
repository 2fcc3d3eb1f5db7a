/* What a mouse, a finger and keys do on a chart. */

const LEAST = 4 // So many pixels is something drawn along, else it is a click.

/* The point at which an event is. */
function pointAt(svg, { clientX }, { nearest, left }) {
    const x = Math.round(clientX - svg.getBoundingClientRect().left - left)
    return nearest[Math.max(0, Math.min(x, nearest.length - 1))]
}

/* Where a key leads from a point: so many pixels on, but to another point. */
function stepped({ nearest, at, left, from, to }, here, key) {
    if (key === "Home") return from
    if (key === "End") return to
    const pixels = { ArrowRight: 1, ArrowLeft: -1, PageUp: nearest.length / 10, PageDown: -nearest.length / 10 }[key]
    if (here < from || here > to || Number.isNaN(at[here])) return from
    let x = Math.round(at[here] - left) + Math.round(pixels)
    while (x > 0 && x < nearest.length - 1 && nearest[x] === here) x += Math.sign(pixels)
    return nearest[Math.max(0, Math.min(x, nearest.length - 1))]
}

const KEYS = ["ArrowLeft", "ArrowRight", "PageUp", "PageDown", "Home", "End"]

function onKey(event, view, frame) {
    if (event.key === "Escape") view.span === null ? view.zoom(view.whole) : view.mark(null)
    else if (event.key === "Enter" && view.span !== null) view.zoom(view.span)
    else if (KEYS.includes(event.key) && !event.ctrlKey && !event.altKey && !event.metaKey) {
        const before = view.here, next = stepped(frame, before, event.key)
        // With the shift key the end that is pointed at moves, and the other one stays.
        const { from, to } = view.span ?? {}
        const anchor = before < 0 ? next : from === before ? to : to === before ? from : before
        if (event.shiftKey) view.mark(anchor, next)
        view.point(next)
    } else return
    event.preventDefault()
}

/* Lets a chart point, mark and zoom. `frameOf` gives how it stands now. */
export function follow(svg, view, frameOf) {
    let began = null
    svg.onpointerdown = event => {
        if (event.button !== 0) return
        view.point(pointAt(svg, event, frameOf()))
        if (event.pointerType === "touch" && !view.isMarking) return
        began = { x: event.clientX, k: view.here }
        svg.setPointerCapture(event.pointerId)
    }
    svg.onpointermove = event => {
        view.point(pointAt(svg, event, frameOf()))
        if (began !== null && Math.abs(event.clientX - began.x) >= LEAST) view.mark(began.k, view.here)
    }
    svg.onpointerup = svg.onpointercancel = () => { began = null }
    svg.onpointerleave = () => { if (began === null && document.activeElement !== svg) view.point(-1) }
    svg.ondblclick = () => view.zoom(view.isZoomed || view.span === null ? view.whole : view.span)
    svg.onkeydown = event => onKey(event, view, frameOf())
    svg.onblur = () => view.point(-1)
}
