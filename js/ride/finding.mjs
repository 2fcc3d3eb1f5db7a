/* What is said of a file: that it is read and how far, and then what was found. */
import { byId, element } from "./element.mjs"

export function say(kind, text, more, ...others) {
    byId("finding").className = kind
    byId("finding").hidden = false
    byId("finding").replaceChildren(element("b", text), ...(more ? [element("p", more, { className: "quiet" })] : []), ...others)
}

/* Says that a file is read, with a bar and a button that stops it; what is returned moves the bar. */
export function sayReading(name, stop) {
    const bar = element("progress", undefined, { max: 1, value: 0, ariaLabel: `How much of ${name} is read` })
    say("reading", `${name}: is read`, "", bar, element("button", "Stop", { type: "button", onclick: stop }))
    return done => { bar.value = done }
}

/* What a fault mostly comes from. */
const ADVICE = {
    HeaderSize: "No FIT file begins there; before that place there may be good ones.",
    Protocol: "This is most likely no FIT file.",
    Signature: "This is most likely no FIT file.",
    HeaderSum: "Some bytes of the header have changed, or the recording was never closed.",
    FileSum: "Some bytes have changed, or the recording was never closed.",
    Truncated: "The recording or its copy was cut.",
    Other: "Some bytes before that place have changed or are missing.",
}

function adviceOf({ place, reason, explanation }, isShown, took) {
    const advice = reason === null ? (place > 0 ? ADVICE.Truncated : "") : ADVICE[reason] ?? ADVICE.Other
    return [explanation, advice, isShown ? `What comes before that is shown (${took}).` : ""].filter(text => text).join(" ")
}

/* What of a ride isn't drawn because there is too much of it. */
function leftOut({ isCut, points, ownCount }) {
    const told = []
    if (isCut) told.push(`The first ${points.length.toLocaleString("en")} records are drawn.`)
    if (ownCount > points.own.length) told.push(`${points.own.length} of ${ownCount} developer fields are drawn.`)
    return told
}

export function sayFound(name, ride, milliseconds) {
    const { finding, size, counts } = ride, took = `${size.toLocaleString("en")} bytes, read in ${Math.max(1, Math.round(milliseconds))} ms`
    const more = leftOut(ride).map(text => element("p", text, { className: "quiet" }))
    if (finding.good) say("good", `${name}: a good FIT file${finding.files > 1 ? `, of ${finding.files} files in a row` : ""}`, took, ...more)
    else say("bad", `${name}: ${finding.text}`, adviceOf(finding, counts.length > 0, took), ...more)
}
