/* What a sport is called, and how its speed and its cadence are told. */

const spaced = word => word.replaceAll("_", " ")
const capital = word => word.slice(0, 1).toUpperCase() + word.slice(1)

/* The sport of a row, in words: with what kind of it, where that is told. */
export function sportWord({ sport, sport_word: word, sub_word: kind }) {
    if (sport === null) return ""
    const name = word === null ? `Sport ${sport}` : capital(spaced(word))
    return kind === null || kind === "generic" || kind === word ? name : `${name}, ${spaced(kind)}`
}

export const strokeWord = ({ stroke, stroke_word: word }) => (stroke === null ? "" : word === null ? `Stroke ${stroke}` : capital(spaced(word)))

/* Cadence is of one leg, so steps are twice as many. */
const RUN = { speed: "pace", cadence: "steps" }
const MANNERS = {
    1: RUN, 11: RUN, 17: { speed: "speed", cadence: "steps" }, 5: { speed: "swim", cadence: "strokes" }, 15: { speed: "speed", cadence: "strokes" },
}

/* By which quantities speed and cadence are told. */
export const mannerOf = sport => MANNERS[sport] ?? { speed: "speed", cadence: "rpm" }
export const isSwim = sport => sport === 5

/* The row that tells the one sport of all sessions, or null. */
function soleRow({ sessions, sport }) {
    const sports = new Set(sessions.map(one => one.sport))
    return sports.size === 0 ? sport : sports.size === 1 ? sessions[0] : null
}

/* The number of the one sport of all sessions, or null; and the word for it. */
export const soleSport = ride => soleRow(ride)?.sport ?? null
export const soleWord = ride => (soleRow(ride) === null ? "" : sportWord(soleRow(ride)))
