/* Tables of the sessions, the laps and the lengths. */
import { element } from "./element.mjs"
import { isSwim, mannerOf, sportWord, strokeWord } from "./sports.mjs"
import { duration } from "./units.mjs"

const IDLE = 0 // the type of a length in which nobody swam

/* The columns: what a row must have there, its head, and its text. Where the sports differ, speeds and cadences have their units beside them. */
function columnsOf(rows, units, sport, begin) {
    const number = quantity => value => units[quantity].number(value)
    const manner = row => mannerOf(row.sport ?? sport), one = manner(rows[0]), isMixed = new Set(rows.map(row => manner(row).speed)).size > 1
    const told = (name, field) => row => units[manner(row)[name]][isMixed ? "text" : "number"](row[field])
    const swims = isSwim(rows[0]?.sport ?? sport) && !isMixed
    const speedHead = `${units[one.speed].isPace ? "Pace " : ""}${units[one.speed].unit}`
    return [
        ["start", "Start", row => duration((row.start - begin) / 1000)],
        ["total_distance", swims ? units.pool.unit : units.distance.unit, row => number(swims ? "pool" : "distance")(row.total_distance)],
        ["total_timer_time", "Time", row => duration(row.total_timer_time)], ["avg_heart_rate", "bpm", row => number("heart")(row.avg_heart_rate)],
        ["avg_speed", isMixed ? "Speed" : speedHead, told("speed", "avg_speed")],
        ["lengths", "Lengths", row => number("count")(row.lengths)],
        ["total_cycles", "Strokes", row => (isSwim(row.sport ?? sport) ? number("count")(row.total_cycles) : "")],
        [null, "Stroke", row => (row.length_type === IDLE ? "Rest" : strokeWord(row))],
        ["avg_power", "W", row => number("power")(row.avg_power)], ["normalized", "Norm. W", row => number("power")(row.normalized)],
        ["avg_cadence", isMixed ? "Cadence" : units[one.cadence].unit, told("cadence", "avg_cadence")],
        ["max_speed", `Max. ${isMixed ? "speed" : speedHead.toLowerCase()}`, told("speed", "max_speed")],
        ["max_heart_rate", "Max. bpm", row => number("heart")(row.max_heart_rate)], ["max_power", "Max. W", row => number("power")(row.max_power)],
        ["total_elapsed_time", "With pauses", row => (row.total_elapsed_time === row.total_timer_time ? "" : duration(row.total_elapsed_time))],
        ["total_ascent", `Up ${units.height.unit}`, row => number("height")(row.total_ascent)],
        ["total_descent", `Down ${units.height.unit}`, row => number("height")(row.total_descent)],
        ["total_calories", "kcal", row => number("energy")(row.total_calories)],
    ].map(([name, head, text]) => ({ head, cell: row => (name !== null && (row[name] ?? null) === null ? "" : text(row)) }))
        .map(column => ({ ...column, cells: rows.map(column.cell) })).filter(({ cells }) => cells.some(text => text !== ""))
}

/* The first cell of a row: its number, and its sport where that is another than before. It marks the points of the row. */
function nameOf(row, k, rows, word, mark) {
    const isOther = row.sport !== null && (k === 0 ? rows.some(one => one.sport !== row.sport) : rows[k - 1].sport !== row.sport)
    const title = `${word} ${k + 1}${isOther ? `, ${sportWord(row)}` : ""}`
    const button = element("button", `${k + 1}`, { type: "button", className: "plain", onclick: () => mark(row, title) })
    button.setAttribute("aria-label", `Mark ${title.toLowerCase()}`)
    const head = element("th", undefined, { scope: "row" }, button)
    if (isOther) head.append(element("small", sportWord(row)))
    return head
}

const MOST = 500

/* A table of some rows, of the first ones where there are very many, each of which can be marked. */
export function tableOf(word, all, { units, sport, begin, mark }) {
    const rows = all.slice(0, MOST), columns = columnsOf(rows, units, sport, begin), table = element("table")
    table.createTHead().insertRow().append(element("th", word, { scope: "col" }), ...columns.map(({ head }) => element("th", head, { scope: "col" })))
    const body = table.createTBody()
    rows.forEach((row, k) => {
        const cells = columns.map(column => element("td", column.cells[k]))
        body.append(element("tr", undefined, { row }, nameOf(row, k, rows, word, mark), ...cells))
    })
    return element("div", undefined, { id: `${word.toLowerCase()}s` }, element("h2", `${word}s`),
        element("div", undefined, { className: "wide", tabIndex: 0, role: "region", ariaLabel: `${word}s` }, table),
        ...(all.length > MOST ? [element("p", `The first ${MOST} are shown.`, { className: "quiet" })] : []))
}
