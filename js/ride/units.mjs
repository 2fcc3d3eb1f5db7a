/* Numbers as the page writes them, in kilometres or in miles. Columns and rows have metres, seconds, metres a second, degrees Celsius. */

const FOOT = .3048, YARD = .9144, MILE = 1609.344

/* What each quantity is shown as: its unit, how many of them one of the file's is, the decimals, and what is added. */
const SAME = {
    heart: ["bpm", 1, 0], power: ["W", 1, 0], rpm: ["rpm", 1, 0], steps: ["steps/min", 2, 0], strokes: ["strokes/min", 1, 0], energy: ["kcal", 1, 0],
    count: ["", 1, 0],
}
const METRIC = {
    ...SAME, distance: ["km", 1 / 1000, 2], height: ["m", 1, 0], pool: ["m", 1, 0], speed: ["km/h", 3.6, 1], temperature: ["°C", 1, 0],
    pace: ["/km", 1000], swim: ["/100 m", 100],
}
const MILES = {
    ...SAME, distance: ["mi", 1 / MILE, 2], height: ["ft", 1 / FOOT, 0], pool: ["yd", 1 / YARD, 0], speed: ["mph", 3600 / MILE, 1],
    temperature: ["°F", 1.8, 0, 32], pace: ["/mi", MILE], swim: ["/100 yd", 100 * YARD],
}
/* Paces at which a chart has a line, in seconds for the distance that they are for. */
const PACES = [60, 75, 90, 105, 120, 135, 150, 180, 210, 240, 270, 300, 360, 420, 480, 600, 720, 900, 1200, 1800, 3600]

const two = one => String(one).padStart(2, "0")

/* Hours, minutes and seconds. */
export function duration(seconds) {
    if (!(seconds >= 0 && seconds < 1e9)) return ""
    const whole = Math.round(seconds)
    return `${Math.floor(whole / 3600)}:${two(Math.floor(whole / 60) % 60)}:${two(whole % 60)}`
}

/* Minutes and seconds. */
function minutes(seconds) {
    const whole = Math.round(seconds)
    return whole < 3600 ? `${Math.floor(whole / 60)}:${two(whole % 60)}` : duration(whole)
}

const formats = {}

/* A number with some decimals, and with commas between thousands; a very large one by its power of ten. */
export function decimal(number, digits) {
    if (Math.abs(number) >= 1e9) return number.toExponential(2)
    formats[digits] ??= new Intl.NumberFormat("en", { minimumFractionDigits: digits, maximumFractionDigits: digits })
    return formats[digits].format(number)
}

/* Some round numbers between two. */
function rounds(low, high, most) {
    if (!(low < high)) return []
    const rough = (high - low) / most, ten = 10 ** Math.floor(Math.log10(rough))
    const step = [1, 2, 5, 10].map(one => one * ten).find(one => one >= rough) ?? rough, found = []
    for (let one = Math.ceil(low / step) * step; one <= high && found.length <= 2 * most; one += step) found.push(Number(one.toPrecision(10)))
    return found
}

/* The text of a line at a number: short, and with as many decimals as it has. */
function lineText(at) {
    if (Math.abs(at) >= 1e5) return at.toLocaleString("en", { notation: "compact", maximumSignificantDigits: 3 })
    return at.toLocaleString("en", { maximumSignificantDigits: 6 })
}

/* How one quantity is shown. What a chart has of it is drawn by its `drawn` numbers: of a pace these are speeds, so that faster is higher. */
class Quantity {
    constructor([unit, factor, digits = null, more = 0]) {
        Object.assign(this, { unit, factor, digits, more, isPace: digits === null })
    }

    drawn(value) { return this.isPace ? value : value * this.factor + this.more }

    /* The text of a number that is drawn, without its unit. */
    label(drawn, digits = this.digits) {
        if (!this.isPace) return decimal(drawn, digits)
        return drawn > 0 && this.factor / drawn < 36000 ? minutes(this.factor / drawn) : "–"
    }

    withUnit(text) { return this.unit === "" ? text : `${text} ${this.unit}` }
    number(value) { return this.label(this.drawn(value)) }
    text(value) { return this.withUnit(this.number(value)) }

    /* Where a chart from one drawn number to another has lines, and their texts. */
    lines(low, high, most = 4) {
        if (low === high) return [[low, this.label(low)]]
        if (!this.isPace) return rounds(low, high, most).map(at => [at, lineText(at)])
        const all = PACES.map(pace => this.factor / pace).filter(speed => speed >= low && speed <= high)
        return apart(all, low, high, most).map(at => [at, this.label(at)])
    }
}

/* Of some falling numbers those that aren't too near to one another. */
function apart(numbers, low, high, most) {
    const found = []
    for (const one of numbers) if (found.length === 0 || found[found.length - 1] - one >= (high - low) / (most + 1)) found.push(one)
    return found
}

export function unitsOf(isMiles) {
    return Object.fromEntries(Object.entries(isMiles ? MILES : METRIC).map(([name, told]) => [name, new Quantity(told)]))
}

/* The quantity of a column of a developer field, which has a unit of its own. */
export function ownQuantity(unit, column) {
    const isWhole = column.every(one => Number.isNaN(one) || Number.isInteger(one)), most = column.reduce((high, one) => Math.max(high, Math.abs(one) || 0), 0)
    return new Quantity([unit, 1, isWhole || most >= 100 ? 0 : most < 10 ? 2 : 1])
}
