/* Rides, runs and swims for tests of the page, made of CSV text: every number in them is from here. */

export const BEGIN = 1147939200 // 2026-05-17T08:00:00Z, in seconds since 1989-12-31T00:00:00 UTC
const SIZES = { 0: 1, 1: 1, 2: 1, 7: 16, 131: 2, 132: 2, 133: 4, 134: 4, 136: 4 }

/* A file row by row: `define` says what messages of a local type have, and `add` adds one. */
class Recording {
    #rows = ["row,a,b,c,d,e,f", "file,14,32,2065,sum,,"]
    #known = new Map()

    /* `fields` are [number, base type, name, unit], and those of a developer [number, base type, name, unit, "dev"]. */
    define(local, number, name, fields) {
        const own = fields.filter(field => field[4] === "dev"), others = fields.filter(field => field[4] !== "dev")
        this.#rows.push(`def,${local},0,little,${number},${others.length},${own.length || ""}`)
        this.#rows.push(...others.map(([field, type]) => `fdef,${field},${SIZES[type]},${type},,,`),
            ...own.map(([field, type]) => `ddef,${field},${SIZES[type]},0,,,`))
        this.#known.set(local, { name, fields: [...others, ...own] })
    }

    add(local, ...values) {
        const { name, fields } = this.#known.get(local)
        this.#rows.push(`data,${local},,${name},,,`, ...fields.map(([, , field, unit, kind], k) => `${kind ?? "field"},${field},${values[k]},${unit ?? ""},,,`))
    }

    made(gazhdor) { return gazhdor.fromCsv([...this.#rows, "end,,,,,,\n"].join("\n")) }
}

const TIME = [253, 134, "timestamp", "s"], START = [2, 134, "start_time", "s"]
const RECORD = [TIME, [0, 133, "position_lat", "semicircles"], [1, 133, "position_long", "semicircles"], [3, 2, "heart_rate", "bpm"], [4, 2, "cadence", "rpm"],
    [5, 134, "distance", "m"], [6, 132, "speed", "m/s"]]
const POWERED = [...RECORD, [7, 132, "power", "watts"]]
const LAP = [TIME, START, [25, 0, "sport"], [7, 134, "total_elapsed_time", "s"], [8, 134, "total_timer_time", "s"], [9, 134, "total_distance", "m"]]
const SESSION = [TIME, START, [5, 0, "sport"], [7, 134, "total_elapsed_time", "s"], [8, 134, "total_timer_time", "s"], [9, 134, "total_distance", "m"]]
const semicircles = degrees => Math.round(degrees * 2 ** 31 / 180)

/* One record each second at a speed, along a circle around a place. */
function* seconds(count, { from = 0, speed, latitude = 47.3, longitude = 8.57, radius = .008 }) {
    for (let k = 0; k < count; k++) {
        const angle = k / count * 2 * Math.PI * .95
        yield [BEGIN + from + k, semicircles(latitude + radius * Math.sin(angle)), semicircles(longitude + 1.4 * radius * Math.cos(angle)), 120 + k % 40, 85,
            (speed * k).toFixed(2), speed.toFixed(3)]
    }
}

const row = (from, time, sport, distance, ...more) =>
    [BEGIN + from + time, BEGIN + from, sport, time.toFixed(3), time.toFixed(3), distance.toFixed(2), ...more]

/* 20 minutes at 4 m/s, which are 4:10 for a kilometre, with 85 strides, so 170 steps, a minute; laps of a kilometre. */
export function run(gazhdor) {
    const made = new Recording()
    made.define(1, 20, "record", RECORD)
    for (const values of seconds(1201, { speed: 4 })) made.add(1, ...values)
    made.define(2, 19, "lap", [...LAP, [17, 2, "avg_cadence", "rpm"]])
    for (let k = 0; k < 4; k++) made.add(2, ...row(250 * k, 250, 1, 1000, 85))
    made.define(3, 18, "session", [...SESSION, [18, 2, "avg_cadence", "rpm"]])
    made.add(3, ...row(0, 1200, 1, 4800, 85))
    return made.made(gazhdor)
}

/* 16 lengths of 25 m, each of 30 s with 18 strokes, so 2:00 for 100 m; the ninth is a rest of 40 s. */
export function swim(gazhdor) {
    const made = new Recording(), types = [[2, 134], [3, 134], [4, 134], [5, 132], [6, 132], [7, 0], [12, 0]]
    made.define(1, 20, "record", [TIME, [3, 2, "heart_rate", "bpm"], [5, 134, "distance", "m"]])
    made.define(0, 101, "message_101", [TIME, ...types.map(([number, type]) => [number, type, `field_${number}`])])
    made.add(1, BEGIN, 110, "0.00")
    for (let k = 0, now = 0; k < 17; k++) {
        const isRest = k === 8, time = isRest ? 40 : 30, begin = now
        now += time
        made.add(0, BEGIN + now, BEGIN + begin, time * 1000, time * 1000, isRest ? "" : 18, isRest ? "" : 833, isRest ? "" : 0, isRest ? 0 : 1)
        made.add(1, BEGIN + now, 120 + k, (25 * (k < 8 ? k + 1 : k)).toFixed(2))
    }
    made.define(2, 19, "lap", [...LAP, [10, 134, "total_cycles", "cycles"], [32, 132, "field_32"], [38, 0, "field_38"], [40, 132, "field_40"]])
    made.add(2, ...row(0, 240, 5, 200, 144, 8, 0, 8))
    made.add(2, ...row(240, 40, 5, 0, "", 1, "", 0))
    made.add(2, ...row(280, 240, 5, 200, 144, 8, 0, 8))
    made.define(3, 18, "session", [...SESSION, [10, 134, "total_cycles", "cycles"], [44, 132, "field_44"], [47, 132, "field_47"]])
    made.add(3, BEGIN + 520, BEGIN, 5, "520.000", "480.000", "400.00", 288, 2500, 16)
    return made.made(gazhdor)
}

/* A triathlon: 500 m, a change, 20 km, a change, 5 km. */
export const TRIATHLON = [[5, 600, 500], [3, 60, 60], [2, 2000, 20000], [3, 50, 50], [1, 1250, 5000]]
export function triathlon(gazhdor) {
    const made = new Recording()
    made.define(1, 20, "record", RECORD)
    made.define(2, 19, "lap", LAP)
    let from = 0
    for (const [sport, time, distance] of TRIATHLON) {
        for (const values of seconds(time, { from, speed: distance / time, radius: distance / 1e6, longitude: 8.57 + from / 1e5 })) made.add(1, ...values)
        made.add(2, ...row(from, time, sport, distance))
        from += time
    }
    made.define(3, 18, "session", SESSION)
    from = 0
    for (const [sport, time, distance] of TRIATHLON) {
        made.add(3, ...row(from, time, sport, distance))
        from += time
    }
    return made.made(gazhdor)
}

/* 40 minutes with 180 to 259 W, and of one second 21,733 W. */
export function spike(gazhdor) {
    const made = new Recording()
    made.define(1, 20, "record", POWERED)
    let k = 0
    for (const values of seconds(2400, { speed: 9 })) made.add(1, ...values, k++ === 1000 ? 21733 : 180 + k % 80)
    made.define(3, 18, "session", SESSION)
    made.add(3, ...row(0, 2400, 2, 21600))
    return made.made(gazhdor)
}

const bits = value => {
    const view = new DataView(new ArrayBuffer(4))
    view.setFloat32(0, value)
    return `0x${view.getUint32(0).toString(16).toUpperCase().padStart(8, "0")}`
}

/* Ten minutes with two developer fields: core temperature, always 37.5, and form power, 60 to 79; and a temperature that never changes. */
export function developer(gazhdor) {
    const made = new Recording()
    made.define(0, 207, "developer_data_id", [[3, 2, "developer_data_index"]])
    made.add(0, 0)
    made.define(4, 206, "field_description", [
        [0, 2, "developer_data_index"], [1, 2, "field_definition_number"], [2, 2, "fit_base_type_id"], [3, 7, "field_name"], [8, 7, "units"]])
    made.add(4, 0, 0, 136, "Core", "C")
    made.add(4, 0, 1, 132, "<i>Form</i>", "W")
    made.define(1, 20, "record", [...RECORD, [2, 132, "altitude", "m"], [0, 136, "Core", "C", "dev"], [1, 132, "<i>Form</i>", "W", "dev"]])
    let k = 0
    for (const values of seconds(600, { speed: 3 })) made.add(1, ...values, "235.8", bits(37.5), 60 + k++ % 20)
    return made.made(gazhdor)
}

/* A file of one definition, of fields as [number, base type], and of messages that `fill` writes; its sum is wrong, which shows at its end alone. */
function plain(message, fields, count, fill) {
    const size = 1 + fields.reduce((sum, [, type]) => sum + SIZES[type], 0)
    const head = [0x40, 0, 0, message, 0, fields.length, ...fields.flatMap(([number, type]) => [number, SIZES[type], type])]
    const bytes = new Uint8Array(12 + head.length + size * count + 2), view = new DataView(bytes.buffer)
    bytes.set([12, 32, 0, 0, 0, 0, 0, 0, 0x2e, 0x46, 0x49, 0x54, ...head])
    view.setUint32(4, head.length + size * count, true)
    for (let k = 0; k < count; k++) fill(view, 12 + head.length + size * k + 1, k)
    return bytes
}

/* Records whose times and places go from one end to the other, with any altitude and heart rate. */
export function toAndFro(count) {
    return plain(20, [[253, 134], [0, 133], [1, 133], [2, 132], [3, 2]], count, (view, at, k) => {
        view.setUint32(at, k % 2 ? 4294967294 : 300000000 + k, true)
        view.setInt32(at + 4, (k % 2 ? 1 : -1) * 1e9 + k, true)
        view.setInt32(at + 8, (k % 2 ? 1 : -1) * 2e9, true)
        view.setUint16(at + 12, k * 7919 % 65535, true)
        view.setUint8(at + 14, k * 31 % 255)
    })
}

/* So many sessions, each of another sport. */
export function manySessions(count) {
    return plain(18, [[2, 134], [5, 0]], count, (view, at, k) => {
        view.setUint32(at, 1e9 + k, true)
        view.setUint8(at + 4, k % 255)
    })
}

/* Two minutes with power, in which the timer is stopped from the 40th to the 60th second. */
export function paused(gazhdor) {
    const made = new Recording()
    made.define(1, 20, "record", POWERED)
    made.define(0, 21, "event", [TIME, [0, 0, "event"], [1, 0, "event_type"]])
    made.add(0, BEGIN, 0, 0)
    let k = 0
    for (const values of seconds(120, { speed: 8 })) {
        if (k === 40) made.add(0, BEGIN + k, 0, 4)
        if (k === 60) made.add(0, BEGIN + k, 0, 0)
        if (k < 40 || k >= 60) made.add(1, ...values, 200 + k)
        k++
    }
    return made.made(gazhdor)
}
