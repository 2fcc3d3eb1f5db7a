/* From which moment to which one a marked part goes. */

/* The last moment of a session or a lap, as a part of a file counts it: to the second. */
const lastOf = ({ start, end, total_elapsed_time: elapsed }) => (elapsed >= 0 && elapsed !== null ? start + 1000 * Math.floor(elapsed + .5) : end)

/* The first and the last moment, in milliseconds since 1970: those of a session or a lap as it says them, so that it is whole, else those of the points. */
export function momentsOf({ time }, { from, to, row }) {
    if (row !== null && row.start !== null && lastOf(row) !== null) return { begin: row.start, end: lastOf(row) }
    const own = time.subarray(from, to + 1)
    return { begin: own.find(one => !Number.isNaN(one)), end: own.findLast(one => !Number.isNaN(one)) }
}
