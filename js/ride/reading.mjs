/* Reads a ride in two goes, piece by piece, and tells how far it is: first what there is, then the columns of its records. */
import { judge } from "../src/answers.mjs"
import { Walk } from "../src/messages.mjs"
import { pieces } from "../src/sources.mjs"
import { Pipe, coreOf } from "../src/streams.mjs"
import { Developers, Points } from "./points.mjs"
import { Rows } from "./rows.mjs"

/* Hands over the blocks of some bytes up to the first fault, and returns what was found. */
function read(core, bytes, take, tell) {
    const pipe = new Pipe(core, "blocks")
    try {
        let done = 0
        for (const piece of pieces(bytes)) {
            const [answer] = pipe.feed(piece, take)
            judge(answer, true)
            if (!answer.good) return answer
            tell(done += piece.length)
        }
        const [answer] = pipe.finish(take)
        judge(answer, true)
        return answer
    } finally {
        pipe.close()
    }
}

/* What the page shows of a ride, as plain data. `tell` is told the share that is done. */
export function rideOf(gazhdor, bytes, tell) {
    const core = coreOf.get(gazhdor), walk = new Walk(), rows = new Rows(), developers = new Developers(), all = 2 * bytes.length
    const answer = read(core, bytes, blocks => {
        for (const run of walk.runs(blocks)) {
            rows.take(blocks, run)
            developers.take(run)
        }
    }, done => tell(done / all))
    const columns = new Points(developers)
    read(core, bytes, blocks => columns.take(blocks), done => tell((bytes.length + done) / all))
    const { good, files, place, reason, explanation } = answer, points = columns.done()
    return {
        finding: { good, files, place, reason, explanation, text: `${answer}` }, size: bytes.length, points,
        isCut: columns.isCut, ownCount: developers.count, sport: rows.sport,
        sessions: rows.session, laps: rows.lap, lengths: rows.length, counts: [...rows.counts],
    }
}

/* The memory of a ride's columns, which goes with it to another thread, so that it isn't copied. */
export function memoryOf({ points }) {
    const columns = [...Object.values(points), ...points.own.map(({ column }) => column)]
    return [...new Set(columns.filter(column => column instanceof Float64Array).map(column => column.buffer))]
}
