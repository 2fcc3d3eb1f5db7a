/* What definitions say, kept from one file to the next one: most files of a device have the same ones. */
import { EXTRA } from "./names.mjs"
import {
    AT_DEFINITION_ARCHITECTURE, AT_DEFINITION_LOCAL, AT_DEFINITION_MESSAGE, AT_DEFINITION_MESSAGE_LENGTH, AT_DEFINITION_RESERVED, AT_FILE, AT_PLACE,
} from "./numbers.mjs"
import { Definition } from "./values.mjs"

const MOST = 128, LONGEST = 2048 // So many are kept, and none whose block is longer.
const FRONT = [AT_DEFINITION_LOCAL, AT_DEFINITION_ARCHITECTURE, AT_DEFINITION_RESERVED]
const kept = new Map(), latin1 = new TextDecoder("latin1")

/* What a definition says of its messages, as text: what comes before that are numbers of it, and the length that its fields have. */
export const sameIn = block => latin1.decode(block.subarray(AT_DEFINITION_MESSAGE))

/* What the block of a definition says. With the names of the profile or of EXTRA it may be one that another file has had. */
export function definitionOf(block, told = {}, same = sameIn(block)) {
    const { words = false } = told, names = told.names ?? null
    if (words || block.length > LONGEST || (names !== null && names !== EXTRA)) return new Definition(block, told)
    const label = `${names !== null} ${FRONT.map(at => block[at])} ${same}`, found = kept.get(label) ?? new Definition(alone(block), { names })
    kept.delete(label) // The one that was used last stands last.
    if (kept.size === MOST) kept.delete(kept.keys().next().value)
    kept.set(label, found)
    return found
}

/* The block of a definition without its file, its place, and which one of all it is. */
function alone(block) {
    const own = block.slice()
    own.fill(0, AT_FILE, AT_DEFINITION_MESSAGE_LENGTH)
    own.fill(0, AT_PLACE, AT_DEFINITION_MESSAGE)
    return own
}
