/* The parts of 300 activities, of recordings of each kind, of the ride and of the known files, joined again, come to what the whole did, as
 * python/tests/test_parts.py has it of the same ones in Python. */
import assert from "node:assert/strict"
import { execFileSync } from "node:child_process"
import { readdirSync, writeFileSync } from "node:fs"
import { join } from "node:path"
import { test } from "node:test"

import { open } from "../gazhdor.mjs"
import { seeActivity, seeRecording } from "./parts.mjs"
import { CC, RIDE, bytesAt, folder, inTree, needs } from "./tools.mjs"

const ACTIVITIES = 300, KINDS = ["plain", "compressed", "developer", "interleaved", "turns", "definitions", "strings", "small"]

/* A folder with all of them. */
function files() {
    const place = folder(), recording = join(place, "recording")
    execFileSync("python3", [inTree("python/tests/activities.py"), place, `${ACTIVITIES}`])
    execFileSync(inTree("tests/known"), [place])
    writeFileSync(join(place, "ride.fit"), RIDE)
    if (CC !== undefined) {
        execFileSync(CC, ["-std=gnu11", "-O2", inTree("bench/recording.c"), "-o", recording])
        for (const kind of KINDS) execFileSync(recording, [kind, "20k", join(place, `recorded-${kind}.fit`)])
    }
    return place
}

/* The known file whose parts can't be joined, and why: it has a developer field before the field is described. In the first part that is a field of which
 * nothing is known, and it stays one; in the next one it would come after the description of the first, and would get the name and the type of this. */
const NOT_JOINED = {
    both: "file 2 doesn't describe its developer field dev_0_5, and would get the name and the type of one of a file before it",
}

test("files that are cut at 20 places, and joined again", { ...needs("python3"), timeout: 900000 }, async () => {
    const gazhdor = await open(), place = files(), all = readdirSync(place).filter(name => name.endsWith(".fit")), notJoined = {}
    assert.ok(all.length >= ACTIVITIES + 9)
    for (const name of all) {
        const bytes = bytesAt(join(place, name)), number = /^activity-(\d+)\.fit$/.exec(name)?.[1]
        try {
            const why = number === undefined ? seeRecording(gazhdor, bytes) : seeActivity(gazhdor, bytes, Number(number))
            if (why) notJoined[name.slice(0, -".fit".length)] = why
        } catch (error) {
            throw new Error(`${name}: ${error.stack}`)
        }
    }
    assert.deepEqual(notJoined, NOT_JOINED)
})
