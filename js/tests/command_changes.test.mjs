/* The commands edit, join and mend of the command gazhdor: beside that of Python, and what becomes of the file that they write. */
import assert from "node:assert/strict"
import { spawnSync } from "node:child_process"
import { chmodSync, existsSync, mkdirSync, readFileSync, readdirSync, statSync, symlinkSync, writeFileSync } from "node:fs"
import { join } from "node:path"
import { test } from "node:test"
import { open } from "../gazhdor.mjs"
import { RIDE, folder, inTree, needs } from "./tools.mjs"

const WORK = folder(), COMMAND = inTree("js/command/gazhdor.mjs"), PATH = inTree("examples/ride.fit"), TIME = 1147937400
const gazhdor = await open()

function written(name, data) {
    const path = join(WORK, name)
    writeFileSync(path, data)
    return path
}

function command(...words) {
    const { status, stdout, stderr } = spawnSync(process.execPath, [COMMAND, ...words], { input: "" })
    return { status, stdout, faults: String(stderr) }
}

const FIRST = written("first.fit", gazhdor.edit(RIDE, { end: TIME + 300 }).bytes)
const SECOND = written("second.fit", gazhdor.edit(RIDE, { begin: TIME + 301 }).bytes)
const BAD = written("bad.fit", RIDE.subarray(0, 2000)), TEXT = written("text.fit", "no file of FIT"), NONE = join(WORK, "none.fit")

/* Words with the status that they have. */
const CASES = [
    [["edit", "--drop", "position", "--drop=lap.9", PATH, "-"], 0], [["edit", "--drop", "20.6", "--shift", "-45", PATH, "-"], 0],
    [["edit", "--shift=1h30m", PATH, "-"], 0],
    [["edit", "--from", "2026-05-17T09:31:40+02:00", "--to", "1147937600", PATH, "-"], 0], [["edit", "--from", "5", "--to", "6", PATH, "-"], 2],
    [["edit", "--drop", "hart_rate", PATH, "-"], 2], [["edit", BAD, "-"], 1], [["edit", NONE, "-"], 4], [["edit", TEXT, "-"], 1],
    [["join", PATH, PATH, "-"], 0],
    [["join", "--one", FIRST, SECOND, "-"], 0], [["join", "--one", PATH, PATH, "-"], 2], [["join", PATH, NONE, "-"], 4], [["join", PATH, BAD, "-"], 1],
    [["mend", "--whole", BAD], 0], [["mend", "--whole", PATH], 0], [["mend", "--whole", TEXT], 1],
]

test("edit, join and mend do what those of Python do", needs("python3"), () => {
    const env = { ...process.env, PYTHONPATH: inTree("python") }
    for (const [words, wanted] of CASES) {
        const own = command(...words), other = spawnSync("python3", ["-m", "gazhdor", ...words], { env, input: "" }), what = words.join(" ")
        assert.deepEqual([own.status, other.status], [wanted, wanted], `${what}: ${own.faults}${other.stderr}`)
        assert.deepEqual(own.stdout, other.stdout, what)
        if (wanted < 2) assert.deepEqual(own.faults.split("\n").sort(), String(other.stderr).split("\n").sort(), what)
        assert.ok(!own.faults.includes("    at "), own.faults)
    }
})

test("a file is written whole or not at all", () => {
    const into = written("own.fit", "what was there"), link = join(WORK, "link.fit")
    chmodSync(into, 0o640)
    symlinkSync(into, link)
    assert.equal(command("edit", BAD, into).status, 1)
    assert.equal(String(readFileSync(into)), "what was there")
    assert.equal(command("edit", PATH, link).status, 0)
    assert.deepEqual([new Uint8Array(readFileSync(into)), statSync(into).mode & 0o777], [RIDE, 0o640])
    assert.deepEqual(command("edit", "--drop", "position", into, into).status, 0)
    assert.deepEqual(new Uint8Array(readFileSync(into)), gazhdor.edit(RIDE, { drop: "position" }).bytes)
    mkdirSync(join(WORK, "inside"))
    assert.equal(command("join", PATH, PATH, join(WORK, "inside", "new.fit")).status, 0)
    assert.deepEqual(readdirSync(join(WORK, "inside")), ["new.fit"])
    for (const path of [join(WORK, "nowhere", "x.fit"), join(WORK, "inside"), "/dev/full"]) {
        const { status, faults } = command("edit", PATH, path)
        assert.deepEqual([status, faults.includes("    at ")], [4, false], path)
    }
    assert.ok(!existsSync(join(WORK, "nowhere")))
    const { stdout } = spawnSync("sh", ["-c", `'${process.execPath}' '${COMMAND}' edit '${PATH}' /dev/stdout | cat`])
    assert.deepEqual(new Uint8Array(stdout), RIDE)
})
