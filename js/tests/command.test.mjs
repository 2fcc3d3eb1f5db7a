/* The command gazhdor of npm: its words, folders and packed files, what it says of other files, terminals and interrupts; and that it writes what
 * the command of Python writes. */
import assert from "node:assert/strict"
import { spawn, spawnSync } from "node:child_process"
import { existsSync, mkdirSync, readFileSync, symlinkSync, writeFileSync } from "node:fs"
import { dirname, join } from "node:path"
import { test } from "node:test"
import { deflateRawSync, gzipSync } from "node:zlib"
import { MOST } from "../command/archives.mjs"
import { Input } from "../command/inputs.mjs"
import { kindOf } from "../command/kinds.mjs"
import { COMMANDS } from "../command/parsing.mjs"
import { Progress, shown } from "../command/progress.mjs"
import { allFiles, folder, inTree, needs, program, textAt } from "./tools.mjs"

const WORK = folder(), COMMAND = inTree("js/command/gazhdor.mjs"), PATH = inTree("examples/ride.fit"), RIDE = readFileSync(PATH)
const GOOD = `${PATH}: ok, 1 file\n`

function command(words, input = "", how = {}) {
    const { status, stdout, stderr } = spawnSync(process.execPath, [COMMAND, ...words], { input, ...how })
    return { status, stdout, said: `${stdout}`, faults: `${stderr}` }
}

function written(name, data) {
    const path = join(WORK, name)
    mkdirSync(dirname(path), { recursive: true })
    writeFileSync(path, data)
    return path
}

const word = (size, number) => {
    const bytes = Buffer.alloc(size)
    bytes.writeUIntLE(number, 0, size)
    return bytes
}

/* A zip file of these files, each with its name and bytes, as the format has it (APPNOTE.TXT). */
function zipped(files, { packing = 8, flags = 0, sum = undefined } = {}) {
    const parts = [], list = []
    let at = 0
    for (const [name, data] of files) {
        const packed = packing === 8 ? deflateRawSync(data) : data
        const told = Buffer.concat([word(2, 20), word(2, flags), word(2, packing), word(4, 0), word(4, sum ?? crc(data)), word(4, packed.length),
            word(4, data.length), word(2, name.length), word(2, 0)])
        parts.push(word(4, 0x04034b50), told, Buffer.from(name), packed)
        list.push(word(4, 0x02014b50), word(2, 20), told, word(2, 0), word(2, 0), word(2, 0), word(4, 0), word(4, at), Buffer.from(name))
        at += 30 + name.length + packed.length
    }
    const entries = Buffer.concat(list)
    const counts = [word(2, files.length), word(2, files.length)]
    return Buffer.concat([...parts, entries, word(4, 0x06054b50), word(4, 0), ...counts, word(4, entries.length), word(4, at), word(2, 0)])
}

/* The checksum by its definition, bit by bit. */
function crc(bytes) {
    let sum = 0xffffffff
    for (const byte of bytes) {
        sum ^= byte
        for (let k = 0; k < 8; k++) sum = sum & 1 ? (sum >>> 1 ^ 0xedb88320) >>> 0 : sum >>> 1
    }
    return ~sum >>> 0
}

test("each command has its help", () => {
    const said = command(["--help"]).said
    for (const name of Object.keys(COMMANDS)) {
        assert.match(said, new RegExp(`^  ${name} `, "m"))
        assert.match(command([name, "--help"]).said, new RegExp(`^usage: gazhdor ${name} `))
        assert.equal(command([name, "a", "-h"]).said, command(["help", name]).said)
    }
    assert.equal(command(["--version"]).said, `gazhdor ${textAt("VERSION").trim()}\n`)
})

test("words that aren't understood", () => {
    const cases = [[[], "--help"], [["frob"], "no command 'frob'"], [["check", "--frob"], "--frob"], [["mend", "a", "b", "c"], "IN"],
        [["table", "-o"], "-o"], [["edit", "a"], "it takes IN and OUT"], [["join", "a", "b"], "two FILEs or more"],
        [["edit", "--shift", "soon", PATH, "x"], "no time to move by"],
        [["edit", "--shift=5m1h", PATH, "x"], "come in this order"], [["edit", "--from", "2026-05-17T07:30:00", PATH, "x"], "a time needs a zone"],
        [["json", "--names=a"], "--names: a: No such file or directory"], [["json", `--names=${PATH}`], "--names: the first line"]]
    for (const [words, part] of cases) {
        const { status, said, faults } = command(words)
        assert.deepEqual([status, said], [2, ""], words.join(" "))
        assert.ok(faults.includes(part) && !faults.includes("    at "), faults)
    }
})

test("statuses, and what is wrong with a file", () => {
    const bad = written("bad.fit", RIDE.subarray(0, 2000)), none = join(WORK, "none.fit")
    const done = command(["check", PATH, bad, none, WORK, "-"], "text")
    assert.equal(done.said, `${GOOD}${bad}: truncated at byte 2000\n-: refused at byte 1: Protocol (this is text)\n`)
    assert.deepEqual([done.status, done.faults], [4, `${none}: No such file or directory\n${WORK}: Is a directory\n`])
    for (const name of ["table", "to-csv", "show", "json"]) {
        const whole = command([name, PATH]).said, cut = command([name, "-"], RIDE.subarray(0, 2000))
        assert.deepEqual([cut.status, cut.faults], [1, "-: truncated at byte 2000\n"])
        assert.ok(cut.said.length > 0 && cut.said.length < whole.length && whole.startsWith(cut.said))
    }
    assert.deepEqual(command(["from-csv", PATH]).faults, `${PATH}: row 1 refused (this is a FIT file)\n`)
})

test("check --json", () => {
    const told = command(["check", "--json", PATH, join(WORK, "none"), "-"], "{}").said.trim().split("\n").map(JSON.parse)
    assert.deepEqual(told[0], { file: PATH, good: true, files: 1, place: null, reason: null, is: null, text: "ok" })
    assert.deepEqual(told[1], { file: join(WORK, "none"), good: false, error: "No such file or directory" })
    assert.deepEqual([told[2].good, told[2].is, told[2].place], [false, "JSON", 1])
})

test("both ways, and what is mended", () => {
    const text = command(["to-csv", PATH]).stdout, into = join(WORK, "into.fit")
    assert.deepEqual(command(["from-csv"], text).stdout, RIDE)
    assert.equal(command(["from-csv", "-o", into], text).said, "")
    assert.deepEqual(readFileSync(into), RIDE)
    const cut = written("cut.fit", RIDE.subarray(0, 2000))
    assert.equal(command(["mend", cut, into]).status, 2)
    const done = command(["mend", "--force", cut, into])
    assert.deepEqual([done.status, done.faults], [0, `${cut}: truncated at byte 2000; mended: ${readFileSync(into).length} of 2000 bytes\n`])
    assert.equal(command(["check", into]).said, `${into}: ok, 1 file\n`)
    assert.deepEqual(command(["mend"], RIDE.subarray(0, 2000)).stdout, readFileSync(into))
    assert.equal(command(["mend", cut.replace("cut", "none"), join(WORK, "no.fit")]).status, 4)
    assert.ok(!existsSync(join(WORK, "no.fit")))
})

test("a file isn't read and written", () => {
    const path = written("same.fit", RIDE)
    assert.equal(command(["table", "-o", path, path]).status, 2)
    assert.deepEqual(readFileSync(path), RIDE)
})

test("a gzip and a zip file are read as the file in them", () => {
    const wanted = command(["table", PATH]).said
    const packed = [gzipSync(RIDE), Buffer.concat([gzipSync(RIDE.subarray(0, 99)), gzipSync(RIDE.subarray(99))]), zipped([["r.fit", RIDE]]),
        zipped([["a/readme.txt", RIDE], ["__MACOSX/._r.fit", RIDE], ["a/R.FIT", RIDE]], { packing: 0 })]
    for (const data of packed) {
        const path = written("packed", data)
        for (const done of [command(["table", path]), command(["table"], data)]) assert.deepEqual([done.status, done.said, done.faults], [0, wanted, ""])
    }
})

test("what can't be unpacked is told", () => {
    const whole = gzipSync(RIDE), zip = zipped([["a.fit", RIDE]])
    const cases = [
        [whole.subarray(0, -20), "the gzip file ends too soon"],
        [Buffer.concat([whole.subarray(0, -8), word(4, 0), whole.subarray(-4)]), "the gzip file is damaged"],
        [zipped([["a.txt", RIDE]]), "a zip file without a FIT file"], [zipped([["a.fit", RIDE], ["b.fit", RIDE]]), "a zip file with 2 FIT files"],
        [zipped([["a.fit", RIDE]], { packing: 12 }), "packed in an unusual way"], [zipped([["a.fit", RIDE]], { flags: 1 }), "a zip file with a password"],
        [zipped([["a.fit", RIDE]], { sum: 5 }), "isn't what its checksum says"], [zip.subarray(0, -30), "the zip file is damaged"],
        [Buffer.from("PK"), "the zip file is damaged"],
        [zipped(Array.from({ length: 6000 }, (_, k) => [String(k).padStart(200, "0"), Buffer.alloc(0)])), "the list of its files is too long"],
        [zipped([["a.fit", Buffer.from("text")]]), "(this is text)"], [gzipSync(whole), "(this is a gzip file)"],
    ]
    for (const [data, part] of cases) {
        const { status, said, faults } = command(["check"], data)
        assert.equal(status, 1, part)
        assert.ok((said + faults).includes(part) && !faults.includes("    at "), said + faults)
    }
})

test("whatever byte is changed, it is the bytes that were packed, or the reason is told", async () => {
    const path = join(WORK, "changed")
    let refused = 0
    for (const data of [gzipSync(RIDE), zipped([["a.fit", RIDE]])])
        for (let at = 2; at < data.length; at += 7) {
            const changed = Buffer.from(data)
            changed[at] ^= 0xff
            writeFileSync(path, changed)
            try {
                assert.deepEqual(await new Input({ name: path }, new Progress()).bytes(), RIDE)
            } catch (error) {
                assert.equal(error.constructor.name, error.constructor.name === "NoFitFile" ? "NoFitFile" : "NotUnpacked", error)
                refused++
            }
        }
    assert.ok(refused > 100)
})

test("what unpacks to very much ends with an answer", () => {
    const much = Buffer.alloc(Math.ceil(MOST / RIDE.length) * RIDE.length + 1, RIDE)
    for (const path of [written("bomb.fit.gz", gzipSync(much, { level: 1 })), written("bomb.zip", zipOf(deflateRawSync(much, { level: 1 }), much.length))]) {
        const { status, faults } = command(["check", path])
        assert.deepEqual([status, faults.includes("has more than 268,435,456 bytes in it")], [1, true], faults)
    }
})

/* A zip file of one file, whose checksum is wrong. */
function zipOf(packed, size) {
    const told = Buffer.concat([word(2, 20), word(2, 0), word(2, 8), word(4, 0), word(4, 0), word(4, packed.length), word(4, size), word(2, 5), word(2, 0)])
    const entry = Buffer.concat([word(4, 0x02014b50), word(2, 20), told, word(2, 0), word(2, 0), word(2, 0), word(4, 0), word(4, 0), Buffer.from("a.fit")])
    const end = [word(4, 0x06054b50), word(4, 0), word(2, 1), word(2, 1), word(4, entry.length), word(4, 35 + packed.length), word(2, 0)]
    return Buffer.concat([word(4, 0x04034b50), told, Buffer.from("a.fit"), packed, entry, ...end])
}

test("folders are read in the order of names", () => {
    const top = join(WORK, "rides")
    for (const name of ["b.fit", "a/2.fit", "a/10.FIT", "notes.txt", "f/none.txt"]) written(`rides/${name}`, RIDE)
    written("rides/c.fit.gz", gzipSync(RIDE))
    written("rides/d.zip", zipped([["x.fit", RIDE]]))
    written("rides/e.zip", zipped([["x.txt", RIDE]]))
    symlinkSync(top, join(top, "a/loop.fit"))
    const { status, said, faults } = command(["check", "-r", PATH, top, "-"], RIDE)
    const found = ["a/10.FIT", "a/2.fit", "b.fit", "c.fit.gz", "d.zip"].map(name => join(top, name))
    assert.deepEqual([said.split("\n").map(line => line.split(": ")[0]), status, faults], [[PATH, ...found, "-", ""], 0, ""])
    assert.deepEqual(command(["table", "--recursive", join(top, "f")]).faults, `${join(top, "f")}: there is no FIT file in it\n`)
})

test("a name can't end a line, move the cursor or hide letters", () => {
    assert.equal(shown("a b\nc\x1b[2J\u202e\u2028\u{e0001}é"), "a b\\nc\\x1b[2J\\u202e\\u2028\\U000e0001é")
    for (const name of ["x\nride.fit: ok.fit", "\x1b[2J.fit"]) written(`names/${name}`, RIDE)
    const { said } = command(["check", "-r", join(WORK, "names")])
    assert.deepEqual([said.split("\n").length, said.includes("\x1b")], [3, false])
})

test("what a file is, by its first bytes", () => {
    for (const { front, kind } of JSON.parse(textAt("tests/cases/kinds.json"))) assert.equal(kindOf(Buffer.from(front, "hex")), kind, front)
})

test("the command of Python says the same", needs("python3"), async () => {
    const paths = Object.entries(await allFiles()).map(([name, data]) => written(`all/${name}`, data))
    const env = { ...process.env, PYTHONPATH: inTree("python") }
    const python = words => spawnSync(program("python3"), ["-m", "gazhdor", ...words], { env, maxBuffer: 2 ** 28 })
    for (const words of [["check"], ["table"], ["to-csv"], ["show"], ["gpx"], ["check", "--json"]]) {
        const { status, said, faults } = command([...words, ...paths], "", { maxBuffer: 2 ** 28 }), other = python([...words, ...paths])
        const plain = words[1] === "--json" ? text => text.trim().split("\n").map(JSON.parse) : text => text
        assert.deepEqual([status, plain(said), faults], [other.status, plain(`${other.stdout}`), `${other.stderr}`], words.join(" "))
    }
    const tsv = written("own.tsv", "message\tmessage name\tfield\tfield name\tunit\tscale\toffset\ttype\nrecord\t\t3\tpulse\t1/min\t7\n140\tphysiology\n")
    for (const more of [[], ["--numbers"], ["--ready"], ["--extra"], ["--names", tsv, "--extra", "--numbers"], ["--extra", "--ready"]]) {
        const lines = said => `${said}`.trim().split("\n")
        const [own, other] = [command(["json", ...more, ...paths], "", { maxBuffer: 2 ** 28 }).said, python(["json", ...more, ...paths]).stdout].map(lines)
        assert.equal(own.length, other.length)
        // Of values ready to use a number that is no exact one is a text in JavaScript.
        const number = (_, value) => (typeof value === "string" && /^-?\d{16,}$/.test(value) ? Number(value) : value)
        own.forEach((line, k) => assert.deepEqual(JSON.parse(line, number), JSON.parse(other[k], number)))
    }
})

test("Ctrl-C ends it with 130, and says nothing", async () => {
    for (const name of ["check", "table", "json"]) {
        const process_ = spawn(process.execPath, [COMMAND, name, PATH, "-"], { stdio: ["pipe", "pipe", "pipe"] })
        let faults = ""
        process_.stderr.on("data", piece => { faults += piece })
        process_.stdin.write(RIDE.subarray(0, 1000))
        // What it says of the first file comes before it waits for the second.
        await new Promise(done => process_.stdout.once("data", done))
        process_.kill("SIGINT")
        const [status, signal] = await new Promise(done => process_.on("exit", (...told) => done(told)))
        assert.deepEqual([status, signal, faults], [130, null, ""], name)
    }
})

test("no bytes go to a terminal, and a line of progress comes and goes", needs("script"), async () => {
    const onTerminal = line => spawnSync("script", ["-qec", line, "/dev/null"], { input: "" }).stdout.toString()
    const gazhdor = `'${process.execPath}' '${COMMAND}'`
    const refused = /what it writes is no text, and the output is a terminal/
    for (const name of ["mend", "from-csv"]) assert.match(onTerminal(`${gazhdor} ${name} '${PATH}'`), refused)
    assert.match(onTerminal(`${gazhdor} table '${PATH}'`), /^file,/)
    const slowly = `(head -c 99 '${PATH}'; sleep 3; tail -c +100 '${PATH}')`
    assert.match(onTerminal(`${slowly} | ${gazhdor} check`), /^(\r\x1b\[Kstandard input: 0\.0 MB)+\r\x1b\[K-: ok, 1 file\r\n$/)
    assert.ok(!onTerminal(`${slowly} | ${gazhdor} show`).includes("\x1b"))
    assert.equal(onTerminal(`${gazhdor} check '${PATH}'`), GOOD.replace("\n", "\r\n"))
})

test("output that fails", () => {
    const done = spawnSync("sh", ["-c", `'${process.execPath}' '${COMMAND}' to-csv '${PATH}' > /dev/full`])
    assert.deepEqual([done.status, `${done.stderr}`], [4, "output: No space left on device\n"])
    const closed = spawnSync("bash", ["-c", `'${process.execPath}' '${COMMAND}' to-csv ${`'${PATH}' `.repeat(40)} | head -c 3; echo " \${PIPESTATUS[0]}"`])
    assert.deepEqual([`${closed.stdout}`, `${closed.stderr}`], ["row 4\n", ""])
})
