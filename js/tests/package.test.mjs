/* The example, the package as npm makes and installs it without a network, and its types. */
import assert from "node:assert/strict"
import { spawnSync } from "node:child_process"
import { copyFileSync, mkdirSync, readdirSync, writeFileSync } from "node:fs"
import { join } from "node:path"
import { test } from "node:test"
import { folder, inTree, needs, textAt } from "./tools.mjs"

const WANTED = "ok\nlap  2026-05-17T07:30:00.000Z  8558.46 m\n144 records, up to 425 m\n"
const work = folder()

/* What a command writes, its faults included. */
function said(command, ...words) {
    const env = { ...process.env, npm_config_cache: join(work, "cache"), npm_config_update_notifier: "false" }
    const { status, stdout, stderr } = spawnSync(command, words, { encoding: "utf8", env })
    assert.equal(status, 0, stdout + stderr)
    return stdout + stderr
}

test("the example", () => {
    assert.equal(said(process.execPath, inTree("js/example.mjs"), inTree("examples/ride.fit")), WANTED)
})

test("the package, installed", needs("npm"), () => {
    const user = join(work, "user")
    said(inTree("js/pack"), work)
    mkdirSync(user)
    writeFileSync(join(user, "package.json"), '{ "private": true, "type": "module" }')
    const made = join(work, `gazhdor-${textAt("VERSION").trim()}.tgz`)
    said("npm", "install", "--silent", "--offline", "--no-audit", "--no-fund", "--prefix", user, made)
    writeFileSync(join(user, "own.mjs"), textAt("js/example.mjs").replace('"./gazhdor.mjs"', '"gazhdor"'))
    assert.equal(said(process.execPath, join(user, "own.mjs"), inTree("examples/ride.fit")), WANTED)
    assert.equal(said(join(user, "node_modules/.bin/gazhdor"), "check", inTree("examples/ride.fit")), `${inTree("examples/ride.fit")}: ok, 1 file\n`)
    const names = ["LICENSE", "README.md", "command", "example.mjs", "gazhdor.d.ts", "gazhdor.mjs", "gazhdor.wasm", "package.json", "src", "worker.mjs"]
    assert.deepEqual(readdirSync(join(user, "node_modules/gazhdor")).sort(), names)
})

test("the types", needs("tsc"), () => {
    const to = join(work, "types")
    mkdirSync(to)
    copyFileSync(inTree("js/tests/types.ts"), join(to, "types.ts"))
    copyFileSync(inTree("js/gazhdor.d.ts"), join(to, "gazhdor.d.mts"))
    const how = { noEmit: true, strict: true, target: "es2022", lib: ["es2022", "dom", "dom.iterable"], module: "es2022", moduleResolution: "node", types: [] }
    writeFileSync(join(to, "tsconfig.json"), JSON.stringify({ files: ["types.ts"], compilerOptions: how }))
    said("tsc", "-p", to)
})
