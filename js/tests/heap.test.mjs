/* The heap of the module and its arithmetic of 128 bits, by themselves. */
import assert from "node:assert/strict"
import { spawnSync } from "node:child_process"
import { join } from "node:path"
import { test } from "node:test"
import { CC, folder, inTree, needs } from "./tools.mjs"

function good(command, ...words) {
    const { status, stdout, stderr } = spawnSync(command, words, { encoding: "utf8" })
    assert.equal(status, 0, stdout + stderr)
}

test("the heap and the arithmetic", needs("cc"), () => {
    const program = join(folder(), "heap")
    const how = ["-std=gnu11", "-O2", "-Wall", "-Wextra", "-Werror", "-no-pie", "-Wl,--defsym=__heap_base=0x10000010"]
    good(CC, ...how, inTree("js/tests/heap.c"), "-o", program)
    good(program)
})
