/* Uploads to the program of docs/RECIPES.md for Node, which stands in the folder where this runs. */
import assert from "node:assert/strict"
import { readFileSync } from "node:fs"
import { pathToFileURL } from "node:url"

const { server } = await import(pathToFileURL("upload.mjs"))
await new Promise((ready) => server.listen(0, "127.0.0.1", ready))
const ask = async (body) => {
    const answer = await fetch(`http://127.0.0.1:${server.address().port}/`, { method: "POST", body })
    return [answer.status, await answer.text()]
}
const ride = readFileSync("activity.fit")
assert.deepEqual(await ask(ride), [200, "2 laps"])
const [status, said] = await ask(Buffer.concat([Buffer.from("PK"), ride]))
assert.ok(status === 422 && said.includes("refused at byte 1: Protocol"), said)
assert.equal((await ask(ride.subarray(0, 1000)))[0], 422)
server.close()
