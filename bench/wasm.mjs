/* Prints the seconds that a processor works for a call of the module, the best of some: node wasm.mjs CALL FILE */
import { readFileSync } from "node:fs"
import { Core, copied } from "../js/src/core.mjs"

const [call, path] = process.argv.slice(2)
const bytes = readFileSync(path)
const { instance } = await WebAssembly.instantiate(readFileSync(new URL("../js/gazhdor.wasm", import.meta.url)), {})
const core = new Core(instance)
let best = Infinity
for (let k = 0; k < 8; k++) {
    const began = process.cpuUsage()
    const answer = call === "check" ? core.check(bytes) : core.make(call, bytes, copied)[0]
    const { user, system } = process.cpuUsage(began)
    if (!answer.good) throw new Error(`${answer}`)
    best = Math.min(best, (user + system) / 1e6)
}
console.log(best)
