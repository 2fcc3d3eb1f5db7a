/* The page: hands files to the Worker, and what that found to what shows it. */
import { byId } from "./element.mjs"
import { say, sayFound, sayReading } from "./finding.mjs"
import { GivenUp, ask, isBusy, start, startsSoFar } from "./link.mjs"
import { readSettings } from "./settings.mjs"
import { redraw, saveShown, show, showBeside } from "./shown.mjs"

let turn = 0 // the number of the file that was taken last: what belongs to an older one says nothing

const state = word => { document.body.dataset.state = word }
const restart = () => start(error => say("bad", `This browser can't run the module: ${error.message}`))

/* What sees that the Worker has the ride of which something is to be saved: another one has to get it anew. */
function holder(bytesOf) {
    let held = startsSoFar()
    return async () => {
        const now = startsSoFar()
        if (held === now) return
        const data = await bytesOf()
        await ask("hold", data, { memory: [data] })
        held = now
    }
}

/* Takes a file: reads it, and shows it, beside the one that is shown where that is asked for. `bytesOf` gives its bytes. Returns whether it is
 * shown. */
async function taken(name, bytesOf, call = "ride") {
    const mine = ++turn, began = performance.now(), isMine = () => mine === turn
    state("reading")
    if (call === "ride") byId("shown").hidden = true
    if (isBusy()) restart()
    const move = sayReading(name, () => { turn++; restart(); say("", `${name}: stopped`); state("failed") })
    try {
        const data = await bytesOf()
        if (!isMine()) return false
        const ride = await ask(call, data, { memory: [data], tell: done => { if (isMine()) move(done) } })
        if (!isMine()) return false
        sayFound(name, ride, performance.now() - began)
        if (call === "ride") show(name, ride, holder(bytesOf))
        else showBeside(name, ride)
        state("shown")
        return true
    } catch (error) {
        if (!isMine() || error instanceof GivenUp) return false
        say("bad", `${name}: not read: ${error.message}`)
        state("failed")
        return false
    }
}

/* Takes the files that were chosen or dropped: the first, and a second one beside it. */
async function takeAll(files, call) {
    const [first, second] = files
    if (first === undefined || !await taken(first.name, () => first.arrayBuffer(), call) || second === undefined) return
    if (call === "ride") await taken(second.name, () => second.arrayBuffer(), "beside")
}

/* An input that can choose the same file once more. */
function chooses(input, call) {
    input.onchange = () => {
        const files = [...input.files]
        input.value = ""
        takeAll(files, call)
    }
}

function listen() {
    for (const button of document.querySelectorAll("#save button")) button.onclick = () => saveShown(button, button.id)
    chooses(byId("file"), "ride")
    chooses(byId("other"), "beside")
    byId("example").onclick = async () => taken("example.fit", async () => (await ask("example")).buffer)
    document.ondragover = event => { event.preventDefault(); byId("drop").classList.add("over") }
    document.ondragleave = () => byId("drop").classList.remove("over")
    document.ondrop = event => {
        event.preventDefault()
        byId("drop").classList.remove("over")
        takeAll([...event.dataTransfer.files], "ride")
    }
    let width = 0
    new ResizeObserver(() => {
        if (document.body.clientWidth !== width) redraw()
        width = document.body.clientWidth
    }).observe(document.body)
}

readSettings()
restart()
listen()
state("ready")
