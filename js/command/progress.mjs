/* A line on a terminal that says how far a command has come, where that takes over a second. */

const AFTER = 1000, EACH = 200, LONGEST = 40

/* A name as a line shows it: letters that would move the cursor, end the line or hide others by their numbers. */
export function shown(name) {
    return name.replace(/[\p{C}\p{Zl}\p{Zp}]|(?! )\p{Zs}/gu, letter => {
        if (letter === "\n") return "\\n"
        if (letter === "\r") return "\\r"
        if (letter === "\t") return "\\t"
        const code = letter.codePointAt(0).toString(16)
        return code.length <= 2 ? `\\x${code.padStart(2, "0")}` : code.length <= 4 ? `\\u${code.padStart(4, "0")}` : `\\U${code.padStart(8, "0")}`
    })
}

/* The line. It isn't there in a pipe, or where the terminal shows what is written. */
export class Progress {
    #isOn
    #next = performance.now() + AFTER
    #isThere = false
    #name = ""
    #size = null
    #count = 0
    #files = 0

    constructor(isTextShown = false) {
        this.#isOn = Boolean(process.stderr.isTTY) && process.env.TERM !== "dumb" && !isTextShown
    }

    /* A file, of that many bytes where that is known. */
    begin(name, size) {
        const told = shown(name === "-" ? "standard input" : name)
        this.#name = told.length <= LONGEST ? told : `...${told.slice(-LONGEST)}`
        this.#size = size
        this.#count = 0
        this.#files++
    }

    forgetSize() { this.#size = null }

    /* So many bytes more were read. */
    step(count) {
        this.#count += count
        if (!this.#isOn || performance.now() < this.#next) return
        this.#next = performance.now() + EACH
        this.#isThere = true
        process.stderr.write(`\r\x1b[K${this.#line()}`)
    }

    #line() {
        const number = this.#files > 1 ? `file ${this.#files}: ` : "", millions = count => (count / 1e6).toFixed(1)
        const far = this.#size && this.#count <= this.#size ? ` of ${millions(this.#size)}, ${Math.floor(100 * this.#count / this.#size)} %` : ""
        return `${number}${this.#name}: ${millions(this.#count)} MB${far}`
    }

    /* Takes the line away, before something else is written. */
    clear() {
        if (this.#isThere) process.stderr.write("\r\x1b[K")
        this.#isThere = false
    }
}
