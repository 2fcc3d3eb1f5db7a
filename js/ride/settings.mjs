/* What the user chose, kept in the part of the page's address that no browser sends: after its #. */

const KNOWN = { units: /^miles$/, by: /^distance$/, colour: /^\w{1,20}$/, power: /^[\d\s,;.]{1,80}$/, heart: /^[\d\s,;.]{1,80}$/ }

export const settings = {}

/* Reads them from the address. */
export function readSettings() {
    const told = new URLSearchParams(location.hash.slice(1))
    for (const [name, form] of Object.entries(KNOWN)) settings[name] = form.test(told.get(name) ?? "") ? told.get(name) : ""
}

/* Sets one, and writes them into the address. */
export function keep(name, value) {
    if (settings[name] === value) return
    settings[name] = value
    const told = new URLSearchParams(Object.entries(settings).filter(([, one]) => one !== ""))
    history.replaceState(null, "", `#${told}`)
}
