#!/usr/bin/env node
/* The command gazhdor, which npm installs: over the module, so that it is the same on Linux, macOS and Windows. */
import { run } from "./running.mjs"

await run(process.argv.slice(2))
