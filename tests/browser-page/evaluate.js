// Evaluates expressions in the page's first script, which needs no document, and writes their values:
//
//     node evaluate.js PAGE
//
// Each line of standard input is a JavaScript expression as a JSON string. The line that answers it is a pair in JSON: the value and
// null, or null and the error. In the expressions, `base64` has the module.
'use strict'

const fs = require('fs')
const readline = require('readline')
const v8 = require('v8')
const vm = require('vm')

v8.setFlagsFromString('--experimental-wasm-memory64') // node 20 to 23 have 64-bit memories only with it

const page = fs.readFileSync(process.argv[2], 'utf8')
const context = vm.createContext({
  WebAssembly, TextEncoder, TextDecoder, atob, btoa, Uint8Array, Uint32Array, // what the script uses beside the language itself
  base64: /<script id="module"[^>]*>([^<]*)</.exec(page)[1]
})
vm.runInContext(/<script>([^]*?)<\/script>/.exec(page)[1], context)

async function answers() {
  for await (const line of readline.createInterface({ input: process.stdin })) {
    let answer
    try {
      answer = [await vm.runInContext(JSON.parse(line), context), null]
    } catch (why) {
      answer = [null, `${why.name}: ${why.message}`]
    }
    process.stdout.write(`${JSON.stringify(answer)}\n`)
  }
}
answers()
