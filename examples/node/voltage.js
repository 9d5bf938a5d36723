// An output voltage from Node.js: its code, the packet error code of the packet that sets it, and what
// a capture of that packet says. binding.c is the library's binding; Node's headers come with it.
//
//     cc -O2 -D_FORTIFY_SOURCE=3 -fstack-protector-strong -Wl,-z,relro,-z,now -shared -fPIC -Iinclude \
//         -I"$(dirname "$(dirname "$(command -v node)")")/include/node" \
//         examples/node/binding.c release/libpmb.a -o pmb.node
//     node examples/node/voltage.js ./pmb.node
'use strict'

const pmb = require(require('path').resolve(process.argv[2]))

const MODE = 0x17 // VOUT_MODE: steps of 2^-9 V
const hex = (number, digits = 2) => number.toString(16).padStart(digits, '0')

const code = pmb.encode(MODE, '3.3')
console.log(`3.3 V is ${hex(code, 4)}, which is ${pmb.decode(MODE, code)}`)

const packet = Buffer.from([0xb0, 0x21, code & 0xff, code >> 8])
const pec = pmb.pec(packet)
console.log(`its packet error code is ${hex(pec)}`)

const profile = "[[device]]\naddress = 0x58\npec = 'on'\nvout_mode = 0x17"
const bytes = [...packet, pec].map(byte => `${hex(byte)} A`).join(' ')
process.stdout.write(pmb.show(profile, `S ${bytes} P`))

try {
  pmb.encode(MODE, '128')
} catch (error) {
  console.log(`128 V: ${error.message}, PMB_ABOVE`)
}
