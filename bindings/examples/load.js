// Loads a file over an environment, in Node, by the module of load_node.c.
const load = require(process.argv[2]);

const file = Buffer.from('HOST=localhost\nURL=http://${HOST}:${PORT}/\nUSER=a b\n');
const block = Buffer.from('PORT=9\0');
const [, , blockLength, textLength] = load(file, block, Buffer.alloc(0)); // how long is the result?
const out = Buffer.alloc(blockLength + textLength);
const [status, fits] = load(file, block, out);
if (!fits) throw new Error(`status ${status}`);
process.stdout.write(out.subarray(0, blockLength).toString().replaceAll('\0', '\n'));
if (status !== 0) console.log(`error ${status}: ${out.subarray(blockLength)}`);
