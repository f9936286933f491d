// Runs a test that is built for wasm64: node --experimental-wasm-memory64 run.mjs MODULE WORD..
import fs from 'node:fs';

const words = process.argv.slice(2);
const chunk = Buffer.alloc(1 << 16);
const input = { content: chunk.subarray(0, 0), at: 0 };
const files = [null, null, input];
let memory;
const bytes = (at, length) => Buffer.from(memory.buffer, Number(at), Number(length));
const put = (at, found) => {
  bytes(at, found.length).set(found);
  return BigInt(found.length);
};
// Whether bytes of a file are left; those of standard input come a chunk at a time.
const isLeft = (file) => {
  if (file === input && file.at === file.content.length) {
    input.content = chunk.subarray(0, fs.readSync(0, chunk));
    input.at = 0;
  }
  return file.at < file.content.length;
};
const env = {
  host_write: (at, length) => fs.writeSync(1, bytes(at, length)),
  host_open: (at, length) => {
    try {
      files.push({ content: fs.readFileSync(bytes(at, length).toString()), at: 0 });
      return BigInt(files.length - 1);
    } catch {
      return 0n;
    }
  },
  host_read: (number, at, length) => {
    const file = files[Number(number)];
    const to = bytes(at, length);
    let found = 0;
    while (found < to.length && isLeft(file)) {
      const part = file.content.subarray(file.at, file.at + to.length - found);
      to.set(part, found);
      file.at += part.length;
      found += part.length;
    }
    return BigInt(found);
  },
  host_word: (number, at, length) => put(at, Buffer.from(words[Number(number)]).subarray(0, Number(length))),
  host_exit: (status) => process.exit(Number(status)),
};
const { instance } = await WebAssembly.instantiate(fs.readFileSync(words[0]), { env });
memory = instance.exports.memory;
process.exitCode = Number(instance.exports.run(BigInt(words.length)));
