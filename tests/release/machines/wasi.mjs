// Runs a WebAssembly program with the WASI of Node: PROGRAM ARGUMENT..
import { readFile } from 'node:fs/promises';
import { WASI } from 'node:wasi';

const words = process.argv.slice(2);
const wasi = new WASI({
  version: 'preview1', args: words, env: process.env, preopens: { '/': '/' }, returnOnExit: true,
});
const program = await WebAssembly.compile(await readFile(words[0]));
process.exitCode = wasi.start(await WebAssembly.instantiate(program, wasi.getImportObject()));
