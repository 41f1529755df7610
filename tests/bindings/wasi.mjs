// Runs a program for WebAssembly with WASI: node --no-warnings wasi.mjs PROGRAM
// ARGUMENT..
import {readFile} from 'node:fs/promises';
import {WASI} from 'node:wasi';

const args = process.argv.slice(2);
const wasi = new WASI({version: 'preview1', args, env: process.env});
const module = await WebAssembly.compile(await readFile(args[0]));
const program = await WebAssembly.instantiate(module, wasi.getImportObject());
process.exitCode = wasi.start(program);
