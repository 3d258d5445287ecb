#!/usr/bin/env node
// Runs the program of dist/wasm/ in Node: node web/run.mjs pie.wasm WORDS.. The files that it can read are those that the words name, and standard input.
import { existsSync, readFileSync, statSync, writeSync } from "node:fs";
import { run } from "./pie.js";

const [program, ...words] = process.argv.slice(2);
const isFile = (name) => existsSync(name) && statSync(name).isFile();
const files = Object.fromEntries(words.filter(isFile).map((name) => [name, new Uint8Array(readFileSync(name))]));
const readsInput = !process.stdin.isTTY && !Object.keys(files).length;
const write = (file, bytes) => {
    for (let at = 0; at < bytes.length; ) at += writeSync(file, bytes, at);
};
const input = readsInput ? new Uint8Array(readFileSync(0)) : undefined;
const { status } = run(new WebAssembly.Module(readFileSync(program)), words, { files, input, write });
process.exitCode = status ?? 134;
