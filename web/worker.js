// The worker of the page: it runs the program for one request at a time.
"use strict";
let program = null, unpacker = null;

/**
 * Returns a function that receives CSV and keeps its header and its rows: those whose field `column` passes the test `match`, at most `limit`. It
 * ends the run after the last of them.
 */
function rowKeeper({ limit, match }, kept) {
    const decoder = new TextDecoder();
    let rest = "", at = -1;
    return (bytes) => {
        const lines = (rest + decoder.decode(bytes, { stream: true })).split("\n");
        rest = lines.pop();
        for (const line of lines) {
            const row = line.split(",");
            if (kept.length === 0) at = match ? row.indexOf(match.column) : -1;
            else if (match && !fits(row[at], match)) continue;
            kept.push(row);
            if (kept.length > limit) throw new Exit(0);
        }
    };
}

/** Returns true if a field is the value, begins with it, or is a tag of that flow. */
function fits(field, { value, begins, flow }) {
    if (flow !== undefined) return BigInt(field || 0) >> 32n === BigInt(flow);
    return begins ? field.startsWith(value) : field === value;
}

/** Runs the program for a request, and posts the answer. */
function answer({ id, words, files, input, rows }) {
    const out = [], errors = [], kept = [];
    const keep = rows ? rowKeeper(rows, kept) : (bytes) => out.push(bytes);
    let read = 0, told = 0;
    const onRead = (count) => {
        read += count;
        if (performance.now() - told < 100) return;
        told = performance.now();
        postMessage({ id, read });
    };
    const { status, memory } = run(program, words, { files, input, write: (to, bytes) => (to === 1 ? keep(bytes) : errors.push(bytes)), onRead });
    postMessage({ id, status, memory, out: rows ? null : new Blob(out), rows: kept, errors: new Blob(errors) });
}

/** Unpacks a file of xz for a request, and posts the text. The browser may keep its parts in a file. */
function unpack({ id, packed }) {
    const { exports } = new WebAssembly.Instance(unpacker), bytes = () => new Uint8Array(exports.memory.buffer);
    const next = reader(packed), parts = [];
    let at = 0, hasEnded = false;
    for (;;) {
        const given = exports.left() > 0 ? [] : next(at, 1 << 18);
        if (given.length === 0 && exports.left() === 0) break;
        bytes().set(given, exports.input());
        at += given.length;
        const code = exports.step(given.length);
        if (code > 1) throw new Error("this file of xz is damaged");
        hasEnded = code === 1;
        parts.push(new Blob([bytes().slice(exports.output(), exports.output() + exports.made())]));
    }
    if (!hasEnded) throw new Error("this file of xz is cut off");
    postMessage({ id, out: new Blob(parts) });
}

onmessage = ({ data }) => {
    if (data.program) ({ program, unpacker } = data);
    else if (data.packed) unpack(data);
    else answer(data);
};
