// Runs the program pie of dist/wasm/ in a browser's worker or in Node. A run has an instance and a memory of its own.

const NO_FILE = -2, IO = -5, BAD_FILE = -9;
const BLOCK = 1 << 20;
const STANDARD_INPUT = ["/dev/stdin", "/dev/fd/0", "/proc/self/fd/0"];

/** Ends a run: thrown by the program's exit, and by `write` to end it early. */
export class Exit {
    constructor(status) {
        this.status = status;
    }
}

/** Returns a function that returns at most `room` bytes of a source from `at` on. A Blob is read in blocks, by a worker. */
function reader(source) {
    if (source instanceof Uint8Array) return (at, room) => source.subarray(at, at + room);
    const files = new FileReaderSync(), { port1: away, port2: closed } = new MessageChannel();
    closed.close();
    let from = 0, block = new Uint8Array(0);
    return (at, room) => {
        if (at < from || at >= from + block.length) {
            from = at;
            away.postMessage(null, [block.buffer]); // (frees the last block now: a collector would keep some hundred of them)
            block = new Uint8Array(files.readAsArrayBuffer(source.slice(at, at + BLOCK)));
        }
        return block.subarray(at - from, at - from + room);
    };
}

/**
 * Runs the program once. Returns `status`, its exit status, or null if it ended by a trap, and `memory`, the bytes of its memory.
 * `words` are its arguments. `files` has the files that it can read, by name: each a Uint8Array, or a Blob in a worker. `input` is standard input.
 * `write(number, bytes)` receives a copy of each output: 1 is standard output, and 2 standard error. `onRead(count)` receives the number of bytes of
 * each read.
 */
export function run(module, words, { files = {}, input = new Uint8Array(0), write = () => {}, onRead = () => {} } = {}) {
    const texts = ["pie", ...words].map((word) => new TextEncoder().encode(word));
    const opened = [{ read: reader(input), at: 0, size: 0 }, null, null];
    let memory;
    const bytes = (at, length) => new Uint8Array(memory.buffer, at >>> 0, length >>> 0);
    const host = {
        argument(index, buffer, room) {
            const text = texts[index];
            if (text === undefined) return -1;
            bytes(buffer, Math.min(room >>> 0, text.length)).set(text.subarray(0, room >>> 0));
            return text.length;
        },
        open(path, length) {
            const name = new TextDecoder().decode(bytes(path, length).slice());
            if (STANDARD_INPUT.includes(name)) return opened.push(opened[0]) - 1;
            if (!Object.hasOwn(files, name)) return NO_FILE;
            return opened.push({ read: reader(files[name]), at: 0, size: files[name].size ?? files[name].length }) - 1;
        },
        read(file, buffer, room) {
            const it = opened[file];
            if (!it) return BAD_FILE;
            let part;
            try {
                part = it.read(it.at, room);
            } catch {
                return IO; // (the file changed, or is no longer there)
            }
            bytes(buffer, part.length).set(part);
            it.at += part.length;
            onRead(part.length);
            return part.length;
        },
        size: (file) => opened[file]?.size ?? 0,
        write(file, buffer, length) {
            if (file !== 1 && file !== 2) return BAD_FILE;
            write(file, bytes(buffer, length).slice());
            return length;
        },
        now: () => Math.floor(performance.now() * 1e6),
        exit(status) {
            throw new Exit(status);
        },
    };
    const { exports } = new WebAssembly.Instance(module, { host });
    memory = exports.memory;
    let status = null;
    try {
        status = exports.run();
    } catch (why) {
        if (why instanceof Exit) status = why.status;
        else if (why instanceof WebAssembly.RuntimeError || why instanceof RangeError) write(2, new TextEncoder().encode(`pie: ${why.message}\n`));
        else throw why;
    }
    return { status, memory: memory.buffer.byteLength };
}
