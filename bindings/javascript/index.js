// PIE (RFC 8033) for a queue that the caller owns: the calls of include/pie.h in WebAssembly. index.d.ts describes each function.
import { bytes, CODES, STRUCTS, VERSION } from "./module.js";

const { exports } = new WebAssembly.Instance(await WebAssembly.compile(bytes));
const { memory } = exports;
// The structs of one call are behind the module's own memory, of which the last page is not used otherwise.
const PLACE = memory.grow(1) * 65536;
const [STATE, OPENING, PARAMS, EVENT, OUT] = [0, 256, 512, 768, 1024].map((it) => PLACE + it);
const ROOM = 2048;
const view = new DataView(memory.buffer), all = new Uint8Array(memory.buffer);
const state = all.subarray(STATE, STATE + STRUCTS.pie_state.size);

const VERDICTS = ["enqueue", "mark", "early", "bytes", "packets"];
const ECN = { not: 0, ect1: 1, ect0: 2, ce: 3 };
const CHOICES = { delayStamp: 1, pickRandom: 2, stepUncapped: 4, sizeScaled: 8, decayHalf: 16 };

/** An error of pie.h: `name` is its constant, such as PIE_TOO_SOON, and `code` its number. */
export class PieError extends Error {
    constructor(code) {
        const { name, text } = CODES[code] ?? { name: "PIE_UNKNOWN_CODE", text: `code ${code}` };
        super(text);
        Object.assign(this, { name, code });
    }
}

export const version = VERSION;

function checked(code) {
    if (code > 100) throw new PieError(code);
    return code;
}

/** Returns a whole number of at most so many bits as a bigint. */
function whole(value, bits, name) {
    if (typeof value !== "bigint" && !Number.isSafeInteger(value)) throw new RangeError(`${name} is ${value}, and not a whole number`);
    const made = BigInt(value);
    if (made < 0n || made >> BigInt(bits)) throw new RangeError(`${name} is ${value}, and not a number of ${bits} bits`);
    return made;
}
const long = (value, name) => whole(value, 64, name);
const short = (value, name) => Number(whole(value, 32, name));

const SETTERS = { 8: "setBigUint64", 4: "setUint32", 2: "setUint16", 1: "setUint8" };
const GETTERS = { 8: "getBigUint64", 4: "getUint32", 2: "getUint16", 1: "getUint8" };

/** Writes the fields that an object has to a struct of the module. A name that the struct lacks is an error. */
function write(struct, at, values) {
    for (const [name, value] of Object.entries(values)) {
        const field = STRUCTS[struct].fields[name];
        if (!field) throw new RangeError(`${struct} has no field ${name}`);
        const made = whole(value, 8 * field.size, name);
        view[SETTERS[field.size]](at + field.at, field.size === 8 ? made : Number(made), true);
    }
}

/** Returns the fields of a struct of the module. */
function read(struct, at) {
    const made = {};
    for (const [name, field] of Object.entries(STRUCTS[struct].fields)) {
        if (name === "params") made.params = read("pie_params", at + field.at);
        else made[name] = view[GETTERS[field.size]](at + field.at, true);
    }
    return made;
}

const text = (length) => new TextDecoder().decode(all.slice(OUT, OUT + length));

function code(names, value, name) {
    if (typeof value !== "string") return short(value, name);
    if (!Object.hasOwn(names, value)) throw new RangeError(`${name} is ${value}, and not one of ${Object.keys(names).join(", ")}`);
    return names[value];
}

/** Returns the default parameters for a link of `rate` bits per second; 0: unknown. */
export function defaultParams(rate = 0) {
    exports.pie_params_for(long(rate, "rate"), PARAMS);
    return read("pie_params", PARAMS);
}

/** A controller of one queue. */
export class Controller {
    #state = new Uint8Array(STRUCTS.pie_state.size);
    #write;

    constructor({ rate = 0, params = {}, choices, ...rest } = {}, { write: to } = {}) {
        exports.pie_default_opening(OPENING, long(rate, "rate"));
        write("pie_params", OPENING, params);
        write("pie_opening", OPENING, rest);
        if (choices !== undefined) write("pie_opening", OPENING, { choices: choices.reduce((sum, it) => sum | code(CHOICES, it, "choices"), 0) });
        checked(exports.pie_open(STATE, OPENING));
        this.#state.set(state);
        this.#write = to;
        to?.(text(exports.pie_write_opening(OPENING, OUT, ROOM)));
    }

    static of(bits) {
        if (bits.length !== STRUCTS.pie_state.size) throw new PieError(110);
        const made = new Controller();
        state.set(bits);
        checked(exports.pie_check_state(STATE));
        made.#state.set(bits);
        return made;
    }

    /** Makes a call with the state and an event. If the call succeeds, the state is kept, and `written` returns the length of the record. */
    #decide(event, call, written = () => exports.pie_write_event(EVENT, OUT, ROOM)) {
        write("pie_event", EVENT, event);
        state.set(this.#state);
        const found = checked(call());
        this.#state.set(state);
        this.#write?.(text(written()));
        return found;
    }

    arrive({ moment, size, queued, word, ecn = "not", room = 1, tag = 0, caller = 0 }) {
        const [bytes, packets] = [long(queued, "queued"), short(room, "room")];
        return VERDICTS[this.#decide({ moment, tag, size, ecn: code(ECN, ecn, "ecn"), word, caller }, () => exports.pie_arrive_event(STATE, bytes, packets, EVENT))];
    }

    depart({ moment, size, left, arrived, ecn = "not", tag = 0, caller = 0 }) {
        const [bytes, since] = [long(left, "left"), long(arrived, "arrived")];
        this.#decide({ moment, tag, size, ecn: code(ECN, ecn, "ecn"), caller }, () => exports.pie_depart_event(STATE, bytes, since, EVENT));
    }

    empty({ moment, caller = 0 }) {
        this.#decide({ moment, caller }, () => exports.pie_empty_event(STATE, EVENT));
    }

    update({ moment, queued, caller = 0 }) {
        const bytes = long(queued, "queued");
        this.#decide({ moment, caller }, () => exports.pie_update_event(STATE, bytes, EVENT));
        const { delay, prob, burst } = read("pie_event", EVENT);
        return { due: this.due, delay, prob, burst };
    }

    reset({ moment, caller = 0 }) {
        this.#decide({ moment, caller }, () => exports.pie_reset_event(STATE, EVENT));
    }

    setParams({ moment, params, caller = 0 }) {
        all.set(this.#state.subarray(0, STRUCTS.pie_params.size), PARAMS);
        write("pie_params", PARAMS, params);
        this.#decide({ moment, caller }, () => exports.pie_set_params_event(STATE, PARAMS, EVENT), () => exports.pie_write_params(EVENT, PARAMS, OUT, ROOM));
    }

    clock({ moment, unixTime }) {
        const length = exports.pie_write_clock(long(moment, "moment"), long(unixTime, "unixTime"), OUT, ROOM);
        if (length === 0) throw new PieError(101);
        this.#write?.(text(length));
    }

    get due() {
        state.set(this.#state);
        return BigInt.asUintN(64, exports.pie_due(STATE));
    }

    get state() {
        state.set(this.#state);
        return read("pie_state", STATE);
    }

    get bits() {
        return this.#state.slice();
    }
}
