"use strict";
// The page's script. It asks the program for every number and every word, and writes them to the page as text, never as markup.
const element = (id) => document.getElementById(id);

// ----- Elements
function add(to, name, text, attributes = {}) {
    const made = document.createElement(name);
    if (text !== undefined) made.textContent = text;
    for (const [key, value] of Object.entries(attributes)) made.setAttribute(key, value);
    to.append(made);
    return made;
}

// Adds an element with a number, which may break after its commas only.
function addNumber(to, name, text, attributes) {
    const made = add(to, name, undefined, attributes);
    for (const [at, part] of text.split(/(?<=,)/).entries()) made.append(...(at > 0 ? [document.createElement("wbr")] : []), part);
    return made;
}

// Writes texts to an element. A text in a list is bold; one in `code` is code.
function say(where, ...parts) {
    where.replaceChildren();
    for (const part of parts) {
        if (Array.isArray(part)) add(where, "b", part[0]);
        else if (typeof part === "object") add(where, "code", part.code);
        else where.append(part);
    }
}

// ----- The parts inside this file: base64 of gzip
function bytesOf(id) {
    const letters = atob(element(id).textContent);
    return Uint8Array.from(letters, (letter) => letter.charCodeAt(0));
}
const unzipped = (blob, options) => new Response(blob.stream().pipeThrough(new DecompressionStream("gzip"), options));

// ----- The program: workers that each run one request at a time
class Cancelled extends Error {}

// Returns nothing for a cancelled request: a later one has its answer.
function unlessCancelled(why) {
    if (!(why instanceof Cancelled)) throw why;
}

class Pool {
    constructor(size, source) {
        this.size = size;
        this.source = source;
        this.workers = [];
        this.waiting = [];
        this.number = 0;
    }

    // Returns the answer of the program to these words. A later request of the same group cancels this one.
    ask(words, { group, onRead, ...rest } = {}) {
        if (group) this.cancel((it) => it.group === group);
        return new Promise((resolve, reject) => {
            this.waiting.push({ request: { id: ++this.number, words, ...rest }, group, onRead, resolve, reject });
            this.start();
        });
    }

    start() {
        while (this.waiting.length > 0) {
            let free = this.workers.find((it) => !it.job);
            if (!free && this.workers.length >= this.size) return;
            free ??= this.made();
            free.job = this.waiting.shift();
            free.worker.postMessage(free.job.request);
        }
    }

    made() {
        const made = { worker: new Worker(this.source), job: null };
        made.worker.onmessage = ({ data }) => this.receive(made, data);
        made.worker.onerror = (event) => this.fail(made, event);
        made.worker.postMessage({ program: this.program, unpacker: this.unpacker });
        this.workers.push(made);
        return made;
    }

    receive(from, data) {
        if (data.read !== undefined) return from.job.onRead?.(data.read);
        const { job } = from;
        from.job = null;
        job.resolve(data);
        this.start();
    }

    fail(from, event) {
        event.preventDefault();
        this.drop(from, new Error(event.message?.replace(/^(Uncaught )?Error: /, "") || "the worker ended"));
    }

    // Ends a worker, and rejects its request.
    drop(from, why) {
        from.worker.terminate();
        this.workers = this.workers.filter((it) => it !== from);
        from.job?.reject(why);
        this.start();
    }

    cancel(which = () => true) {
        const gone = this.waiting.filter(which);
        this.waiting = this.waiting.filter((it) => !which(it));
        for (const it of gone) it.reject(new Cancelled());
        for (const it of [...this.workers]) if (it.job && which(it.job)) this.drop(it, new Cancelled());
    }
}

let pool = null;
let TEXT = null; // the open text: { name, blob, isTrace }

// Returns the answer of the program about the open text: its status, rows of CSV if `rows` limits them, otherwise the text, and its messages.
async function ask(words, options = {}) {
    const files = options.files ?? (TEXT ? { [TEXT.name]: TEXT.blob } : {});
    const answer = await pool.ask(words, { input: TEXT?.blob, ...options, files });
    return { ...answer, errors: await answer.errors.text() };
}
const about = (...words) => [...words, "--", TEXT.name];
const MANY = { limit: 100000 };

// Returns the rows of CSV as objects.
const objects = ([names, ...rows]) => rows.map((row) => Object.fromEntries(row.map((field, at) => [names[at], field])));

// ----- Numbers. Counts and moments may exceed the integers of a JavaScript number, so they are read as BigInt if the exact value matters.
let FIRST = 0n; // the first moment, in ns
let LENGTH = 0; // from it to the last, in ns
const since = (moment) => Number(BigInt(moment) - FIRST) / 1e6; // ms after the first moment
const moment = (time) => FIRST + BigInt(Math.round(Math.max(0, time) * 1e6));
const grouped = (count) => BigInt(count).toLocaleString("en-US");
const millis = (ns) => (Number(ns) / 1e6).toLocaleString("en-US", { minimumFractionDigits: 3, maximumFractionDigits: 3 });
const counted = (count, name) => `${grouped(count)} ${name}${BigInt(count) === 1n ? "" : "s"}`;

// Returns a moment in ms with three decimals.
function momentMillis(exact) {
    const rounded = BigInt(exact) + 500n;
    return `${rounded / 1000000n}.${String((rounded % 1000000n) / 1000n).padStart(3, "0")}`;
}

function percent(part, all) {
    const share = all > 0 ? (100 * part) / all : 0;
    return share > 0 && share < 0.01 ? "< 0.01 %" : `${share.toFixed(2)} %`;
}
const probability = (units) => percent(Number(units), 1e12);

function rate(bytes, ns) {
    const mbit = ns > 0 ? (8000 * Number(bytes)) / ns : 0;
    return `${mbit.toFixed(mbit >= 100 ? 1 : mbit >= 1 ? 2 : 4)} Mbit/s`;
}

// Units of time, the greatest first: its nanoseconds, its name, and the number of units from which on it is used.
const UNITS = [[86400e9, "d", 2], [3600e9, "h", 2], [1e9, "s", 1], [1e6, "ms", 1], [1e3, "us", 1], [1, "ns", 0]];
const unitOf = (ns) => UNITS.find(([length, , least]) => ns >= least * length);

function duration(ns) {
    const [length, name] = unitOf(ns);
    return `${+(ns / length).toPrecision(6)} ${name}`;
}

// Returns a wall-clock time of the program in ns since 1970.
function nanoseconds(text) {
    const [, seconds, rest] = /^(.*?)(?:\.(\d+))?Z$/.exec(text);
    return BigInt(Date.parse(`${seconds}Z`)) * 1000000n + BigInt((rest ?? "").padEnd(9, "0"));
}

let clocks = []; // of the records in the charts: from each moment on, the time at moment 0

// Returns the wall-clock time at a moment as a text, or an empty one.
function wall(exact) {
    const clock = clocks.findLast(({ from }) => from <= exact) ?? clocks[0];
    if (clock === undefined) return "";
    return new Date(Number((exact + clock.zero) / 1000000n)).toISOString().replace("T", " ").replace("Z", " UTC");
}

// ----- Causes of verdicts: field, class, words
const CAUSES = [
    ["burst_allowed", "burst-allowed", "queued: the burst allowance was above 0"],
    ["low_delay", "low-delay", "queued: the old delay was below half the target, and the probability below 20 %"],
    ["short_queue", "short-queue", "queued: at most two mean packets were in the queue"],
    ["no_probability", "no-probability", "queued: the probability was 0"],
    ["inactive", "inactive", "queued: the controller was inactive"],
    ["little_accumulated", "little", "queued: the accumulated probability was below 0.85"],
    ["word_not_below", "not-below", "queued: the random word was not below the probability"],
    ["picked_by_word", "mark", "marked: the random word was below the probability"],
    ["picked_by_sum", "mark-sum", "marked: the accumulated probability was at least 8.5"],
    ["picked_by_word_not_capable", "capable", "dropped early by the random word: the packet was not ECN-capable"],
    ["picked_by_word_not_below", "below", "dropped early by the random word: the probability was not below mark_ecnth"],
    ["picked_by_sum_not_capable", "capable-sum", "dropped early by the accumulated probability: the packet was not ECN-capable"],
    ["picked_by_sum_not_below", "below-sum", "dropped early by the accumulated probability, which was not below mark_ecnth"],
    ["no_room_in_bytes", "bytes", "dropped: no room in bytes"],
    ["no_room_in_packets", "packets", "dropped: no room in packets"],
];
const FATES = [["early", "early", "dropped early"], ["bytes", "bytes", "no room in bytes"], ["packets", "packets", "no room in packets"], ["mark", "mark", "marked"]];
const words = (field) => field.replaceAll("_", " ");

// ----- The sums of the time in the charts
function card(title, field, big, rows) {
    const made = add(element("headline"), "div", undefined, { class: "card" });
    add(made, "h2", title);
    addNumber(made, "div", big, { class: "big", "data-field": field });
    const list = add(made, "dl");
    for (const [name, text, field] of rows.filter((row) => row)) {
        const row = add(list, "div");
        add(row, "dt", name);
        addNumber(row, "dd", text, field ? { "data-field": field } : {});
    }
}

function headline(sum) {
    element("headline").replaceChildren();
    const number = (name) => Number(sum[name] ?? 0);
    const [count, ms] = [(name) => [grouped(sum[name]), name], (name) => [`${millis(sum[name])} ms`, name]];
    const length = Number(BigInt(sum.last_moment) - BigInt(sum.first_moment));
    const more = (name, title, show) => name in sum && [title, ...show(name)];
    const share = (name) => [`${duration(number(name))}, ${percent(Math.min(number(name), length), length)}`, name];
    const early = (end) => grouped(number(`picked_by_word_${end}`) + number(`picked_by_sum_${end}`));
    const dropped = number("early") + number("bytes") + number("packets");
    card("Arrivals", "arrivals", grouped(sum.arrivals), [
        ["bytes", ...count("arrived_bytes")],
        ["offered", rate(sum.arrived_bytes, length)],
        ["departed", ...count("left")],
        "carried_bytes" in sum && ["carried", rate(sum.carried_bytes, length)],
    ]);
    card("Dropped", "dropped", percent(dropped, number("arrivals")), [
        ["packets", grouped(dropped)],
        ["early, no ECN", early("not_capable")],
        ["early, with ECN", early("not_below")],
        ["no room in bytes", ...count("bytes")],
        ["no room in packets", ...count("packets")],
    ]);
    card("Marked", "marked", percent(number("mark"), number("arrivals")), [["packets", ...count("mark")]]);
    card("Mean wait", "mean_wait", ms("mean_wait")[0], [
        more("wait_99", "99 % waited at most", ms),
        ["greatest", ...ms("greatest_wait")],
        more("waited_above_target", "above the target", (name) => [`${grouped(sum[name])}, ${percent(number(name), number("left"))}`, name]),
        more("time_waited_above_target", "time above it", share),
    ]);
    card("Greatest queueing delay", "greatest_delay", ms("greatest_delay")[0], [
        ["last", ...ms("last_delay")],
        "last_target" in sum && number("events") > 0 && ["target", ...ms("last_target")],
        more("time_above_target", "time above it", share),
    ]);
    card("Greatest drop probability", "greatest_probability", probability(number("greatest_probability")), [
        ["last", probability(number("last_probability")), "last_probability"],
        more("last_burst_allowance", "burst allowance, last", ms),
    ]);
    if (number("turned_on") + number("turned_off") > 0) {
        card("Turned on", "turned_on", grouped(sum.turned_on), [
            number("turned_on") > 0 && ["first", `${momentMillis(sum.first_turned_on)} ms`, "first_turned_on"],
            ["turned off", ...count("turned_off")],
            number("turned_off") > 0 && ["last", `${momentMillis(sum.last_turned_off)} ms`, "last_turned_off"],
        ]);
    }
}

// Adds a table: its title, the titles of its columns, and rows of texts; the first text of a row may have a class for its colour.
function tableIn(where, title, columns, rows, note) {
    where.replaceChildren();
    if (rows.length === 0) return;
    add(where, "h2", title);
    const list = add(where, "table");
    const head = add(list, "tr");
    for (const name of columns) add(head, "th", name);
    for (const { color, texts, attributes } of rows) {
        const row = add(list, "tr", undefined, attributes);
        const cell = add(row, "td");
        if (color) add(cell, "span", undefined, { class: `swatch c-${color}` });
        cell.append(texts[0]);
        for (const text of texts.slice(1)) add(row, "td", text);
    }
    if (note) add(where, "p", note, { class: "quiet" });
}

function causes(sum) {
    const rows = CAUSES.filter(([field]) => Number(sum[field]) > 0).map(([field, color, text]) => (
        { color, texts: [field, grouped(sum[field]), percent(Number(sum[field]), Number(sum.arrivals)), text], attributes: { "data-cause": field } }));
    tableIn(element("causes"), "Causes of verdicts", ["cause", "arrivals", "share", "what it means"], rows);
    const list = element("cause");
    for (const { texts: [field] } of rows) if (![...list.options].some((it) => it.value === field)) add(list, "option", words(field), { value: field });
}

let flowNames = {}; // by flow, of the report's file

function flows(found) {
    const all = (name) => found.reduce((sum, flow) => sum + Number(flow[name]), 0);
    const rows = found.length < 2 ? [] : found.map((flow) => {
        const dropped = Number(flow.early) + Number(flow.bytes) + Number(flow.packets);
        const shares = [percent(Number(flow.arrived_bytes), all("arrived_bytes")), percent(Number(flow.byte_microseconds), all("byte_microseconds"))];
        const name = flow.flow === "others" ? "all others" : flowNames[flow.flow] ?? flow.flow;
        return { texts: [name, grouped(flow.arrivals), ...shares, grouped(flow.mark), grouped(dropped), `${millis(flow.mean_wait)} ms`], attributes: { "data-flow": flow.flow } };
    });
    const note = "The shares are those of all arrived bytes, and of the queue: bytes times their wait.";
    tableIn(element("flows"), "Flows", ["flow", "arrivals", "of all bytes", "of the queue", "marked", "dropped", "mean wait"], rows, note);
}

// ----- Opening a text
const isGzip = (head) => head[0] === 0x1f && head[1] === 0x8b;
const isXz = (head) => head[0] === 0xfd && head[1] === 0x37 && head[2] === 0x7a;

let unpacking = new AbortController();

// Returns the text of a file, unpacked. The browser may keep the unpacked text in a file of its own.
async function unpacked(blob) {
    const head = new Uint8Array(await blob.slice(0, 3).arrayBuffer());
    if (isXz(head)) return (await pool.ask([], { packed: blob })).out;
    unpacking = new AbortController();
    return isGzip(head) ? unzipped(blob, { signal: unpacking.signal }).blob() : blob;
}

// Ends what runs.
function cancel() {
    unpacking.abort(new Cancelled());
    pool.cancel();
}

let NONE = {}; // true if the text has no lost packet, and if it has no marked one
const NOTHING = { from: 0, to: 0 };
let view = { ...NOTHING }; // the time in the charts, in ms after the first moment
let opened = 0; // the number of opened texts

function working(what) {
    element("working").hidden = !what;
    element("doing").textContent = what ?? "";
    element("progress").removeAttribute("value");
}

const reading = (read) => TEXT.blob.size > 0 && (element("progress").value = Math.min(1, read / TEXT.blob.size));

// Shows the finding of an audit: the program's own words, below one line.
function finding({ status, out, errors }) {
    const [where, fault] = [element("finding"), element("fault")];
    const what = TEXT.isTrace ? "This is a trace. The page shows its history. " : "";
    const [, told, events] = /^(?:.*: )?(clean,(\d+)|differs,\d+)$/.exec(out) ?? [];
    where.hidden = false;
    where.className = status === 0 ? "good" : "bad";
    if (events) say(where, what, ["Clean."], ` Each of ${counted(events, "event")} is what the rules give. `, { code: told });
    else if (status === 2) say(where, what, ["An event is not what the rules give."], " The page shows the events before it. ", { code: told });
    else say(where, what, ["This text has a fault."], " The page shows the events before it.");
    fault.textContent = errors.replaceAll(/^pie: /gm, "").trim();
    fault.hidden = fault.textContent === "";
}

function clear() {
    for (const id of ["main", "save", "finding", "fault"]) element(id).hidden = true;
    for (const id of ["headline", "span", "causes", "flows", "columns", "output", "status", "matching", "deciding", "fate"]) element(id).replaceChildren();
    element("cause").replaceChildren(element("cause").options[0]);
    element("packet").querySelector("h2").textContent = "Why was it lost?";
    element("words").textContent = "Click on a drop or a mark in a chart, or choose one in the list.";
    element("explain").replaceChildren();
    Object.assign(element("tag"), { value: "" });
    Object.assign(element("flow"), { value: "" });
    [chosen, other, line, clocks] = [null, null, null, []];
}

// Opens a file: a history, an excerpt, a trace, or a text of pie-watch. The program decides which.
async function openText(name, file) {
    cancel();
    const number = ++opened;
    clear();
    document.title = `PIE: ${name}`;
    element("name").textContent = name;
    document.documentElement.dataset.state = "busy";
    try {
        working("unpacking");
        TEXT = { name: name.replace(/\.(gz|gzip|xz)$/i, ""), blob: file, isTrace: false };
        TEXT.blob = await unpacked(file);
        working("deciding every event again");
        const summary = await audited(number);
        if (number === opened) await show(summary);
    } catch (why) {
        if (number !== opened) return;
        if (why instanceof Cancelled && !element("finding").hidden) return;
        const text = why instanceof Cancelled ? "Cancelled." : `${name}: ${why.message}`;
        Object.assign(element("finding"), { hidden: false, className: "bad", textContent: text });
    } finally {
        if (number === opened) {
            working();
            document.documentElement.dataset.state = "ready";
        }
    }
}

// Shows the finding of an audit once it is known, and returns the summary of all events. A trace is decided first.
async function audited(number) {
    const summed = ask(about("explain", "--summary", "--csv", "--wall"), { rows: { limit: 1 } });
    summed.catch(() => null); // (if the audit is cancelled first)
    const audit = await ask(about("audit"), { onRead: reading });
    if (audit.status === 1 && !TEXT.isTrace) {
        const history = await ask(about("run"));
        if (history.status === 0) {
            Object.assign(TEXT, { blob: history.out, isTrace: true });
            return audited(number);
        }
    }
    const out = (await audit.out.text()).trim();
    if (number === opened) finding({ ...audit, out });
    return summed;
}

// Shows the whole of a text that has events.
async function show(summary) {
    const [sum] = objects(summary.rows);
    if (!sum || sum.events === "0") return;
    FIRST = BigInt(sum.first_moment);
    LENGTH = Number(BigInt(sum.last_moment) - FIRST);
    const ends = [sum.first_moment, sum.last_moment].map((it) => `${momentMillis(it)} ms`);
    say(element("span"), `${counted(sum.events, "event")} in ${duration(LENGTH)}, from ${ends[0]} to ${ends[1]}${sum.wall ? `, ${sum.wall} at the first with a known time` : ""}.`);
    for (const id of ["main", "save"]) element(id).hidden = false;
    sliderValues(sum);
    view = { ...whole() };
    const part = asked(whole());
    working("drawing");
    const none = ["early", "bytes", "packets"].every((name) => sum[name] === "0");
    NONE = { lost: none, marked: sum.mark === "0" };
    const shared = ask(about("explain", "--flows", "10", "--csv"), { rows: MANY });
    await Promise.all([look(part, isWhole(part) ? sum : null), fill(), shared.then(({ rows }) => flows(objects(rows)))]);
}

// ----- The time in the charts
function whole() {
    return { from: 0, to: LENGTH > 0 ? LENGTH / 1e6 : 10 }; // (one event: ten milliseconds)
}
const isWhole = ({ from, to }) => from <= 0 && to >= whole().to;
const bounds = ({ from, to }) => (isWhole({ from, to }) ? [] : ["--from", `${moment(from)}ns`, "--to", `${moment(to)}ns`]);
const given = { from: null, to: null }; // the time that a report begins with

// Returns the part of the whole that the report asks for, otherwise the whole.
function asked(all) {
    const [from, to] = [given.from, given.to].map((it) => (it === null ? null : since(it)));
    return from === null && to === null ? all : { from: Math.max(all.from, from ?? all.from), to: Math.min(all.to, to ?? all.to) };
}

// Returns a length of time in ns with few digits, such that about 1000 of them make up this one.
function period(length) {
    const least = Math.floor(length / 1000) + 1;
    for (let power = 1; ; power *= 10) {
        for (const tenths of [10, 12, 15, 20, 25, 30, 40, 50, 60, 80]) {
            const made = (tenths * power) / 10;
            if (Number.isInteger(made) && made >= least) return made;
        }
    }
}

// Returns the records of periods, each at its place: the number of its period after that of the first moment.
function placed(rows, length) {
    const start = FIRST / BigInt(length);
    return objects(rows).map((row) => ({ ...row, place: Number(BigInt(row.first_moment) / BigInt(length) - start) }));
}

// Shows this time: its charts at once by the points there are, then finer ones, and its sums.
async function look(part, sum = null) {
    clearTimeout(waiting);
    const span = Math.min(Math.max(part.to - part.from, 1e-3), whole().to);
    const from = Math.min(Math.max(part.from, 0), whole().to - span);
    view = { from, to: from + span };
    if (points.rows.length > 0) moveCharts();
    try {
        const around = { from: from - span / 2, to: from + 1.5 * span };
        const each = period(span * 1e6);
        const [found, sums] = await Promise.all([
            ask(about("explain", `--every=${each}ns`, "--csv", "--wall", ...bounds(around)), { group: "points", rows: MANY }),
            sum ?? ask(about("explain", "--summary", "--csv", ...bounds(view)), { group: "sums", rows: { limit: 1 } }).then(({ rows }) => objects(rows)[0]),
        ]);
        points = { each, rows: placed(found.rows, each) };
        clocks = clocksOf(points.rows);
        drawCharts();
        headline(sums);
        causes(sums);
        await Promise.all([element("within").checked && fill(), other && otherCurves()]);
    } catch (why) {
        if (!(why instanceof Cancelled)) throw why;
    }
}

// Returns the clocks of records of periods. The first of them may begin before its clock record, so the next one decides.
function clocksOf(rows) {
    const made = [];
    const known = rows.filter((it) => it.wall);
    known.forEach((row, at) => {
        const it = at === 0 && known.length > 1 ? known[1] : row;
        const zero = nanoseconds(it.wall) - BigInt(it.first_moment);
        if (zero !== made.at(-1)?.zero) made.push({ from: BigInt(row.first_moment), zero });
    });
    return made;
}

function zoom(times) {
    const at = line !== null && line >= view.from && line <= view.to ? line : (view.from + view.to) / 2;
    look({ from: at - (at - view.from) * times, to: at + (view.to - at) * times });
}

function pan(part) {
    const span = view.to - view.from;
    const from = Math.min(Math.max(view.from + part * span, 0), whole().to - span);
    look({ from, to: from + span });
}

// ----- Charts over time
let points = { each: 1, rows: [] }; // the records of periods of `each` ns
let line = null; // the time of the reading line
let chosen = null; // the packet whose words are shown
let other = null; // the other history: its text, and its records of periods

const field = (name, scale) => (row) => (row[name] === undefined ? null : Number(row[name]) / scale);
const when = (counts, name, scale) => (row) => (Number(row[counts]) > 0 ? Number(row[name]) / scale : null);
// (of columns of several periods)
const perTime = (name) => (column) => (8000 * column.sum(name)) / (points.each * column.many);
const shareOf = (name) => (column) => (column.sum("arrivals") > 0 ? (100 * column.sum(name)) / column.sum("arrivals") : 0);
const countOf = (name) => (column) => column.sum(name);
const CHARTS = [
    {
        title: "Queueing delay and waits, ms", height: 230, lines: [
            { name: "queueing delay at updates", color: "delay", value: when("updates", "greatest_delay", 1e6) },
            { name: "mean wait of departed packets", color: "wait", value: when("left", "mean_wait", 1e6) },
            { name: "greatest wait", color: "longest", value: when("left", "greatest_wait", 1e6) },
            { name: "burst allowance", color: "burst", value: field("last_burst_allowance", 1e6), steps: true },
            { name: "target", color: "target", value: field("last_target", 1e6), steps: true },
            { name: "delay, what if", color: "other", value: when("updates", "greatest_delay", 1e6), isOther: true },
        ],
    },
    {
        title: "Drop probability, per cent", height: 150, lines: [
            { name: "greatest", color: "probability-soft", value: field("greatest_probability", 1e10), steps: true, area: true },
            { name: "last", color: "probability", value: field("last_probability", 1e10), steps: true },
            { name: "last, what if", color: "other", value: field("last_probability", 1e10), steps: true, isOther: true },
        ],
    },
    {
        title: "Rate, Mbit/s", height: 140, least: 0.001, pixels: 14, lines: [
            { name: "offered", color: "offered", value: perTime("arrived_bytes"), steps: true, area: true },
            { name: "carried", color: "carried", value: perTime("carried_bytes"), steps: true },
        ],
    },
    { title: "Lost and marked packets", height: 150, pixels: 6, stacked: true, lines: FATES.map(([name, color, text]) => ({ name: text, color, field: name, value: countOf(name) })) },
    { title: "Causes of verdicts, per cent of the arrivals", height: 190, pixels: 6, stacked: true, greatest: 100, lines: CAUSES.map(([name, color]) => ({ name: words(name), color, field: name, value: shareOf(name) })) },
];

// Returns the value of a colour of the style.
function colour(name) {
    const probe = add(element("charts"), "span", undefined, { class: `swatch c-${name}` });
    const value = getComputedStyle(probe).backgroundColor;
    probe.remove();
    return value;
}

const timeOf = (place) => Number(BigInt(place) * BigInt(points.each) - (FIRST % BigInt(points.each))) / 1e6;

// Joins periods to columns that are so many pixels wide.
function columnsOf(pixels) {
    const width = Math.max(200, element("charts").clientWidth - 60);
    const many = Math.max(1, Math.ceil((pixels * (view.to - view.from) * 1e6) / (width * points.each)));
    const made = new Map();
    for (const row of points.rows) {
        const at = Math.floor(row.place / many);
        if (!made.has(at)) made.set(at, { place: at * many, many, rows: [], sum: (name) => made.get(at).rows.reduce((all, it) => all + Number(it[name] ?? 0), 0) });
        made.get(at).rows.push(row);
    }
    return [...made.values()];
}

// Returns the points of a chart: a list for each time, with the values of its lines. In a chart of columns, time without events is empty.
function tableOf(chart, shown) {
    const made = [];
    let next = null;
    if (chart.pixels) {
        for (const column of columnsOf(chart.pixels)) {
            if (next !== null && column.place > next) made.push([timeOf(next), ...shown.map(() => 0)]);
            made.push([timeOf(column.place), ...shown.map((it) => it.value(column))]);
            next = column.place + column.many;
        }
        if (next !== null) made.push([timeOf(next), ...shown.map(() => 0)]);
        return made;
    }
    const others = new Map((other?.rows ?? []).map((row) => [row.place, row]));
    for (const row of points.rows) {
        made.push([timeOf(row.place), ...shown.map((it) => (it.isOther ? (others.has(row.place) ? it.value(others.get(row.place)) : null) : it.value(row)))]);
        next = row.place + 1;
    }
    if (next !== null) made.push([timeOf(next), ...made.at(-1).slice(1).map((value, index) => (shown[index].steps ? value : null))]);
    return made;
}

// Returns the text of a time at the bottom: a wall-clock time if the text has such, otherwise a moment in a unit of the time in the charts.
function timeText(time) {
    const exact = FIRST + BigInt(Math.round(time * 1e6));
    if (clocks.length > 0) return wall(exact).slice(...(view.to - view.from > 2 * 86400e3 ? [5, 16] : view.to - view.from > 5e3 ? [11, 19] : [11, 23]));
    const late = FIRST > BigInt(Math.max(1, Math.round(LENGTH))) * 1000n;
    const [unit, name] = unitOf(((view.to - view.from) * 1e6) / 2);
    return `${late ? "+" : ""}${+((late ? time * 1e6 : Number(exact)) / unit).toPrecision(9)} ${name}`;
}

// The picture below a chart's lines: listed packets, the chosen packet, and the reading line.
function mark(context, area, graph, chart) {
    const upright = (time, color, from, to, width = 1) => {
        if (time < view.from || time > view.to) return;
        context.fillStyle = color;
        context.fillRect(Math.round(graph.toDomXCoord(time)), from, width, to - from);
    };
    if (chart === CHARTS[3]) for (const it of PACKETS) upright(it.time, colours[it.color], it.marked ? area.y + 9 : area.y, it.marked ? area.y + 15 : area.y + 6);
    if (chosen) upright(chosen.time, colours.target, area.y, area.y + area.h, 2);
    if (line !== null) upright(line, colours.others, area.y, area.y + area.h);
}

let colours = {};
// A drag zooms over time, with Shift it pans. A double click shows the whole time. A touch scrolls the page.
function mousedown(event, graph, context) {
    if (event.button !== 0) return;
    context.initializeMouseDown(event, graph, context);
    const [begin, follow, end] = event.shiftKey ? [Dygraph.startPan, Dygraph.movePan, Dygraph.endPan] : [Dygraph.startZoom, Dygraph.moveZoom, Dygraph.endZoom];
    begin(event, graph, context);
    const move = ({ pageX }) => follow({ pageX, pageY: event.pageY }, graph, context);
    const up = (it) => {
        end(it, graph, context);
        document.removeEventListener("mousemove", move);
        document.removeEventListener("mouseup", up);
        context.destroy();
    };
    document.addEventListener("mousemove", move);
    document.addEventListener("mouseup", up);
}
const MOUSE = { mousedown, willDestroyContextMyself: true, dblclick: () => look(whole()) };

function drawChart(chart) {
    const shown = chart.lines.filter((it) => !it.hidden && (it.isOther ? other : !it.field || points.rows.some((row) => Number(row[it.field]) > 0)));
    legend(chart);
    const labels = ["time", ...shown.map((it) => it.name)];
    const data = tableOf(chart, shown);
    const greatest = chart.greatest ?? 1.1 * Math.max(chart.least ?? 0.1, ...data.map(([, ...values]) => (chart.stacked ? values.reduce((sum, it) => sum + (it ?? 0), 0) : Math.max(0, ...values))));
    const options = {
        file: data, labels, colors: shown.map((it) => colour(it.color)), dateWindow: [view.from, view.to], valueRange: [0, greatest],
        stackedGraph: chart.stacked === true, fillGraph: chart.stacked === true, stepPlot: chart.stacked === true, fillAlpha: chart.stacked ? 0.95 : 0.6,
        strokeWidth: chart.stacked ? 0 : 1.6,
        series: Object.fromEntries(shown.map((it) => [it.name, { stepPlot: Boolean(it.steps || chart.stacked), fillGraph: Boolean(it.area || chart.stacked),
            strokeWidth: it.area || chart.stacked ? 0 : 1.6 }])),
        axes: { x: { axisLabelFormatter: timeText, pixelsPerLabel: 90, drawGrid: true, axisLabelWidth: 90 }, y: { axisLabelWidth: 46, pixelsPerLabel: 34 } },
        gridLineColor: colour("rule"), axisLineColor: colour("rule"), axisLabelFontSize: 11, legend: "never", highlightCircleSize: 0, rightGap: 8,
        connectSeparatedPoints: true, labelsKMB: false, interactionModel: MOUSE, animatedZooms: false, xRangePad: 0,
        underlayCallback: (context, area, graph) => mark(context, area, graph, chart),
        highlightCallback: (event) => event.buttons === 0 && read(timeAt(event, chart.graph)),
        clickCallback: (event) => {
            read(timeAt(event, chart.graph));
            chooseNear(timeAt(event, chart.graph));
        },
        zoomCallback: (from, to) => look({ from, to }),
        drawCallback: (graph, initial) => initial || follow(graph),
    };
    if (chart.graph) chart.graph.updateOptions(options);
    else chart.graph = new Dygraph(chart.place, data, { ...options, file: undefined, height: chart.height });
}

const timeAt = (event, graph) => graph.toDataXCoord(graph.eventToDomCoords(event)[0]);

// Moves all charts to the time that a drag has moved one of them to, and looks at it once the drag ends.
let waiting = 0;
function follow(graph) {
    const [from, to] = graph.xAxisRange();
    if (Math.abs(from - view.from) < 1e-9 && Math.abs(to - view.to) < 1e-9) return;
    view = { from, to };
    moveCharts();
    clearTimeout(waiting);
    waiting = setTimeout(() => look({ from, to }), 250);
}

function moveCharts() {
    for (const { graph } of CHARTS) graph?.updateOptions({ dateWindow: [view.from, view.to] });
}

const redraw = () => CHARTS.forEach(({ graph }) => graph?.updateOptions({ underlayCallback: graph.getOption("underlayCallback") }));

function drawCharts() {
    for (const name of ["early", "bytes", "packets", "mark", "target", "others"]) colours[name] = colour(name);
    for (const chart of CHARTS) {
        if (!chart.place) {
            chart.section = add(element("charts"), "section", undefined, { class: "chart" });
            add(chart.section, "h2", chart.title);
            chart.legend = add(chart.section, "span", undefined, { class: "legend" });
            chart.place = add(chart.section, "div", undefined, { class: "graph", role: "img", "aria-label": chart.title });
            chart.place.style.height = `${chart.height}px`;
        }
        drawChart(chart);
    }
}

function legend(chart) {
    chart.legend.replaceChildren();
    for (const it of chart.lines) {
        if (it.isOther ? !other : it.field && !points.rows.some((row) => Number(row[it.field]) > 0)) continue;
        const button = add(chart.legend, "button", undefined, { "aria-pressed": String(!it.hidden), title: "Show or hide" });
        add(button, "span", undefined, { class: `swatch c-${it.color}` });
        button.append(it.name);
        button.addEventListener("click", () => {
            it.hidden = !it.hidden;
            drawChart(chart);
        });
    }
}

// Reads the values at a time: the last numbers at or before it, and the sums of its period.
function read(time) {
    line = Math.min(Math.max(time, whole().from), whole().to);
    const exact = moment(line);
    const place = Number(exact / BigInt(points.each) - FIRST / BigInt(points.each));
    const before = points.rows.filter((row) => row.place <= place);
    const last = before.at(-1) ?? points.rows[0];
    const parts = [[`${momentMillis(exact)} ms`], clocks.length > 0 ? ` (${wall(exact)})` : ""];
    if (last) {
        const update = before.findLast((row) => Number(row.updates) > 0);
        if (update) parts.push(" queueing delay ", [`${millis(update.greatest_delay)} ms`], ",");
        parts.push(" probability ", [probability(last.last_probability)]);
        if ("last_burst_allowance" in last) parts.push(", burst allowance ", [`${millis(last.last_burst_allowance)} ms`]);
        if (last.place === place) {
            parts.push(`. In the ${duration(points.each)} around it: ${counted(last.arrivals, "arrival")}`);
            for (const [name, , text] of FATES) if (Number(last[name]) > 0) parts.push(", ", [`${last[name]} ${text}`]);
        }
    }
    say(element("read"), ...parts, ".");
    redraw();
}

// ----- Lost and marked packets
let PACKETS = []; // those in the list
let limit = 500;

const ECN = { not: "Not-ECT", ect0: "ECT(0)", ect1: "ECT(1)", ce: "CE" };

// Asks for the first lost and marked packets that fit the search.
async function fill(more = 500) {
    limit = more;
    const [tag, flow, cause] = ["tag", "flow", "cause"].map((id) => element(id).value.trim());
    const times = element("within").checked ? bounds(view) : [];
    let match = cause ? { column: "cause", value: cause } : undefined;
    if (flow) match = /^(0x[0-9a-f]{1,8}|\d{1,10})$/i.test(flow) ? { column: "tag", flow: Number(flow) } : { column: "tag", value: "none" };
    if (tag) match = { column: "tag", value: tag };
    const which = ["lost", "marked"].filter((id) => element(id).checked && !NONE[id]);
    try {
        const found = await Promise.all(which.map((it) => ask(about("explain", `--${it}`, "--csv", ...times), { group: it, rows: { limit, match } })));
        const both = found.flatMap(({ rows }) => objects(rows)).filter((it) => (!cause || it.cause === cause) && (!tag || it.tag === tag));
        both.sort((a, b) => Number(BigInt(a.number) - BigInt(b.number)));
        const isCut = found.some(({ rows }) => rows.length > limit);
        PACKETS = both.slice(0, isCut ? limit : both.length).map((it) => ({ ...it, time: since(it.effective_moment), marked: it.verdict === "mark",
            color: { mark: "mark", bytes: "bytes", packets: "packets" }[it.verdict] ?? "early" }));
        fillRows(isCut);
    } catch (why) {
        if (!(why instanceof Cancelled)) throw why;
    }
}

function fillRows(isCut) {
    const body = element("list").tBodies[0];
    body.replaceChildren();
    for (const packet of PACKETS) {
        const row = add(body, "tr", undefined, { "data-number": packet.number });
        row.classList.toggle("chosen", packet.number === chosen?.number);
        add(add(row, "td"), "button", packet.number);
        for (const text of [momentMillis(packet.effective_moment), packet.tag, packet.size]) add(row, "td", text);
        const outcome = { early: "early", mark: "marked", bytes: "no room in bytes", packets: "no room in packets" }[packet.verdict] ?? packet.verdict;
        add(row, "td", packet.ecn ? `${outcome}, ${ECN[packet.ecn] ?? packet.ecn}` : outcome);
        row.addEventListener("click", () => choose(packet));
    }
    element("matching").textContent = isCut ? `The first ${grouped(PACKETS.length)} are listed.` : PACKETS.length === 0 ? "No packet." : `${grouped(PACKETS.length)} listed, which are all.`;
    element("more").hidden = !isCut;
    element("list").hidden = PACKETS.length === 0;
    redraw();
}

// Shows the words of the program about an event.
async function choose(packet) {
    chosen = packet;
    const clock = clocks.length > 0 ? ["--wall"] : [];
    for (const row of element("list").tBodies[0].rows) row.classList.toggle("chosen", row.dataset.number === packet.number);
    say(element("packet").querySelector("h2"), `${packet.marked ? "Why was it marked" : "Why was it lost"}? Packet ${packet.tag}`);
    try {
        const found = await ask(about("explain", ...clock, "--event", packet.number), { group: "packet" });
        element("words").textContent = (await found.out.text()) + found.errors;
    } catch (why) {
        if (!(why instanceof Cancelled)) throw why;
        return;
    }
    say(element("explain"), "From ", { code: ["pie explain", ...clock, "--event", packet.number, TEXT.name].join(" ") });
    if (packet.time < view.from || packet.time > view.to) look({ from: packet.time - (view.to - view.from) / 2, to: packet.time + (view.to - view.from) / 2 });
    read(packet.time);
    element("packet").scrollIntoView({ block: "nearest" });
    await fate();
}

// Chooses the packet nearest to a time, if it is less than 12 pixels away: a listed one, otherwise the first that the program finds there.
async function chooseNear(time) {
    const far = ((view.to - view.from) * 12) / Math.max(200, element("charts").clientWidth);
    const near = PACKETS.reduce((best, it) => (!best || Math.abs(it.time - time) < Math.abs(best.time - time) ? it : best), null);
    if (near && Math.abs(near.time - time) <= far) return choose(near);
    for (const which of ["--lost", "--marked"]) {
        const found = await ask(about("explain", which, "--csv", ...bounds({ from: time - far, to: time + far })), { group: "near", rows: { limit: 1 } }).catch(() => null);
        const [packet] = found ? objects(found.rows) : [];
        if (packet) return choose({ ...packet, time: since(packet.effective_moment), marked: packet.verdict === "mark", color: "early" });
    }
    return null;
}

// Chooses the next or the previous packet of the list.
function next(by) {
    if (PACKETS.length === 0) return;
    const at = PACKETS.findIndex((it) => it.number === chosen?.number);
    choose(PACKETS[at < 0 ? 0 : (at + by + PACKETS.length) % PACKETS.length]);
}

// ----- What if
const SLIDERS = [
    { option: "target", title: "target", unit: "ms", least: 0, most: 60, step: 0.5, usual: 15, field: "last_target", scale: 1e6 },
    { option: "limit", title: "limit", unit: "kB", least: 2, most: 2048, step: 2, usual: 262, words: (value) => String(Math.round(value * 1000)) },
    { option: "alpha", title: "alpha", unit: "", least: 0, most: 32, step: 1, usual: 2 },
    { option: "beta", title: "beta", unit: "", least: 0, most: 32, step: 1, usual: 20 },
    { option: "max_burst", title: "burst", unit: "ms", least: 0, most: 500, step: 5, usual: 150 },
];

// Makes the sliders, each with a field for its number. An option is left out while its field is empty.
function makeSliders() {
    for (const it of SLIDERS) {
        const row = add(element("sliders"), "div");
        add(row, "label", it.title, { for: it.option });
        it.slider = add(row, "input", undefined, { type: "range", min: it.least, max: it.most, step: it.step, name: it.option, "aria-label": `${it.title}${it.unit && `, ${it.unit}`}` });
        it.number = add(row, "input", undefined, { type: "number", id: it.option, min: it.least, step: it.step, placeholder: "recorded" });
        add(row, "span", it.unit);
        it.slider.addEventListener("input", () => {
            it.number.value = it.slider.value;
            decide();
        });
        it.number.addEventListener("change", () => {
            it.slider.value = it.number.value === "" ? it.usual : it.number.value;
            decide();
        });
    }
}

function sliderValues(sum) {
    for (const it of SLIDERS) {
        it.number.value = "";
        it.slider.value = it.field && sum?.[it.field] ? Number(sum[it.field]) / it.scale : it.usual;
    }
}

// The fields of the comparison: name, words
const COLUMNS = [["arrivals", "arrivals"], ["enqueue", "queued"], ["mark", "marked"], ["early", "dropped early"], ["bytes", "no room in bytes"], ["packets", "no room in packets"],
    ["left", "departed"], ["mean_wait", "mean wait, ms"], ["wait_99", "99 % waited at most, ms"], ["greatest_wait", "greatest wait, ms"], ["greatest_delay", "greatest delay, ms"],
    ["greatest_probability", "greatest probability, %"], ["last_target", "target, ms"], ["time_waited_above_target", "time above it, ms"], ["carried_bytes", "carried bytes"]];

// Returns a number of a field without its unit.
function value(name, title, text) {
    const sign = text.startsWith("+") ? "+" : "";
    if (title.endsWith(", ms")) return `${sign}${millis(text)}`;
    return sign + (title.endsWith(", %") ? (Number(text) / 1e10).toFixed(2) : grouped(text.replace("+", "")));
}

// Decides the events again with the parameters of the sliders, and shows the three columns and the other curves.
async function decide() {
    const options = SLIDERS.filter((it) => it.number.value !== "").flatMap((it) => [`--${it.option}`, it.words ? it.words(Number(it.number.value)) : `${it.number.value}${it.unit}`]);
    if (options.length === 0) return forget();
    const begun = performance.now();
    element("deciding").textContent = "deciding";
    const from = ["--from", `${moment(element("later").checked ? view.from : 0)}ns`];
    const [columns, text] = [about("what-if", ...from, ...options, "--csv"), about("what-if", ...from, ...options, "-o", "-")];
    try {
        const [compared, made] = await Promise.all([ask(columns, { group: "columns", rows: MANY }), ask(text, { group: "other" })]);
        if (compared.status !== 0) {
            element("deciding").textContent = compared.errors.replaceAll(/^pie: /gm, "");
            return;
        }
        other = { text: made.out, rows: [] };
        comparison(objects(compared.rows));
        await Promise.all([otherCurves(), fate()]);
        element("deciding").textContent = `decided in ${((performance.now() - begun) / 1000).toFixed(2)} s: pie what-if ${[...from, ...options].join(" ")}`;
    } catch (why) {
        if (!(why instanceof Cancelled)) throw why;
    }
}

function comparison(rows) {
    const found = new Map(rows.map((row) => [row.field, row]));
    const list = element("columns");
    list.replaceChildren();
    const head = add(list, "tr");
    for (const name of ["", "recorded", "control", "other", "change"]) add(head, "th", name);
    for (const [name, title] of COLUMNS) {
        const row = found.get(name);
        if (!row || [row.recorded, row.control, row.other].every((it) => it === "0")) continue;
        const made = add(list, "tr", undefined, { "data-field": name });
        add(made, "th", title, { scope: "row" });
        for (const it of ["recorded", "control", "other", "difference"]) add(made, "td", value(name, title, row[it]));
    }
}

// Draws the other history in the charts.
async function otherCurves() {
    const around = { from: view.from - (view.to - view.from) / 2, to: view.to + (view.to - view.from) / 2 };
    const { each } = points;
    const found = await ask(["explain", `--every=${each}ns`, "--csv", ...bounds(around), "--", "other"], { group: "curves", rows: MANY, files: { other: other.text } }).catch(unlessCancelled);
    if (!found || !other) return;
    other.rows = placed(found.rows, each);
    CHARTS.slice(0, 2).forEach(drawChart);
}

// Says what the other parameters do to the chosen packet: the arrival of its tag at its moment.
async function fate() {
    element("fate").textContent = "";
    if (!other || !chosen) return;
    const at = `${chosen.effective_moment}ns`;
    const found = await ask(["explain", "--tag", chosen.tag, "--csv", "--from", at, "--to", at, "--", "other"], { group: "fate", rows: { limit: 10 }, files: { other: other.text } }).catch(unlessCancelled);
    if (!found || !other || !chosen) return;
    const verdict = objects(found.rows).find((it) => it.size === chosen.size && it.verdict)?.verdict;
    const done = { enqueue: "queued", early: "dropped early", mark: "marked", bytes: "dropped: no room in bytes", packets: "dropped: no room in packets" }[verdict];
    if (done) say(element("fate"), `With these parameters packet ${chosen.tag} is ${verdict === chosen.verdict ? "also " : ""}`, [done], ".");
}

// ----- Advise
async function advise(event) {
    event?.preventDefault();
    const form = element("link");
    const given = ["rate", "rtt", "flows"].flatMap((name) => [`--${name}`, form.elements[name].value]);
    const found = await ask(["advise", ...given, ...(form.elements.ecn.checked ? ["--ecn"] : [])], { group: "advice", files: {} });
    const text = (await found.out.text()) + found.errors;
    element("advised").textContent = text;
    element("commands").replaceChildren();
    for (const [command] of text.matchAll(/\btc qdisc .*$/gm)) {
        const row = add(element("commands"), "p", undefined, { class: "command" });
        add(row, "code", command);
        const button = add(row, "button", "copy");
        button.addEventListener("click", async () => {
            await navigator.clipboard?.writeText(command).catch(() => null);
            getSelection().selectAllChildren(row.firstChild);
            button.textContent = "copied";
        });
    }
}

// ----- Save
function offer(blob, name) {
    const link = add(document.body, "a", undefined, { href: URL.createObjectURL(blob), download: name });
    link.click();
    link.remove();
}

const stem = () => TEXT.name.replace(/\.[^.]*$/, "");

async function save(event) {
    const what = event.target.value;
    if (what === "picture") return picture().toBlob((blob) => offer(blob, `${stem()}.png`));
    const parts = { excerpt: ["cut", ...(isWhole(view) ? ["--from", "0"] : bounds(view))], csv: ["explain", "--all", "--csv", ...bounds(view)], json: ["explain", "--all", "--json", ...bounds(view)] };
    const found = await ask(about(...parts[what]), { group: "save" });
    if (found.out.size > 0) offer(found.out, `${stem()}.${{ excerpt: "excerpt", csv: "csv", json: "ndjson" }[what]}`);
    return found;
}

// Returns a canvas with all charts, their titles and the texts of their axes.
function picture() {
    const [box, scale] = [element("charts").getBoundingClientRect(), window.devicePixelRatio];
    const made = document.createElement("canvas");
    [made.width, made.height] = [box.width * scale, box.height * scale];
    const context = made.getContext("2d");
    context.scale(scale, scale);
    context.fillStyle = getComputedStyle(document.body).backgroundColor;
    context.fillRect(0, 0, box.width, box.height);
    for (const it of element("charts").querySelectorAll("canvas")) {
        const place = it.getBoundingClientRect();
        context.drawImage(it, place.left - box.left, place.top - box.top, place.width, place.height);
    }
    context.textBaseline = "top";
    for (const it of element("charts").querySelectorAll("h2, .legend button, .dygraph-axis-label")) {
        const [place, style] = [it.getBoundingClientRect(), getComputedStyle(it)];
        [context.font, context.textAlign, context.fillStyle] = [style.font, it.matches(".dygraph-axis-label-x") ? "center" : it.matches(".dygraph-axis-label-y") ? "right" : "left", style.color];
        const at = { center: place.left + place.width / 2, right: place.right, left: place.left + (it.matches("button") ? 18 : 0) }[context.textAlign];
        context.fillText(it.textContent, at - box.left, place.top - box.top);
        const swatch = it.querySelector(".swatch");
        if (swatch) {
            context.fillStyle = getComputedStyle(swatch).backgroundColor;
            context.fillRect(place.left - box.left + 4, place.top - box.top + 3, 10, 10);
        }
    }
    return made;
}

// ----- A command of pie
// Returns the words of a command line: separated by spaces, except within quotation marks.
const wordsOf = (text) => [...text.matchAll(/"([^"]*)"|'([^']*)'|(\S+)/g)].map((it) => it[1] ?? it[2] ?? it[3]);

async function command(event) {
    event.preventDefault();
    const given = wordsOf(element("command").value.replace(/^\s*pie\s/, ""));
    element("status").textContent = "running";
    try {
        const found = await ask(given, { group: "command" });
        const text = await found.out.slice(0, 1 << 20).text();
        element("output").textContent = text + found.errors;
        element("status").textContent = `exit status ${found.status}${found.out.size > 1 << 20 ? `, the first ${grouped(1 << 20)} of ${grouped(found.out.size)} bytes` : ""}`;
    } catch (why) {
        element("status").textContent = why.message || "cancelled";
    }
}

// ----- Keys, buttons and files
const KEYS = [
    ["o", "open a file", () => element("file").click()], ["+", "zoom in", () => zoom(0.5)], ["-", "zoom out", () => zoom(2)], ["0", "the whole time", () => look(whole())],
    ["n", "next packet of the list", () => next(1)], ["p", "previous packet", () => next(-1)], ["/", "search by tag", () => element("tag").focus()],
    ["w", "what if", () => SLIDERS[0].number.focus()], [":", "ask with a command", () => element("command").focus()], ["?", "these keys", () => element("keys").showModal()],
    ["Escape", "cancel", cancel],
];

function chartKey(event) {
    const at = line ?? (view.from + view.to) / 2;
    const step = { ArrowLeft: -1, ArrowRight: 1 }[event.key];
    if (step && event.shiftKey) pan(step / 4);
    else if (step) read(Math.min(Math.max(at + (step * (view.to - view.from)) / 100, view.from), view.to));
    else if (event.key === "Enter" && event.target === element("charts")) chooseNear(at);
    else return;
    event.preventDefault();
}

function listen() {
    element("charts").addEventListener("keydown", chartKey);
    document.addEventListener("keydown", (event) => {
        const key = KEYS.find(([name]) => name === (event.key === "=" ? "+" : event.key));
        if (!key || event.ctrlKey || event.metaKey || event.altKey || (event.key !== "Escape" && event.target.matches("input, select, textarea")) || element("keys").open) return;
        event.preventDefault();
        key[2]();
    });
    for (const [name, text] of KEYS) {
        const row = add(element("keys").querySelector("table"), "tr");
        add(add(row, "td"), "kbd", name);
        add(row, "td", text);
    }
    const buttons = { in: () => zoom(0.5), out: () => zoom(2), back: () => pan(-0.5), on: () => pan(0.5), whole: () => look(whole()), help: () => element("keys").showModal(),
        open: () => element("file").click(), cancel, more: () => fill(2 * limit), unchanged: forget };
    new ResizeObserver(() => CHARTS.forEach(({ graph }) => graph?.resize())).observe(element("charts"));
    for (const [id, act] of Object.entries(buttons)) element(id).addEventListener("click", act);
    for (const id of ["tag", "flow", "cause", "lost", "marked", "within"]) element(id).addEventListener("change", () => fill());
    element("tag").addEventListener("keydown", async (event) => {
        if (event.key !== "Enter") return;
        await fill();
        if (PACKETS.length > 0) choose(PACKETS[0]);
    });
    element("link").addEventListener("submit", advise);
    element("ask").addEventListener("submit", command);
    element("saves").addEventListener("click", (event) => event.target.matches("button") && save(event));
    element("file").addEventListener("change", ({ target }) => target.files[0] && openText(target.files[0].name, target.files[0]));
    document.addEventListener("dragover", (event) => event.preventDefault());
    document.addEventListener("drop", (event) => {
        event.preventDefault();
        const [file] = event.dataTransfer.files;
        if (file) openText(file.name, file);
    });
    matchMedia("(prefers-color-scheme: dark)").addEventListener("change", () => points.rows.length > 0 && drawCharts());
}

// Forgets the other parameters and their curve.
function forget() {
    other = null;
    sliderValues();
    for (const id of ["columns", "deciding", "fate"]) element(id).replaceChildren();
    CHARTS.slice(0, 2).forEach((it) => it.graph && drawChart(it));
}

// Opens the history inside this file, which pie-report puts here, or waits for one.
async function begin() {
    const source = URL.createObjectURL(new Blob([element("engine").textContent], { type: "text/javascript" }));
    pool = new Pool(3, source);
    pool.program = await WebAssembly.compile(await unzipped(new Blob([bytesOf("module")])).arrayBuffer());
    pool.unpacker = await WebAssembly.compile(await unzipped(new Blob([bytesOf("unpacker")])).arrayBuffer());
    makeSliders();
    listen();
    const examples = await unzipped(new Blob([bytesOf("examples")])).json();
    for (const name of Object.keys(examples)) add(element("example"), "option", name, { value: name });
    element("example").addEventListener("change", ({ target }) => target.value && openText(target.value, new Blob([examples[target.value]])));
    const version = await ask(["--version"], { files: {} });
    say(element("foot"), "Each verdict, number and explanation is the output of ", { code: (await version.out.text()).trim() }, ", whose code is proved. This page draws it.");
    const inside = element("history").dataset;
    if (inside.name) {
        Object.assign(given, { from: inside.from ?? null, to: inside.to ?? null });
        flowNames = JSON.parse(inside.flows ?? "{}");
        await openText(inside.name, new Blob([bytesOf("history")]));
    }
    document.documentElement.dataset.state ??= "ready";
}

begin().catch((why) => {
    Object.assign(element("finding"), { hidden: false, className: "bad", textContent: `This page cannot run here: ${why.message}` });
    document.documentElement.dataset.state = "failed";
});
