/**
 * PIE (RFC 8033) for a queue that the caller owns: the calls of pie.h, from the proved module. A call decides whether an arriving packet is
 * queued, marked or dropped. The caller has the packets, the clock and the source of random words.
 *
 *     let history = "";
 *     const pie = new Controller({ rate: 10_000_000 }, { write: (record) => (history += record) });
 *     const verdict = pie.arrive({ moment: 0, size: 1250, queued: 0, word: 42n, tag: 1 });
 *     const arrived = pie.state.moment;
 *     pie.update({ moment: pie.due, queued: 1250 });
 *     pie.depart({ moment: 16_000_000, size: 1250, left: 0, arrived, tag: 1 });
 *
 * `pie audit` repeats the decisions of a history, and `pie explain` explains them.
 *
 * Units: moments and times are nanoseconds from a start that the caller chooses; probabilities are in units of 10^-12; sizes are bytes.
 *
 * Errors: each call checks its arguments. It throws a PieError with the error of pie.h, or a RangeError if an argument is no whole number of the
 * argument's bits. The controller is then unchanged, and nothing is written.
 */

/** A whole number that is not negative: a number up to 2^53 - 1, or a bigint. */
export type Whole = number | bigint;

export type Verdict = "enqueue" | "mark" | "early" | "bytes" | "packets";

/** The ECN field of an IP header (RFC 3168, section 5). */
export type Ecn = "not" | "ect1" | "ect0" | "ce" | number;

/** Optional elements of RFC 8033. */
export type Choice = "delayStamp" | "pickRandom" | "stepUncapped" | "sizeScaled" | "decayHalf";

/** Parameters, as in struct pie_params. */
export interface Params<Number = bigint> {
    /** reference delay, 2 to 10^10 ns */
    target: Number;
    /** time between updates, 1 to 10^10 ns */
    t_update: Number;
    /** burst allowance, 0 to 10^12 ns */
    max_burst: Number;
    /** gain, 0 to 10^6 thousandths per second */
    alpha: Number;
    /** gain, 0 to 10^6 thousandths per second */
    beta: Number;
    /** mean packet size, 1 to 65535 bytes */
    mean_pkt: Number;
    /** the queue's limit, 1 to 2^30 bytes */
    limit_bytes: Number;
    /** ECN-capable packets are marked below this probability and dropped above, 0 to 10^12 */
    mark_ecnth: Number;
    /** bytes of a departure rate cycle, a power of two, 1024 to 65536 */
    dq_threshold: Number;
}

/** The configuration of a controller. What is left out has its default (pie_default_opening). */
export interface Opening {
    /** the link's bits per second, for the default of limit_bytes; 0: unknown (0) */
    rate?: Whole;
    params?: Partial<Params<Whole>>;
    /** moment of the opening (0) */
    moment?: Whole;
    /** 1: always active; 2: the controller turns itself on and off (1) */
    profile?: Whole;
    /** the optional elements (["delayStamp"]) */
    choices?: Choice[];
    /** 0: a full event log refuses further events; 1: it discards its oldest (1) */
    mode?: Whole;
    /** capacity of the queue in packets, 1 to 2^20 (2^20) */
    packets?: Whole;
    /** capacity of the event log in events, 1 to 2^20 (1024) */
    tail?: Whole;
    /** the most events of the history, 1 to 2^47 (2^47) */
    events?: Whole;
}

/** The state of a controller, as in struct pie_state. */
export interface State {
    params: Params;
    /** effective moment: the greatest moment so far. A packet's arrival moment, for `depart`, is this moment right after its arrival */
    moment: bigint;
    prob: bigint;
    old_delay: bigint;
    burst: bigint;
    last: bigint;
    accu: bigint;
    average: bigint;
    measuring: bigint;
    cycle_start: bigint;
    cycle_count: bigint;
    profile: bigint;
    active: bigint;
    choices: bigint;
    waited: bigint;
}

export interface Updated {
    /** the moment from which the next update is not too soon */
    due: bigint;
    /** the queueing delay that the update used, in ns */
    delay: bigint;
    /** the probability after the update */
    prob: bigint;
    /** the burst allowance after the update, in ns */
    burst: bigint;
}

/** An error of pie.h. */
export class PieError extends Error {
    constructor(code: number);
    /** its constant, such as PIE_TOO_SOON */
    name: string;
    /** its number */
    code: number;
}

/** The version of pie.h. */
export const version: string;

/** Returns the default parameters for a link of `rate` bits per second; 0: unknown. */
export function defaultParams(rate?: Whole): Params;

/** A controller of one queue. */
export class Controller {
    /**
     * Opens a controller. `write` receives each record of its history, with its line feed: `pie audit` reads their text.
     * @throws PIE_BAD_PARAMS, PIE_BAD_MOMENT, PIE_BAD_PROFILE, PIE_BAD_LIMITS
     */
    constructor(opening?: Opening, options?: { write?: (record: string) => void });

    /**
     * Returns a controller with the bits of a state, which `bits` returned. It writes no history.
     * @throws PIE_BAD_STATE
     */
    static of(bits: Uint8Array): Controller;

    /**
     * Decides an arriving packet. `queued`: the bytes in the queue without it. `word`: 64 random bits that no sender can predict. `room`: the number of
     * packets that the queue can still take (1). `tag` names the packet in the history, and `caller` the source of the event.
     * @throws PIE_BAD_MOMENT, PIE_BAD_SIZE, PIE_BAD_ECN, PIE_BAD_QUEUE
     */
    arrive(packet: { moment: Whole; size: Whole; queued: Whole; word: Whole; ecn?: Ecn; room?: Whole; tag?: Whole; caller?: Whole }): Verdict;

    /**
     * Records that a packet left the queue, which then has `left` bytes. `arrived`: `state.moment` right after its arrival.
     * @throws PIE_BAD_MOMENT, PIE_BAD_SIZE, PIE_BAD_QUEUE, PIE_BAD_ARRIVED
     */
    depart(packet: { moment: Whole; size: Whole; left: Whole; arrived: Whole; ecn?: Ecn; tag?: Whole; caller?: Whole }): void;

    /**
     * Records that a departure found the queue empty.
     * @throws PIE_BAD_MOMENT
     */
    empty(event: { moment: Whole; caller?: Whole }): void;

    /**
     * Updates probability and burst allowance, with `queued` bytes in the queue. Call it when the moment `due` has come.
     * @throws PIE_BAD_STATE, PIE_BAD_MOMENT, PIE_BAD_QUEUE, PIE_TOO_SOON
     */
    update(event: { moment: Whole; queued: Whole; caller?: Whole }): Updated;

    /**
     * Starts the controller anew, with its parameters.
     * @throws PIE_BAD_MOMENT
     */
    reset(event: { moment: Whole; caller?: Whole }): void;

    /**
     * Sets the parameters that are given, and clears the estimate of the departure rate.
     * @throws PIE_BAD_PARAMS, PIE_BAD_MOMENT
     */
    setParams(event: { moment: Whole; params: Partial<Params<Whole>>; caller?: Whole }): void;

    /**
     * Writes to the history that the wall-clock time was `unixTime`, in ns since 1970, at `moment`. No decision changes.
     * @throws PIE_BAD_MOMENT
     */
    clock(event: { moment: Whole; unixTime: Whole }): void;

    /** The moment from which the next update is not too soon. */
    get due(): bigint;
    get state(): State;
    /** The bits of the state, for `of`. */
    get bits(): Uint8Array;
}
