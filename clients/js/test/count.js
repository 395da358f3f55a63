/** What passed and what failed. */

import { inspect, isDeepStrictEqual } from "node:util";
import { actionBytes } from "../dimboetu.js";

export class Count {
    passed = 0;

    failed = 0;

    /** One thing tried. */
    expect(holds, name) {
        if (holds) this.passed += 1;
        else {
            this.failed += 1;
            console.log(`failed: ${name}`);
        }
    }

    /** Two things that must be equal. */
    same(given, wanted, name) {
        const show = one => inspect(one, { depth: 9, breakLength: 160 });
        this.expect(isDeepStrictEqual(given, wanted), `${name}:\n  got    ${show(given)}\n  wanted ${show(wanted)}`);
    }

    /** A call that must throw a fault of this message; answers the fault. */
    refuses(call, message, name) {
        try {
            call();
        } catch (fault) {
            this.same(fault.message, message, name);
            return fault;
        }
        this.expect(false, `${name}: it is not refused as ${message}`);
        return {};
    }

    /** A promise that must break with a fault of this message; resolves with the fault. */
    async breaks(promise, message, name) {
        try {
            await promise;
        } catch (fault) {
            this.same(fault.message, message, name);
            return fault;
        }
        this.expect(false, `${name}: it does not break with ${message}`);
        return {};
    }

    /** The last line, and the status. */
    close() {
        console.log(`${this.passed} passed, ${this.failed} failed`);
        process.exitCode = this.failed === 0 ? 0 : 1;
    }
}

/** A link whose other side is the test. */
export class TestLink {
    sent = [];

    isClosed = false;

    onMessage() {}

    onClose() {}

    send(bytes) {
        this.sent.push(Buffer.from(bytes).toString("hex"));
    }

    close() {
        this.isClosed = true;
    }

    /** What was sent since this was asked last. */
    said() {
        return this.sent.splice(0);
    }

    /** The server says this. */
    say(payload) {
        this.onMessage(typeof payload === "string" ? bytesOf(payload) : payload);
    }
}

/** Bytes in hexadecimal. */
export const bytesOf = text => new Uint8Array(Buffer.from(text.replaceAll(" ", ""), "hex"));

/** Bytes, as their hexadecimal text. */
export const hexOf = bytes => Buffer.from(bytes).toString("hex");

/** A number in so many bytes. */
function big(size, value) {
    const bytes = Buffer.alloc(8);
    bytes.writeBigInt64BE(BigInt(value));
    return [...bytes.subarray(8 - size)];
}

const headBytes = head => [...big(2, head.length), ...head.flatMap(([object, value]) =>
    [...big(2, object), value.length, ...value.flatMap(one => big(8, one))])];
const itemBytes = items => [items.length, ...items.flatMap(item =>
    [...big(4, item.position), ...big(2, item.client), ...big(4, item.number), ...actionBytes(item.action)])];

/** The payload of a reply, for tests in which a test is the server. */
export function encodeReply({ kind, number = 0, commit = 0, last = 0, head = [], items = [], ...more }) {
    const rest = { welcome: () => [0x81, ...big(4, commit), ...headBytes(head)],
        relay: () => [0x89, ...big(4, number), ...big(4, commit), ...headBytes(head), ...itemBytes(items)],
        seen: () => [0x8b, ...big(4, last), ...big(4, commit), ...headBytes(head), ...itemBytes(items)],
        dropped: () => [0x8a, ...big(4, number), ...big(4, more.chain), ...big(4, more.far)],
        denied: () => [0x8c, ...big(4, number), ...big(2, more.object)],
        settled: () => [0x84, ...big(4, number), ...big(4, more.position)],
        noted: () => [0x85, ...big(4, commit)], idle: () => [0x86], bye: () => [0x88],
        refused: () => [0x87, more.code, ...big(4, more.detail)] };
    return Uint8Array.from(rest[kind]());
}

/** A clock that goes on only when a test says so, in the place of setTimeout, clearTimeout and performance.now. */
export class Clock {
    now = 0;

    timers = new Map();

    constructor() {
        let made = 0;
        globalThis.setTimeout = (callback, milliseconds = 0) => {
            made += 1;
            this.timers.set(made, { at: this.now + milliseconds, callback });
            return made;
        };
        globalThis.clearTimeout = timer => { this.timers.delete(timer); };
        performance.now = () => this.now;
    }

    /** Lets so many milliseconds pass. */
    async pause(milliseconds) {
        const end = this.now + milliseconds;
        for (let due = await this.due(end); due; due = await this.due(end)) {
            this.timers.delete(due[0]);
            this.now = due[1].at;
            due[1].callback();
        }
        this.now = end;
    }

    /** The next timer that is due by then, once all that is under way is done. */
    async due(end) {
        await new Promise(done => { setImmediate(done); });
        return [...this.timers].filter(([, { at }]) => at <= end).sort(([, one], [, other]) => one.at - other.at)[0];
    }
}

/** Waits until something holds, for five seconds at most. */
export async function until(holds) {
    for (let tries = 0; !holds() && tries < 1000; tries += 1) await new Promise(done => { setTimeout(done, 5); });
}
