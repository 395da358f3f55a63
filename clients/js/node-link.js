/**
 * A link over a socket of node: each message of the wire is a frame, its length in four bytes and then the payload.
 *
 *     new Client({ connect: () => nodeLink(4000), .. })
 */

import { connect } from "node:net";
import { Fault } from "./dimboetu.js";

const MOST_PAYLOAD = 65_536;

/** A payload with its length before it. */
export function frame(payload) {
    const bytes = new Uint8Array(4 + payload.length);
    new DataView(bytes.buffer).setUint32(0, payload.length);
    bytes.set(payload, 4);
    return bytes;
}

/** Cuts a stream into payloads, however it comes. */
export class Frames {
    constructor() {
        this.rest = Buffer.alloc(0);
    }

    /** More bytes came. */
    feed(piece) {
        this.rest = Buffer.concat([this.rest, piece]);
    }

    /** The next payload, or null where more must come. Throws a Fault `toolong LENGTH`: nothing can be read behind it. */
    next() {
        const length = this.rest.length < 4 ? 0 : this.rest.readUInt32BE(0);
        if (length > MOST_PAYLOAD) throw new Fault(`toolong ${length}`, { length });
        if (this.rest.length < 4 + length) return null;
        const payload = new Uint8Array(this.rest.subarray(4, 4 + length));
        this.rest = this.rest.subarray(4 + length);
        return payload;
    }
}

/**
 * A link to a server at this port. It connects at once, or, where nobody listens yet, within so many milliseconds. What is sent
 * before it is connected waits.
 */
export function nodeLink(port, host = "127.0.0.1", wait = 10_000) {
    const end = performance.now() + wait, waiting = [], frames = new Frames();
    let socket = null, timer = null, reason = new Error("closed"), isOver = false;
    const told = () => {
        isOver = true;
        link.onClose(reason);
    };
    const link = { wasOpen: false, onMessage() {}, onClose() {},
        send(bytes) {
            if (isOver) queueMicrotask(told);
            else if (link.wasOpen) socket.write(frame(bytes));
            else waiting.push(bytes);
        },
        close() {
            clearTimeout(timer);
            if (link.wasOpen) socket.end();
            else socket.destroy();
            socket.unref();
            queueMicrotask(told);
        } };
    const takeAll = () => {
        for (let payload = frames.next(); payload; payload = frames.next()) link.onMessage(payload);
    };
    const open = () => {
        socket = connect({ port, host, noDelay: true });
        socket.on("connect", () => {
            link.wasOpen = true;
            reason = new Error("closed");
            for (const bytes of waiting.splice(0)) socket.write(frame(bytes));
        });
        socket.on("error", fault => { reason = fault; });
        socket.on("close", () => {
            if (isOver) return;
            if (reason.code === "ECONNREFUSED" && performance.now() < end) timer = setTimeout(open, 100);
            else told();
        });
        socket.on("data", receive);
    };
    const receive = piece => {
        frames.feed(piece);
        try {
            takeAll();
        } catch (fault) {
            if (!(fault instanceof Fault)) throw fault;
            reason = fault;
            socket.destroy();
        }
    };
    open();
    return link;
}
