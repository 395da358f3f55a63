import type { Link } from "./dimboetu.js";

/** A payload with its length before it. */
export declare function frame(payload: Uint8Array): Uint8Array;

/** Cuts a stream into payloads, however it comes. */
export declare class Frames {
    feed(piece: Uint8Array): void;
    /** The next payload, or null where more must come. Throws a Fault `toolong LENGTH`. */
    next(): Uint8Array | null;
}

/** A link to a server at this port of 127.0.0.1, or of another host. Where nobody listens yet it tries for 10,000 milliseconds, or so many. */
export declare function nodeLink(port: number, host?: string, wait?: number): Link;
