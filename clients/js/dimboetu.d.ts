/** The attributes of one object. */
export type Value = readonly bigint[];

export type Operator = "+" | "-" | "*" | "/" | "%" | "min" | "max";
export type Sign = "==" | "<" | "<=";
export type Expression = readonly ["number", bigint] | readonly ["get", number, number]
    | readonly [Operator, Expression, Expression];
export type Condition = readonly [Sign, Expression, Expression] | readonly ["and" | "or", Condition, Condition]
    | readonly ["not", Condition];
export type Statement = readonly ["set", number, number, Expression]
    | readonly ["if", Condition, readonly Statement[], readonly Statement[]];

/** The names of the codes of a Refused, from 1 on. */
export declare const REFUSALS: readonly string[];

/** Why nothing was done, or why a reply was refused. docs/JAVASCRIPT.md has the table of them. */
export declare class Fault extends Error {
    constructor(message: string, more?: object);
    /** The first word of the message. */
    word: "outside" | "action" | "full" | "objects" | "closed" | "text" | "malformed" | "toolong" | "unasked" | "wrongkind"
        | "badorder" | "baditem" | "missing";
    /** Of `text` and `malformed`: the byte, counted from 0. */
    place?: number;
    /** Of `text`, `malformed` and `action`: the number of the cause. */
    cause?: number;
    /** Of `missing`. */
    position?: number;
    /** Of `missing`. */
    object?: number;
    /** Of `toolong`. */
    length?: number;
    /** Of `closed`: what the last try broke by. */
    reason?: Error | null;
    /** Of `unasked` and `wrongkind`: the server's refusal, where the reply was one. */
    refused?: { code: number; detail: number; name: string } | null;
}

/** An expression or a condition. */
export declare class Term {
    constructor(...node: unknown[]);
    node: Expression | Condition;
    plus(other: Operand): Term;
    minus(other: Operand): Term;
    times(other: Operand): Term;
    /** The quotient, cut towards zero. */
    dividedBy(other: Operand): Term;
    remainder(other: Operand): Term;
    min(other: Operand): Term;
    max(other: Operand): Term;
    equals(other: Operand): Term;
    lessThan(other: Operand): Term;
    atMost(other: Operand): Term;
    moreThan(other: Operand): Term;
    atLeast(other: Operand): Term;
    and(other: Term): Term;
    or(other: Term): Term;
    not(): Term;
    /** The statement that sets this attribute. */
    set(value: Operand): Statement;
}

/** A term, or a whole number. */
export type Operand = Term | bigint | number;

/** A number as a term, for the left side: `number(5).minus(gold)`. */
export declare function number(value: bigint | number): Term;

/** The object of this number, as in `obj(3).attr(0).plus(1)`. */
export declare function obj(object: number): { attr(attribute: number): Term };

/** The statement that does those of `then` where the condition holds, else those of `other`. */
export declare function when(condition: Term, then: Statement | Iterable<Statement>, other?: Statement | Iterable<Statement>): Statement;

/** The action that reads all objects which these statements name and writes those that they set, or more. */
export declare function action(statements: Statement | Iterable<Statement>,
    more?: { reads?: readonly number[]; writes?: readonly number[]; at?: readonly [number, number] }): Action;

/** Code over the objects that it reads, ascending. The mask says which slots are written; the body names slots. */
export declare class Action {
    constructor(reads: readonly number[], mask: number, origin: readonly number[], body: readonly Statement[]);
    readonly reads: readonly number[];
    readonly mask: number;
    readonly origin: readonly number[];
    readonly body: readonly Statement[];
    readonly writes: readonly number[];
    /** The first of the eleven causes for which a world of this shape refuses it, or null. */
    fault(objects: number, attributes: number): number | null;
    /** One value for each written object, from one for each read. Where it is void, nothing changes. */
    result(values: readonly Value[]): Value[];
    /** The canonical text. */
    toString(): string;
}

/** The action of a text. Throws a Fault `text PLACE CAUSE` where it is none. */
export declare function parseAction(text: string): Action;

/** The bytes of an action. */
export declare function actionBytes(act: Action): Uint8Array;

/** A message to the server. */
export type Request = { kind: "join"; client: number; life: number; interest: readonly number[] }
    | { kind: "submit"; number: number; action: Action }
    | { kind: "done"; results: readonly { position: number; values: readonly Value[] }[] }
    | { kind: "poll" } | { kind: "leave" } | { kind: "observe"; objects: readonly number[]; wait: number }
    | { kind: "hello"; key: ArrayLike<number> & Iterable<number> };

/** The payload of a request. */
export declare function encodeRequest(request: Request): Uint8Array;

/** A reply. What its kind does not have is null, or an empty list. */
export interface Reply {
    kind: "welcome" | "relay" | "dropped" | "seen" | "denied" | "settled" | "noted" | "idle" | "refused" | "bye";
    number: number | null;
    commit: number | null;
    last: number | null;
    head: [object: number, value: Value][];
    items: { position: number; client: number; number: number; action: Action }[];
    chain?: number;
    far?: number;
    object?: number;
    position?: number;
    code?: number;
    detail?: number;
}

/** The reply that a payload is. Throws a Fault `malformed PLACE CAUSE` where it is none. */
export declare function decodeReply(bytes: Uint8Array): Reply;

/** What a client keeps: versions, pending actions, numbers, and what is outstanding. It sends nothing. */
export declare class Knowledge {
    constructor(world: World);
    readonly number: number;
    readonly objects: number;
    readonly attributes: number;
    readonly interest: readonly number[];
    life: number;
    made: number;
    told: number;
    versions: Map<number, Map<number, Value>>;
    pending: { number: number; action: Action; kept: Value[] | null }[];
    outstanding: (Request | { kind: "number" })[];
    view(object: number): Value | null;
    add(own: number, act: Action): void;
    reconcile(): void;
    /** Takes a reply to the oldest outstanding request; where it throws a Fault nothing changes. */
    take(reply: Reply): { request: Request; results: { position: number; values: Value[] }[]; seen: Map<number, Value> | null };
}

/** A connection: it carries payloads, whole and in order. A client sets the two functions that it calls. */
export interface Link {
    /** Sends a payload, or keeps it until the connection is open. Throws nothing. */
    send(bytes: Uint8Array): void;
    close(): void;
    onMessage(bytes: Uint8Array): void;
    onClose(fault: Error): void;
    /** False as long as nothing can have been sent. A link may leave it out. */
    wasOpen?: boolean;
    /** True where the link shows the key by itself. Else the client says it first. */
    hasKey?: boolean;
}

/** The world's shape, and the player's place in it. */
export interface World {
    number: number;
    objects: number;
    attributes: number;
    /** The objects whose values a client is told when it joins. */
    interest?: readonly number[];
}

/** `new`, and then what `onStatus` tells. */
export type Status = "new" | "joining" | "joined" | "lost" | "left" | "closed" | "pushed out" | "refused";

export interface Options {
    /** Gives a new link for each session; it is given the key. Null ends it: there is no further one. */
    connect: (key: Uint8Array | null) => Link | null | undefined;
    /** 16 to 64 bytes, which are shown to the server first. */
    key?: Uint8Array | null;
    onChange?: (object: number, old: Value | null, now: Value | null) => void;
    onStatus?: (status: Status, fault: Error | null) => void;
    /** The time between two Observes of what is watched, in milliseconds: 100; a tenth of it over a server that waits for news. */
    pause?: number;
    /** For how many milliseconds the server may hold such an Observe: 25,000. */
    wait?: number;
    /** The first pause before joining again, the longest one, and the number of tries: 200, 10,000, Infinity. */
    retry?: { first?: number; longest?: number; tries?: number };
    /** How many requests a session may have: 1,024. */
    requests?: number;
    /** After how many milliseconds without a due reply the connection counts as broken: Infinity. */
    patience?: number;
}

/** What became of an action. */
export type Outcome = { number: number; kind: "accepted"; position: number }
    | { number: number; kind: "dropped"; chain: number; far: number }
    | { number: number; kind: "denied"; object: number };

/** All that a client keeps, as JSON can write it. */
export interface Saved extends World {
    interest: number[];
    knows: boolean;
    life: number;
    made: number;
    told: number;
    versions: [object: number, held: [position: number, value: string[]][]][];
    pending: [number: number, text: string, kept: string[][] | null][];
}

/** One player of a world. */
export declare class Client {
    constructor(options: World & Options);
    /** A client that goes on where another program's stood when it called `saved()`. */
    static fromSaved(saved: Saved, options: Options): Client;
    /** The older name of `fromSaved`. */
    static from(saved: Saved, options: Options): Client;
    saved(): Saved;
    readonly status: Status;
    readonly number: number;
    readonly life: number;
    /** The number of the last action that was made. */
    readonly made: number;
    readonly told: number;
    /** How many actions have no outcome yet. */
    readonly pending: number;
    readonly knowledge: Knowledge;
    /** The link of the present session. Close it to try what happens where the connection breaks. */
    readonly link: Link | null;
    view(object: number): Value | null;
    join(): Promise<void>;
    act(given: Action | string): Promise<Outcome>;
    /** The position of the abandoned action that is completed now, or null. */
    poll(): Promise<number | null>;
    observe(objects: readonly number[], wait?: number): Promise<{ last: number; values: Map<number, Value> }>;
    /** Calls back with the views of all these objects, and those that changed: once all are known, and at each change; until it answers
     * `true`, or `stop()` is called. */
    watch(objects: readonly number[], callback: (values: Map<number, Value | null>, changed: number[]) => unknown): { stop(): void };
    /** Resolves once nothing is watched. Breaks with the fault where the client stops before. */
    run(): Promise<void>;
    leave(): Promise<void>;
    close(): void;
}

/** What a link needs of a WebSocket. That of a browser will do. */
export interface Socket {
    binaryType: string;
    onopen: ((event: any) => void) | null;
    onmessage: ((event: any) => void) | null;
    onerror: ((event: any) => void) | null;
    onclose: ((event: any) => void) | null;
    send(bytes: Uint8Array): void;
    close(): void;
}

/** A link over a WebSocket of this class, or of the browser's own. A key is put into the address. */
export declare function webSocketLink(address: string, WebSocketClass?: new (address: string) => Socket,
    key?: Uint8Array | null): Link;
