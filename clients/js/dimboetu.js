/**
 * A client of a Dimboetu server, for browsers and node: one module, no dependencies, each rule from docs/WIRE.md.
 * docs/JAVASCRIPT.md shows how it is used.
 *
 *     const client = new Client({ number: 0, objects: 4, attributes: 2, interest: [0, 3], connect: () => nodeLink(4000) });
 *     await client.join();
 *     const gold = obj(3).attr(0);
 *     await client.act(action([gold.set(gold.plus(1))]));
 *     await client.leave();
 */

const LEAST = -(2n ** 63n), GREATEST = 2n ** 63n - 1n, FARTHEST = 1_000_000, LAST = 2 ** 32 - 1;
const MOST = { reads: 16, nodes: 64, above: 8, items: 33, pending: 8, outstanding: 16, observed: 16, wait: 65_535 };
/** The names of the codes of a Refused, from 1 on. */
export const REFUSALS = Object.freeze([
    "malformed", "not joined", "already joined", "over", "wrong sequence", "bad action", "bad results", "bad interest",
    "too many requests", "no such client", "old life", "full"]);

/** Why nothing was done, or why a reply was refused. `word` is the first word of its message. */
export class Fault extends Error {
    constructor(message, more = {}) {
        super(message);
        Object.assign(this, { name: "Fault", word: message.split(" ")[0] }, more);
    }
}

/** Whether each one is greater than the one before. */
const ascends = numbers => numbers.every((one, place) => place === 0 || numbers[place - 1] < one);
/** The numbers in order, each once. */
const ascending = numbers => [...new Set(numbers)].sort((one, other) => one - other);

// Nodes. A node is a list: its kind, and its fields. It names objects by slot.

const two = (byte, field) => [byte, field, field];
/** Each kind's byte, and the forms of its fields. */
const NODES = new Map(Object.entries({
    set: [0x10, "byte", "byte", "expression"], if: [0x11, "condition", "list", "list"],
    number: [0x20, "wide"], get: [0x21, "byte", "byte"], "+": two(0x22, "expression"), "-": two(0x23, "expression"),
    "*": two(0x24, "expression"), "/": two(0x25, "expression"), "%": two(0x26, "expression"),
    min: two(0x27, "expression"), max: two(0x28, "expression"), "==": two(0x30, "expression"),
    "<": two(0x31, "expression"), "<=": two(0x32, "expression"), and: two(0x33, "condition"), or: two(0x34, "condition"),
    not: [0x35, "condition"] }));
const KIND_OF_BYTE = new Map([...NODES].map(([kind, [byte]]) => [byte, kind]));
const OPERATORS = ["+", "-", "*", "/", "%", "min", "max"], SIGNS = ["==", "<", "<="];
const KINDS = { statement: ["set", "if"], expression: ["number", "get", ...OPERATORS], condition: [...SIGNS, "and", "or", "not"] };
const isNamed = ([kind]) => kind === "set" || kind === "get";

/** What a function makes of each field of a node: of its form, and of what stands there. */
const mapFields = ([kind, ...parts], make) => NODES.get(kind).slice(1).map((field, place) => make(field, parts[place]));

/** These nodes and all under them, each with the number of nodes above it. Throws where one may not stand so. */
function nodesOf(nodes, allowed = "statement", above = 0, found = []) {
    for (const node of nodes) {
        if (!Array.isArray(node) || !KINDS[allowed].includes(node[0])) throw misplaced(node, allowed);
        found.push([node, above]);
        mapFields(node, (field, part) => {
            if (field === "list" || field in KINDS) {
                nodesOf(field === "list" ? part : [part], field === "list" ? "statement" : field, above + 1, found);
            } else if (!(field === "wide" ? isWide(part) : Number.isInteger(part) && part >= 0)) {
                throw misplaced(part, `whole number${field === "wide" ? " of 64 bits" : ""}`);
            }
        });
    }
    return found;
}

/** What stands there, in words. */
function saidOf(part) {
    const [kind, value] = part instanceof Term ? part.node : Array.isArray(part) ? part : [];
    if (!NODES.has(kind)) return typeof part === "string" ? `'${part}'` : part && typeof part === "object" ? "an object" : String(part);
    if (kind === "get" || kind === "number") return kind === "get" ? "an attribute" : String(value);
    return `the ${Object.keys(KINDS).find(name => KINDS[name].includes(kind))} \`${kind}\``;
}

const misplaced = (part, wanted) => new TypeError(`${saidOf(part)} stands where a${/^[ae]/.test(wanted) ? "n" : ""} ${wanted} belongs`);

/** These statements, and those of lists among them; also one alone. */
function listOf(given) {
    const isNode = typeof given === "string" || (Array.isArray(given) && typeof given[0] === "string");
    return isNode || typeof given?.[Symbol.iterator] !== "function" ? [given] : [...given].flatMap(listOf);
}

const isWide = part => typeof part === "bigint" && LEAST <= part && part <= GREATEST;

// A builder of actions.

/** An expression or a condition. */
export class Term {
    constructor(...node) { this.node = node; }

    plus(other) { return joined("+", this, other); }
    minus(other) { return joined("-", this, other); }
    times(other) { return joined("*", this, other); }
    dividedBy(other) { return joined("/", this, other); }
    remainder(other) { return joined("%", this, other); }
    min(other) { return joined("min", this, other); }
    max(other) { return joined("max", this, other); }
    equals(other) { return joined("==", this, other); }
    lessThan(other) { return joined("<", this, other); }
    atMost(other) { return joined("<=", this, other); }
    moreThan(other) { return joined("<", other, this); }
    atLeast(other) { return joined("<=", other, this); }
    and(other) { return joined("and", this, other); }
    or(other) { return joined("or", this, other); }
    not() { return new Term("not", this.node); }

    /** The statement that sets this attribute. */
    set(value) {
        if (this.node[0] !== "get") throw new TypeError(`only an attribute can be set, as obj(3).attr(0): ${saidOf(this)} can't`);
        return ["set", this.node[1], this.node[2], nodeOf(value)];
    }

    [Symbol.toPrimitive]() {
        throw new TypeError("no operator works here: write .plus, .lessThan, .and and the like");
    }
}

/** The node of a term, or of a whole number. */
function nodeOf(value) {
    if (value instanceof Term) return value.node;
    if (typeof value !== "bigint" && !Number.isSafeInteger(value)) throw misplaced(value, "term or a whole number");
    return ["number", BigInt(value)];
}

const joined = (kind, left, right) => new Term(kind, nodeOf(left), nodeOf(right));
/** A number as a term, for the left side: `number(5).minus(gold)`. */
export const number = value => new Term(...nodeOf(value));
/** The object of this number, as in `obj(3).attr(0).plus(1)`. */
export const obj = object => ({ attr: attribute => new Term("get", object, attribute) });
/** The statement that does those of `then` where the condition holds, else those of `other`. */
export function when(condition, then, other = []) {
    if (!(condition instanceof Term) || !KINDS.condition.includes(condition.node[0])) throw misplaced(condition, "condition");
    return ["if", condition.node, listOf(then), listOf(other)];
}

/** The action that reads all objects which these statements name and writes those that they set, or more. */
export function action(given, { reads = [], writes = [], at = [0, 0] } = {}) {
    const statements = listOf(given), named = nodesOf(statements).map(([node]) => node).filter(isNamed);
    const written = ascending([...named.filter(([kind]) => kind === "set").map(([, object]) => object), ...writes]);
    const slots = ascending([...named.map(([, object]) => object), ...written, ...reads]);
    return new Action(slots, maskOf(slots, written), [...at], statements.map(each => slotted(each, slots)));
}

/** A node that names objects, as one that names their slots. */
function slotted(node, slots) {
    const parts = mapFields(node, (field, part) =>
        field === "list" ? part.map(each => slotted(each, slots)) : field in KINDS ? slotted(part, slots) : part);
    if (isNamed(node)) parts[0] = slots.indexOf(parts[0]);
    return [node[0], ...parts];
}

const maskOf = (slots, written) => written.reduce((mask, object) => mask + 2 ** slots.indexOf(object), 0);
const hasSlot = (mask, slot) => Math.floor(mask / 2 ** slot) % 2 === 1;

// Evaluation, exact to 64 bits.

/** The action leaves 64 bits, or divides by zero. */
class Void extends Error {}

const OPERATIONS = {
    "+": (left, right) => left + right, "-": (left, right) => left - right, "*": (left, right) => left * right,
    "/": (left, right) => left / divisor(right),
    "%": (left, right) => left === LEAST && right === -1n ? GREATEST + 1n : left % divisor(right),
    min: (left, right) => left < right ? left : right, max: (left, right) => left < right ? right : left,
    "==": (left, right) => left === right, "<": (left, right) => left < right, "<=": (left, right) => left <= right,
    and: (left, right) => left && right, or: (left, right) => left || right, not: left => !left };

function divisor(right) {
    if (right === 0n) throw new Void();
    return right;
}

/** What an expression or a condition gives, on one list of attributes for each slot. */
function valueOf([kind, ...parts], values) {
    if (kind === "number") return parts[0];
    if (kind === "get") return values[parts[0]][parts[1]];
    const value = OPERATIONS[kind](...parts.map(part => valueOf(part, values)));
    if (typeof value === "bigint" && !isWide(value)) throw new Void();
    return value;
}

/** Runs statements in order; each sees what earlier ones set. */
function carryOut(statements, values) {
    for (const [kind, ...parts] of statements) {
        if (kind === "set") values[parts[0]][parts[1]] = valueOf(parts[2], values);
        else carryOut(valueOf(parts[0], values) ? parts[1] : parts[2], values);
    }
}

/** Code over the objects that it reads, ascending. The mask says which slots are written. */
export class Action {
    constructor(reads, mask, origin, body) {
        Object.assign(this, { reads, mask, origin, body, writes: reads.filter((_, slot) => hasSlot(mask, slot)) });
        Object.freeze(this);
    }

    /** The first of the eleven causes for which a world of this shape refuses it, or null. */
    fault(objects, attributes) {
        const { reads, mask, origin } = this, inner = nodesOf(this.body), named = inner.map(([node]) => node).filter(isNamed);
        return [reads.length === 0, reads.length > MOST.reads, !ascends(reads),
            reads.some(one => !(0 <= one && one < objects)), mask >= 2 ** reads.length,
            named.some(([, slot]) => slot >= reads.length),
            named.some(([kind, slot]) => kind === "set" && !hasSlot(mask, slot)),
            named.some(([, , attribute]) => attribute >= attributes), inner.length > MOST.nodes,
            inner.some(([, above]) => above >= MOST.above), origin.some(one => Math.abs(one) > FARTHEST),
        ].indexOf(true) + 1 || null;
    }

    /** One value for each written object, from one for each read. Where it is void, nothing changes. */
    result(values) {
        let after = values.map(value => [...value]);
        try {
            carryOut(this.body, after);
        } catch (fault) {
            if (!(fault instanceof Void)) throw fault;
            after = values;
        }
        return after.filter((_, slot) => hasSlot(this.mask, slot)).map(Object.freeze);
    }

    /** The canonical text. */
    toString() {
        const origin = this.origin.some(one => one !== 0) ? ["at", ...this.origin] : [];
        return ["reads", ...this.reads, "writes", ...this.writes, ...origin, blockText(this.body, this.reads)].join(" ");
    }
}

// Texts of actions.

const blockText = (statements, reads) => ["{", ...statements.map(each => nodeText(each, reads)), "}"].join(" ");

function nodeText([kind, ...parts], reads) {
    const text = part => nodeText(part, reads);
    if (kind === "number") return String(parts[0]);
    if (kind === "get") return `@${reads[parts[0]]}.${parts[1]}`;
    if (kind === "set") return `set @${reads[parts[0]]}.${parts[1]} ${text(parts[2])};`;
    if (kind === "not") return `not ${text(parts[0])}`;
    if (SIGNS.includes(kind)) return `[${text(parts[0])} ${kind} ${text(parts[1])}]`;
    if (kind !== "if") return `(${text(parts[0])} ${kind} ${text(parts[1])})`;
    return `if ${text(parts[0])} ${blockText(parts[1], reads)}${parts[2].length ? ` else ${blockText(parts[2], reads)}` : ""}`;
}

/** The action of a text. Throws a Fault `text PLACE CAUSE`, with `place` and `cause`, where it is none. */
export const parseAction = text => new TextReader(String(text)).action();

const PIECE = /[ \t\r\n]*(?:(?<number>-?[0-9]+)|(?<ref>@[0-9]+\.[0-9]+)|(?<word>[a-z]+)|(?<sign>==|<=|[()[\]{};+\-*/%<]))?/y;

/** Reads a text from left to right. What stands before its first fault is ASCII, so its places count bytes. */
class TextReader {
    constructor(text) {
        Object.assign(this, { text, end: 0, kind: "start", nodes: 0, reads: [] });
        this.advance();
    }

    /** Goes on to the next piece, which is the longest that fits. */
    advance() {
        const { kind, end } = this, isWordy = one => one === "word" || one === "number";
        PIECE.lastIndex = end;
        const [whole, ...groups] = PIECE.exec(this.text);
        this.piece = groups.find(one => one !== undefined) ?? "";
        this.end = end + whole.length;
        this.place = this.end - this.piece.length;
        this.kind = ["number", "ref", "word", "sign"][groups.indexOf(this.piece)] ?? (this.end < this.text.length ? "none" : "end");
        this.isGlued = this.place === end && isWordy(kind) && isWordy(this.kind);
        this.number = this.kind === "number" && this.piece.length < 32 ? BigInt(this.piece) : GREATEST + 1n;
        [this.object, this.attribute] = this.kind === "ref" ? this.piece.slice(1).split(".").map(Number) : [];
    }

    /** Refuses the piece for the least of these causes that applies, its own among them. */
    look(...causes) {
        const isWrong = /^-?0[0-9]|^-0$|^@0[0-9]|\.0[0-9]/.test(this.piece) || this.object > 65_535 || this.attribute > 255;
        const all = [[1, this.kind === "none"], [2, isWrong], [3, this.isGlued], ...causes];
        const cause = Math.min(...all.filter(([, applies]) => applies).map(([each]) => each));
        if (cause < Infinity) throw new Fault(`text ${this.place} ${cause}`, { place: this.place, cause });
    }

    /** Whether one of these words or signs stands next. */
    stands(...pieces) {
        return (this.kind === "word" || this.kind === "sign") && pieces.includes(this.piece);
    }

    /** Takes one of these words or signs, and answers it. */
    take(...pieces) {
        const { piece } = this;
        this.look([3, !this.stands(...pieces)]);
        this.advance();
        return piece;
    }

    /** A number that is due has to be of this range. */
    range(least, greatest) {
        return [2, this.kind === "number" && (this.number < least || this.number > greatest)];
    }

    /** Takes a number of this range, unless one more cause applies to it. */
    whole(least, greatest, causes = () => []) {
        const found = Number(this.number);
        this.look(this.range(least, greatest), [3, this.kind !== "number"], ...causes(found));
        this.advance();
        return found;
    }

    action() {
        const { reads } = this, writes = [], origin = [0, 0];
        this.take("reads");
        do {
            reads.push(this.whole(0, 65_535, one => [[5, one <= reads.at(-1)], [6, reads.length === MOST.reads]]));
        } while (this.kind === "number");
        this.take("writes");
        while (this.kind === "number") {
            writes.push(this.whole(0, 65_535, one => [[4, !reads.includes(one)], [5, one <= writes.at(-1)]]));
        }
        if (this.stands("at")) {
            this.take("at");
            origin.splice(0, 2, this.whole(-FARTHEST, FARTHEST), this.whole(-FARTHEST, FARTHEST));
        }
        const body = this.block(0);
        this.look([3, this.kind !== "end"]);
        return new Action(reads, maskOf(reads, writes), origin, body);
    }

    block(above) {
        const statements = [];
        this.take("{");
        while (!this.stands("}")) statements.push(this.statement(above));
        this.take("}");
        return statements;
    }

    /** Takes the first piece of a node, unless one more cause applies to it. */
    begin(above, ...causes) {
        this.look(...causes, [7, this.nodes === MOST.nodes], [8, above === MOST.above]);
        this.nodes += 1;
        this.advance();
    }

    statement(above) {
        this.look([3, !this.stands("set", "if")]);
        const { piece } = this;
        this.begin(above);
        if (piece === "if") {
            const condition = this.condition(above + 1), then = this.block(above + 1);
            return ["if", condition, then, this.stands("else") && this.take("else") ? this.block(above + 1) : []];
        }
        const { object, attribute } = this;
        this.look(...this.refCauses());
        this.advance();
        const value = this.expression(above + 1);
        this.take(";");
        return ["set", this.reads.indexOf(object), attribute, value];
    }

    refCauses() {
        return [[3, this.kind !== "ref"], [4, this.kind === "ref" && !this.reads.includes(this.object)]];
    }

    expression(above) {
        const { kind, number: literal, object, attribute } = this;
        if (this.stands("(")) return this.pair(above, () => this.expression(above + 1), OPERATORS, ")");
        this.begin(above, ...(kind === "number" ? [this.range(LEAST, GREATEST)] : this.refCauses()));
        return kind === "number" ? ["number", literal] : ["get", this.reads.indexOf(object), attribute];
    }

    condition(above) {
        if (this.stands("[")) return this.pair(above, () => this.expression(above + 1), SIGNS, "]");
        if (this.stands("(")) return this.pair(above, () => this.condition(above + 1), ["and", "or"], ")");
        this.look([3, !this.stands("not")]);
        this.begin(above);
        return ["not", this.condition(above + 1)];
    }

    /** Two parts in brackets, with one of the joints between them. */
    pair(above, part, joints, end) {
        this.begin(above);
        const left = part(), kind = this.take(...joints), right = part();
        this.take(end);
        return [kind, left, right];
    }
}

// Messages.

const hex = byte => byte.toString(16).padStart(2, "0");
/** A number in so many bytes. */
const big = (size, value) =>
    Array.from({ length: size }, (_, place) => Number(BigInt(value) >> BigInt(8 * (size - 1 - place)) & 255n));
const objectBytes = objects => [objects.length, ...objects.flatMap(one => big(2, one))];
const valueBytes = value => [value.length, ...value.flatMap(one => big(8, one))];
const listBytes = statements => [...big(1, statements.length), ...statements.flatMap(nodeBytes)];
const nodeBytes = node => [NODES.get(node[0])[0], ...mapFields(node, (field, part) => field === "list" ? listBytes(part)
    : field in KINDS ? nodeBytes(part) : big(field === "wide" ? 8 : 1, part)).flat()];
/** The bytes of an action. */
export const actionBytes = act => Uint8Array.from([
    ...objectBytes(act.reads), ...big(2, act.mask), ...act.origin.flatMap(one => big(4, one)), ...listBytes(act.body)]);

const REQUESTS = {
    join: ({ client, life, interest }) => [0x01, ...big(2, client), ...big(4, life), ...objectBytes(interest)],
    submit: request => [0x06, ...big(4, request.number), ...actionBytes(request.action)],
    done: ({ results }) => [0x03, results.length, ...results.flatMap(({ position, values }) =>
        [...big(4, position), values.length, ...values.flatMap(valueBytes)])],
    poll: () => [0x04], observe: ({ objects, wait }) => [0x07, ...objectBytes(objects), ...big(2, wait)],
    leave: () => [0x05], hello: ({ key }) => [0x08, key.length, ...key] };
/** The payload of a request. */
export const encodeRequest = request => Uint8Array.from(REQUESTS[request.kind](request));

/** The kind byte of each reply, its kind, and its fields. */
const REPLIES = new Map([
    [0x81, ["welcome", "commit", "head"]], [0x89, ["relay", "number", "commit", "head", "items"]],
    [0x8a, ["dropped", "number", "chain", "far"]], [0x8b, ["seen", "last", "commit", "head", "items"]],
    [0x8c, ["denied", "number", "object"]], [0x84, ["settled", "number", "position"]], [0x85, ["noted", "commit"]],
    [0x86, ["idle"]], [0x87, ["refused", "code", "detail"]], [0x88, ["bye"]]]);
const SIZES = { Uint8: 1, Uint16: 2, Uint32: 4, Int32: 4, BigInt64: 8 };
const SHORT = 1, KIND = 2, COUNT = 3, ORDER = 4, MASK = 5, CODE = 6, LARGE = 7, DEEP = 8, REST = 9;
const malformed = (place, cause) => new Fault(`malformed ${place} ${cause}`, { place, cause });
/** The reply that a payload is. Throws a Fault `malformed PLACE CAUSE`, with `place` and `cause`, where it is none. */
export const decodeReply = bytes => new Payload(bytes).reply();

/** Reads a payload from left to right, up to the first field that may not be so. */
class Payload {
    constructor(bytes) {
        this.view = new DataView(bytes.buffer, bytes.byteOffset, bytes.byteLength);
        this.at = 0;
    }

    /** A number of this form, unless a cause applies to it. */
    take(form, causes = () => []) {
        const start = this.at;
        this.at += SIZES[form];
        if (this.at > this.view.byteLength) throw malformed(start, SHORT);
        const found = this.view[`get${form}`](start);
        const cause = causes(found).find(([, applies]) => applies);
        if (cause) throw malformed(start, cause[0]);
        return found;
    }

    /** A count of this range, and so many parts. */
    list(form, least, most, part) {
        return Array.from({ length: this.take(form, count => [[COUNT, count < least || count > most]]) }, part);
    }

    /** One more object, which is above those before it. */
    objectAbove(objects) {
        objects.push(this.take("Uint16", one => [[ORDER, one <= objects.at(-1)]]));
        return objects.at(-1);
    }

    head(most) {
        const objects = [];
        return this.list("Uint16", 0, most, () =>
            [this.objectAbove(objects), Object.freeze(this.list("Uint8", 1, 4, () => this.take("BigInt64")))]);
    }

    items() {
        return this.list("Uint8", 0, MOST.items, () => ({ position: this.take("Uint32"), client: this.take("Uint16"),
            number: this.take("Uint32"), action: this.action() }));
    }

    action() {
        const reads = [];
        this.list("Uint8", 1, MOST.reads, () => this.objectAbove(reads));
        const mask = this.take("Uint16", one => [[MASK, one >= 2 ** reads.length]]);
        this.nodes = 0;
        return new Action(reads, mask, [this.take("Int32"), this.take("Int32")], this.statements(0));
    }

    statements(above) {
        return this.list("Uint8", 0, 255, () => this.node("statement", above));
    }

    node(allowed, above) {
        const kind = KIND_OF_BYTE.get(this.take("Uint8", byte => [[KIND, !KINDS[allowed].includes(KIND_OF_BYTE.get(byte))],
            [LARGE, this.nodes === MOST.nodes], [DEEP, above >= MOST.above]]));
        this.nodes += 1;
        return [kind, ...mapFields([kind], field => field === "list" ? this.statements(above + 1)
            : field in KINDS ? this.node(field, above + 1) : this.take(field === "wide" ? "BigInt64" : "Uint8"))];
    }

    reply() {
        const [kind, ...fields] = REPLIES.get(this.take("Uint8", byte => [[KIND, !REPLIES.has(byte)]]));
        const reply = { kind, number: null, commit: null, last: null, head: [], items: [] };
        for (const field of fields) {
            reply[field] = field === "head" ? this.head(kind === "seen" ? 544 : 528) : field === "items" ? this.items()
                : field === "code" ? this.take("Uint8", code => [[CODE, code < 1 || code > REFUSALS.length]])
                : this.take(field === "object" ? "Uint16" : "Uint32");
        }
        if (this.at < this.view.byteLength) throw malformed(this.at, REST);
        return reply;
    }
}

// What a client keeps.

const FITS = { join: ["welcome"], submit: ["relay", "dropped", "denied", "settled"], done: ["noted"], number: [],
    poll: ["relay", "idle"], observe: ["seen"], leave: ["bye"] };

/** The version at the greatest position below this one, or null. */
function below(position, held = new Map()) {
    const places = [...held.keys()].filter(place => place < position);
    return places.length ? held.get(Math.max(...places)) : null;
}

/** Versions, pending actions, numbers, and what is outstanding. It sends nothing: a Client does. */
export class Knowledge {
    constructor({ number: own, objects, attributes, interest = [], ...other }) {
        for (const name of Object.keys(other)) throw new TypeError(`there is no option ${name}`);
        for (const [name, value, least, most] of [["number", own, 0, 65_534], ["objects", objects, 1, 65_535], ["attributes", attributes, 1, 4]]) {
            if (Number.isInteger(value) && least <= value && value <= most) continue;
            throw new TypeError(`${name}: a whole number from ${least} to ${most} belongs there, and not ${value}`);
        }
        Object.assign(this, { number: own, objects, attributes, interest: ascending(interest), life: 0, made: 0, told: 0,
            versions: new Map(), pending: [], outstanding: [] });
    }

    /** What the last pending action that writes the object keeps, else its version at the greatest position; or null. */
    view(object) {
        const last = this.pending.findLast(each => each.action.writes.includes(object));
        return last ? last.kept && last.kept[last.action.writes.indexOf(object)] : below(Infinity, this.versions.get(object));
    }

    /** One more pending action. It keeps its result on the views of its reads, or null where one is unknown. */
    add(own, act) {
        const views = act.reads.map(object => this.view(object));
        this.pending.push({ number: own, action: act, kept: views.includes(null) ? null : act.result(views) });
    }

    /** Computes the kept results of all pending actions again, in order. */
    reconcile() {
        for (const { number: own, action: act } of this.pending.splice(0)) this.add(own, act);
    }

    /** Throws the first fault of a reply, but for missing values. */
    look(reply) {
        const request = this.outstanding[0], { commit, last, code, detail } = reply;
        if (!request || !FITS[request.kind].includes(reply.kind)) {
            const refused = reply.kind === "refused" ? { code, detail, name: REFUSALS[code - 1] } : null;
            throw new Fault(request ? "wrongkind" : "unasked", { refused });
        }
        const places = reply.items.map(item => item.position);
        if (!ascends(places) || !ascends(reply.head.map(([object]) => object))
            || (commit !== null && (commit < this.told || commit >= (places[0] ?? Infinity)))
            || (last !== null && (last < commit || last < (places.at(-1) ?? 0) || last === LAST))) {
            throw new Fault("badorder");
        }
        if (reply.head.some(([object, value]) => object >= this.objects || value.length !== this.attributes)
            || reply.items.some(item => item.action.fault(this.objects, this.attributes) !== null)
            || (reply.kind === "relay" && !places.length) || !this.isFor(request, reply)) {
            throw new Fault("baditem");
        }
    }

    /** Whether the reply is about the front pending action where the request is a Submit, and else about none. */
    isFor(request, reply) {
        const front = request.kind === "submit" ? this.pending[0] : null, item = reply.items.at(-1);
        return (reply.number === null || reply.number === (front?.number ?? 0)) && (!front || !item
            || (item.client === this.number && item.number === front.number
                && String(actionBytes(item.action)) === String(actionBytes(front.action))));
    }

    /** Takes a reply to the oldest outstanding request; where it is refused nothing changes. */
    take(reply) {
        this.look(reply);
        const request = this.outstanding[0], news = new Map();
        const put = (object, position, value) => {
            if (!news.has(object)) news.set(object, new Map(this.versions.get(object)));
            news.get(object).set(position, value);
        };
        const read = (position, object) => {
            const value = below(position, news.get(object) ?? this.versions.get(object));
            if (!value) throw new Fault(`missing ${position} ${object}`, { position, object });
            return value;
        };
        for (const [object, value] of reply.head) put(object, reply.commit, value);
        const results = reply.items.map(({ position, action: act }) => {
            const values = act.result(act.reads.map(object => read(position, object)));
            act.writes.forEach((object, place) => put(object, position, values[place]));
            return { position, values };
        });
        const seen = request.kind === "observe"
            ? new Map(request.objects.map(object => [object, read(reply.last + 1, object)])) : null;
        this.told = reply.commit ?? this.told;
        for (const [object, held] of news) this.versions.set(object, held);
        this.outstanding.shift();
        this.forget();
        this.settle(request, reply, results);
        return { request, results, seen };
    }

    /** Forgets of each object's versions at or below the told commit all but the last. */
    forget() {
        for (const held of this.versions.values()) {
            const old = held.size > 1 ? [...held.keys()].filter(place => place <= this.told) : [];
            for (const place of old) if (place < Math.max(...old)) held.delete(place);
        }
    }

    /** What becomes of the pending actions. */
    settle(request, reply, results) {
        const done = request.kind === "submit" ? this.pending.shift() : null;
        const isNew = done && (!results.length || String(done.kept) !== String(results.at(-1).values));
        if (isNew || (request.kind === "observe" && (reply.head.length || results.length))) this.reconcile();
    }
}

// The client.

/** Calls what is not ours. What it throws comes up by itself, and stops nothing here. */
function call(callback, ...words) {
    try {
        return callback(...words);
    } catch (fault) {
        return queueMicrotask(() => { throw fault; });
    }
}

/** By an action of number 0 a client asks for its next number. */
const NUMBER_ASKED = { kind: "submit", number: 0, action: new Action([0], 0, [0, 0], []) };

/** One player of a world. `connect` gives a link for each session. */
export class Client {
    constructor({ connect, key = null, onChange = () => {}, onStatus = () => {}, pause = 100, wait = 25_000,
        retry = {}, requests = 1024, patience = Infinity, ...world }) {
        if (typeof connect !== "function") throw new TypeError("connect: a function belongs there, which gives a link");
        if (key !== null && !(key instanceof Uint8Array)) {
            throw new TypeError(`key: bytes belong there, as new TextEncoder().encode(".."), and no ${typeof key}`);
        }
        if (key && !(key.length >= 16 && key.length <= 64)) throw new TypeError("key: 16 to 64 bytes belong there");
        const knowledge = new Knowledge(world), seen = new Map(knowledge.interest.map(object => [object, null]));
        Object.assign(this, { knowledge, seen, connect, key, onChange, onStatus, pause, wait, requests, patience,
            retry: { first: 200, longest: 10_000, tries: Infinity, ...retry }, status: "new", knows: false, isLeaving: false,
            isTelling: false, link: null, entry: null, left: null, running: null, asked: 0, submitted: 0, tries: 0, queue: [], answers: new Set(),
            outcomes: new Map(), watchers: new Set(), looked: null, holds: true });
    }

    /** A client that goes on where another program's stood when it called `saved()`. */
    static fromSaved({ versions, pending, knows, life, made, told, ...world }, more) {
        const client = new Client({ ...world, ...more }), value = texts => Object.freeze(texts.map(BigInt));
        client.knows = knows;
        Object.assign(client.knowledge, { life, made, told,
            versions: new Map(versions.map(([object, held]) =>
                [object, new Map(held.map(([position, texts]) => [position, value(texts)]))])),
            pending: pending.map(([own, text, kept]) =>
                ({ number: own, action: parseAction(text), kept: kept && kept.map(value) })) });
        return client;
    }

    /** The older name of `fromSaved`. */
    static from(saved, more) {
        return Client.fromSaved(saved, more);
    }

    /** All that the client keeps, as plain data: BigInts are texts. */
    saved() {
        const { number: own, objects, attributes, interest, life, made, told, versions, pending } = this.knowledge;
        const texts = value => value.map(String);
        return { number: own, objects, attributes, interest: [...interest], knows: this.knows, life, made, told,
            versions: [...versions].map(([object, held]) => [object, [...held].map(([place, value]) => [place, texts(value)])]),
            pending: pending.map(each => [each.number, String(each.action), each.kept && each.kept.map(texts)]) };
    }

    get number() { return this.knowledge.number; }
    get life() { return this.knowledge.life; }
    get made() { return this.knowledge.made; }
    get told() { return this.knowledge.told; }
    get pending() { return this.knowledge.pending.length; }

    /** What the client sees of an object: a list of BigInts, or null where it knows nothing. */
    view(object) {
        return this.knowledge.view(object);
    }

    /** Begins a session, the next one where it is in one. Resolves when the client is in the world. */
    join() {
        this.entry ??= this.promised();
        const { promise } = this.entry;
        Object.assign(this, { isLeaving: false, tries: 0 });
        this.begin();
        return promise;
    }

    /** Makes an action, given as one or as a text. Views show it at once; resolves with what became of it. */
    act(given) {
        if (!(given instanceof Action) && typeof given !== "string") throw misplaced(given, "action, or its text,");
        const act = given instanceof Action ? given : parseAction(given), { pending, objects, attributes } = this.knowledge;
        this.needWorld();
        const cause = act.fault(objects, attributes);
        if (cause !== null) throw new Fault(`action ${cause}`, { cause });
        if (pending.length === MOST.pending) throw new Fault("full");
        const answer = this.promised();
        this.knowledge.made += 1;
        this.knowledge.add(this.made, act);
        this.outcomes.set(this.made, answer);
        this.pump();
        this.tell();
        return answer.promise;
    }

    /** Asks for an abandoned action, and completes it. Resolves with its position, or null where there is none. */
    poll() {
        return this.request({ kind: "poll" });
    }

    /** Asks what 1 to 16 objects, ascending, are at one position. A server may wait so many milliseconds for news. */
    observe(objects, wait = 0) {
        if (objects.length > MOST.observed) throw new Fault("objects");
        this.needObjects(objects);
        if (!(Number.isInteger(wait) && 0 <= wait && wait <= MOST.wait)) throw new TypeError("a wait is 0 to 65535");
        return this.request({ kind: "observe", objects: [...objects], wait });
    }

    /** Calls back with the views of all these objects, and those that changed: once all are known, and at each change; until it
     * answers `true`, or `stop()` of what `watch` gives back is called. */
    watch(objects, callback) {
        if (typeof callback !== "function") throw new TypeError("watch: a function belongs there, which is called with the views");
        const watcher = { objects: ascending(objects), callback, told: null };
        this.needObjects(watcher.objects);
        this.needWorld();
        this.watchers.add(watcher);
        this.lookAnew();
        this.pump();
        queueMicrotask(() => this.tell());
        watcher.stop = () => {
            this.watchers.delete(watcher);
            this.endRun();
        };
        return { stop: watcher.stop };
    }

    /** Resolves once nothing is watched. Breaks with the fault where the client stops before. */
    run() {
        this.needWorld();
        this.running ??= this.promised();
        const { promise } = this.running;
        this.endRun();
        return promise;
    }

    /** Nothing may be watched any more. */
    endRun() {
        if (this.watchers.size) return;
        this.running?.resolve();
        this.running = null;
    }

    /** Leaves, once all that was asked is answered. Resolves when the session is over. */
    leave() {
        this.needWorld();
        this.stopWatching();
        this.endRun();
        this.isLeaving = true;
        this.left = this.promised();
        const { promise } = this.left, held = this.knowledge.outstanding.findLast(each => each.wait > 0);
        if (held) this.queue.push({ kind: "observe", objects: held.objects, wait: 0 });
        if (this.link || this.isDue()) this.pump();
        else this.finish("left");
        return promise;
    }

    /** Gives all up at once. What is pending stays so: `join` goes on with it. */
    close() {
        if (this.isActive()) this.finish("closed", new Fault("closed"));
    }

    isActive() {
        return this.status === "joining" || this.status === "joined" || this.status === "lost";
    }

    /** Nothing is asked before the client was in the world, nor after it left. */
    needWorld() {
        if (!this.knows || this.isLeaving || !this.isActive()) throw new Fault("outside");
    }

    needObjects(objects) {
        const isThere = one => Number.isInteger(one) && 0 <= one && one < this.knowledge.objects;
        if (!objects.length || !ascends(objects) || !objects.every(isThere)) throw new Fault("objects");
    }

    /** A promise that breaks where the client stops before. Nobody has to look at it. */
    promised() {
        const answer = {}, forget = () => { this.answers.delete(answer); };
        answer.promise = new Promise((resolve, reject) => Object.assign(answer, { resolve, reject }));
        answer.promise.then(forget, forget);
        this.answers.add(answer);
        return answer;
    }

    /** Puts a request in line. */
    request(request) {
        this.needWorld();
        const answer = this.promised();
        this.queue.push({ ...request, answer });
        this.pump();
        return answer.promise;
    }

    /** Begins the next session: a Join, a Submit for each pending action, and again what was not answered. */
    begin() {
        this.giveUp();
        this.lookAnew();
        this.queue.unshift(...this.knowledge.outstanding.splice(0).filter(each => each.answer));
        Object.assign(this, { asked: 0, submitted: 0 });
        try {
            this.link = this.connect(this.key);
        } catch (fault) {
            return this.finish("closed", fault);
        }
        const { link } = this;
        if (!link) return this.finish("closed", new Fault("closed", { reason: null }));
        link.onMessage = bytes => { if (link === this.link) this.receive(bytes); };
        link.onClose = fault => { if (link === this.link) this.lost(fault); };
        if (this.key && !link.hasKey) link.send(encodeRequest({ kind: "hello", key: this.key }));
        this.askToJoin(this.life + 1);
        this.say("joining");
        return this.pump();
    }

    askToJoin(life) {
        this.knowledge.life = life;
        this.ask({ kind: "join", client: this.number, life, interest: this.knowledge.interest });
    }

    /** Whether something waits to be sent. */
    isDue() {
        return this.submitted < this.pending || this.queue.length > 0;
    }

    /** Sends what is due, as far as there is room. */
    pump() {
        const { pending, outstanding } = this.knowledge;
        while (this.link && this.knows && this.isDue() && outstanding.length < MOST.outstanding) {
            if (this.isSpent()) return outstanding.every(each => each.kind === "observe") ? this.begin() : undefined;
            const due = pending[this.submitted];
            if (due) this.submitted += 1;
            this.ask(due ? { kind: "submit", number: due.number, action: due.action } : this.queue.shift());
        }
        if (this.isLeaving && this.link && this.knows && !outstanding.length) this.ask({ kind: "leave" });
        return this.lookOut();
    }

    /** Whether there is no room for one more request, for the Dones that may be due then, and for a Leave. */
    isSpent() {
        const owed = this.knowledge.outstanding.filter(each => ["submit", "poll", "observe"].includes(each.kind)).length;
        return this.asked + owed + 3 > this.requests;
    }

    ask(request) {
        this.knowledge.outstanding.push(request);
        this.asked += 1;
        if (request.isWatch) this.looked = { at: performance.now(), asked: this.asked };
        this.link.send(encodeRequest(request.kind === "number" ? NUMBER_ASKED : request));
        if (this.knowledge.outstanding.length === 1) this.expect();
    }

    /** Takes the line as broken where a reply is due for longer than the client is patient. */
    expect() {
        const front = this.knowledge.outstanding[0], { link } = this;
        clearTimeout(this.alarm);
        if (!front || !link || this.patience === Infinity) return;
        const stop = () => { if (link === this.link) this.lost(new Error("silence")); };
        this.alarm = setTimeout(stop, this.patience + (front.wait ?? 0));
    }

    receive(bytes) {
        try {
            const reply = decodeReply(bytes);
            if (!this.takeUp(reply)) this.accept(reply);
            this.expect();
        } catch (fault) {
            if (!(fault instanceof Fault)) throw fault;
            this.refuse(fault);
        }
    }

    /** Without memory of its number a client learns its life, and then its next number, from two refusals. */
    takeUp({ kind, code, detail }) {
        const { outstanding } = this.knowledge, asked = outstanding[0]?.kind;
        if (this.knows || kind !== "refused") return false;
        if (asked === "join" && code === 11 && this.life <= detail && detail < LAST) {
            outstanding.shift();
            this.askToJoin(detail + 1);
            return true;
        }
        if (asked !== "number" || code !== 5 || detail < 1) return false;
        outstanding.shift();
        this.knowledge.made = detail - 1;
        this.enter();
        return true;
    }

    accept(reply) {
        const { request, results, seen } = this.knowledge.take(reply), { answer } = request;
        if (results.length) this.ask({ kind: "done", results });
        if (request.kind === "join" && !this.knows && this.life > 1) this.ask({ kind: "number" });
        else if (request.kind === "join") this.enter();
        if (request.kind === "submit") this.tellOutcome(reply, results);
        if (request.kind === "poll") answer.resolve(results.at(-1)?.position ?? null);
        if (request.kind === "observe") answer?.resolve({ last: reply.last, values: seen });
        if (request.isWatch) this.learn(request, reply);
        if (request.kind === "leave") this.finish("left");
        this.tell();
        this.pump();
    }

    /** Says what became of the front pending action. */
    tellOutcome({ kind, number: own, position, chain, far, object }, results) {
        const outcome = { dropped: { kind, chain, far }, denied: { kind, object } }[kind]
            ?? { kind: "accepted", position: position ?? results.at(-1).position };
        this.submitted -= 1;
        this.outcomes.get(own)?.resolve({ number: own, ...outcome });
        this.outcomes.delete(own);
    }

    /** The client is in the world, and knows its numbers. */
    enter() {
        Object.assign(this, { knows: true, tries: 0 });
        this.entry?.resolve();
        this.entry = null;
        this.say("joined");
        this.pump();
    }

    /** Tells each change of a view: of the interest, and of what is watched. */
    tell() {
        for (const object of this.seen.keys()) {
            const old = this.seen.get(object), now = this.view(object);
            this.seen.set(object, now);
            if (String(old) !== String(now)) call(this.onChange, object, old, now);
        }
        if (this.isTelling) return;
        this.isTelling = true;
        while ([...this.watchers].some(watcher => this.tellWatcher(watcher)));
        this.isTelling = false;
    }

    /** Calls a watcher back where it has to be told of something; answers whether it had. What it does there is told afterwards. */
    tellWatcher(watcher) {
        const { objects, callback, told } = watcher, { versions } = this.knowledge;
        if (!this.watchers.has(watcher) || (!told && !objects.every(object => versions.has(object)))) return false;
        const views = new Map(objects.map(object => [object, this.view(object)]));
        const changed = objects.filter(object => !told || String(told.get(object)) !== String(views.get(object)));
        if (!changed.length) return false;
        watcher.told = views;
        if (call(callback, new Map(views), changed) === true) watcher.stop();
        return true;
    }

    say(status, fault = null) {
        this.status = status;
        call(this.onStatus, status, fault);
    }

    /** A reply is refused: the session is given up, and none follows by itself, but where its life is too far above the last one. */
    refuse(fault) {
        const { code, detail } = fault.refused ?? {}, isOld = code === 11 && this.knowledge.outstanding[0]?.kind === "join";
        if (isOld && detail + 1 < this.life) {
            this.knowledge.life = detail;
            return this.lost(new Error(fault.refused.name));
        }
        return this.finish(code === 4 || (this.knows && isOld && detail >= this.life) ? "pushed out" : "refused", fault);
    }

    /** The connection broke: the next session begins after a pause, which grows from try to try. */
    lost(fault) {
        if (fault instanceof Fault) return this.refuse(fault);
        if (this.link.wasOpen === false) this.knowledge.life -= 1;
        this.giveUp();
        this.tries += 1;
        if (this.isLeaving && !this.pending && !this.queue.length) return this.finish("left");
        if (this.tries >= this.retry.tries) return this.finish("closed", new Fault("closed", { reason: fault }));
        const pause = Math.min(this.retry.first * 2 ** (this.tries - 1), this.retry.longest);
        this.timer = setTimeout(() => this.begin(), pause * (0.5 + Math.random() / 2));
        return this.say("lost", fault);
    }

    /** Closes the connection. What is pending stays so. */
    giveUp() {
        const { link } = this;
        this.link = null;
        clearTimeout(this.timer);
        clearTimeout(this.alarm);
        clearTimeout(this.clock);
        link?.close();
    }

    /** The session is over, and no other follows by itself. Who waits for an answer is told. */
    finish(status, fault = null) {
        this.giveUp();
        this.stopWatching();
        if (status === "left") this.left.resolve();
        for (const answer of this.answers) answer.reject(fault ?? new Fault("outside"));
        for (const each of this.knowledge.outstanding) delete each.answer;
        this.queue.length = 0;
        this.entry = this.running = null;
        this.say(status, fault);
    }

    stopWatching() {
        this.watchers.clear();
        this.lookAnew();
    }

    /** What is watched is asked for at once. An Observe for it that is under way counts as one of the others. */
    lookAnew() {
        this.queue = this.queue.filter(each => !each.isWatch);
        for (const each of this.knowledge.outstanding) delete each.isWatch;
        Object.assign(this, { looked: null, holds: true });
    }

    /** Keeps one Observe open for all that is watched, as long as nothing else is asked. */
    lookOut() {
        const { outstanding } = this.knowledge, isUnderWay = [...outstanding, ...this.queue].some(each => each.isWatch);
        clearTimeout(this.clock);
        if (!this.watchers.size || isUnderWay || !this.link || !this.knows || this.isLeaving) return;
        const { at, end } = this.looked ?? { at: -Infinity, end: -Infinity }, isBusy = outstanding.some(each => each.kind !== "done");
        const due = Math.max(at + (this.holds ? this.pause / 10 : this.pause), end + (isBusy ? this.pause : 0));
        const left = due - performance.now();
        if (left > 0) {
            this.clock = setTimeout(() => this.lookOut(), left);
        } else {
            this.queue.push(...this.watchRequests());
            this.pump();
        }
    }

    /** The Observes for all that is watched: of 16 objects one, which may be held for long; of more several. */
    watchRequests() {
        const objects = ascending([...this.watchers].flatMap(each => each.objects)), parts = [];
        while (objects.length) parts.push(objects.splice(0, MOST.observed));
        const wait = parts.length > 1 ? Math.min(Math.round(this.pause), MOST.wait) : this.wait;
        return parts.map((part, place) =>
            ({ kind: "observe", objects: part, wait: place + 1 < parts.length ? 0 : wait, isWatch: true }));
    }

    /** Whether the server holds an Observe until there is news: as long as it seems so, the next one may follow soon. */
    learn({ wait }, { head, items }) {
        const { at, asked } = this.looked, end = performance.now(), isEmpty = !head.length && !items.length;
        this.looked.end = end;
        if (wait === 0) return;
        if (wait >= this.pause && end - at >= this.pause) this.holds = true;
        else if (isEmpty && asked === this.asked) this.holds = false;
    }
}

/** A link over a WebSocket: each message of the wire is one binary message. A key stands in the address. */
export function webSocketLink(address, WebSocketClass = globalThis.WebSocket, key = null) {
    const shown = key ? `${address.includes("?") ? "&" : "?"}key=${Array.from(key, one => hex(one)).join("")}` : "";
    const socket = new WebSocketClass(address + shown), waiting = [];
    const link = { wasOpen: false, hasKey: key !== null, onMessage() {}, onClose() {},
        send: bytes => link.wasOpen ? socket.send(bytes) : waiting.push(bytes),
        close: () => {
            socket.close();
            queueMicrotask(() => link.onClose(new Error("closed")));
        } };
    socket.binaryType = "arraybuffer";
    socket.onopen = () => {
        link.wasOpen = true;
        for (const bytes of waiting.splice(0)) socket.send(bytes);
    };
    socket.onmessage = ({ data }) => link.onMessage(new Uint8Array(data instanceof ArrayBuffer ? data : 0));
    let isOver = false;
    const over = reason => {
        if (!isOver) link.onClose(new Error(reason));
        isOver = true;
    };
    // Of one that can't be made node 20 tells an error alone.
    socket.onerror = () => link.wasOpen || setTimeout(over, 0, "closed");
    socket.onclose = ({ code }) => over(`closed ${code}`);
    return link;
}
