/**
 * Tries the client on the cases of tests/outside/tests/js_cases.py:
 *
 *     node clients/js/test/cases.js CASES.json
 *
 * Bytes, texts, checks and results of actions; and whole traces of the Python client, which this one must repeat: the
 * same bytes, views, versions and faults after each step.
 */

import { readFileSync } from "node:fs";
import { Action, Client, Fault, REFUSALS, actionBytes, decodeReply, encodeRequest, parseAction } from "../dimboetu.js";
import { Frames, frame } from "../node-link.js";
import { Count, TestLink, bytesOf, encodeReply, hexOf } from "./count.js";

const count = new Count();
const cases = JSON.parse(readFileSync(process.argv[2], "utf8"));

/** A value of the cases, and a value as the cases have it. */
const valueOf = texts => texts && texts.map(BigInt);
const textsOf = value => value && value.map(String);

/** The fault of a call, as a text, or null. */
function faultOf(call) {
    try {
        call();
    } catch (fault) {
        if (!(fault instanceof Fault)) throw fault;
        return fault;
    }
    return null;
}

/** An action of the cases, whose literals are texts. */
function actionOf({ reads, mask, origin, body }) {
    const node = part => Array.isArray(part)
        ? part[0] === "number" ? ["number", BigInt(part[1])] : part.map(node) : part;
    return new Action(reads, mask, origin, node(body));
}

function tryMessages() {
    for (const { text, payload, frame: framed, request, reply } of cases.messages) {
        const frames = new Frames();
        frames.feed(bytesOf(framed));
        count.same(hexOf(frames.next()), payload, `frame of ${text}`);
        count.same(hexOf(frame(bytesOf(payload))), framed, `frame of ${text}`);
        if (request) {
            const results = request.results?.map(([position, values]) => ({ position, values: values.map(valueOf) }));
            const asked = { ...request, results, action: request.text && parseAction(request.text) };
            count.same(hexOf(encodeRequest(asked)), payload, `writes ${text}`);
        } else {
            const decoded = decodeReply(bytesOf(payload));
            const { kind, number, commit, last, head, items, ...more } = decoded;
            count.same(hexOf(encodeReply(decoded)), payload, `the tests write ${text}`);
            const found = { kind, number, commit, last, head: head.map(([object, value]) => [object, textsOf(value)]),
                items: items.map(item => [item.position, item.client, item.number, String(item.action)]) };
            const { more: wanted, ...rest } = reply;
            count.same(found, rest, `reads ${text}`);
            count.same({ ...wanted, ...more }, wanted, `reads ${text}`);
        }
    }
}

function tryRefusedPayloads() {
    for (const { payload, fault } of cases["refused payloads"]) {
        const found = faultOf(() => decodeReply(bytesOf(payload)));
        count.same(found && [found.place, found.cause], fault, `payload ${payload}`);
        if (fault) count.same(found.message, `malformed ${fault.join(" ")}`, `payload ${payload}`);
    }
}

/** What a reader of frames finds in the pieces of a stream. */
function foundIn(pieces) {
    const frames = new Frames(), found = [];
    for (const piece of pieces) {
        frames.feed(bytesOf(piece));
        try {
            for (let payload = frames.next(); payload; payload = frames.next()) found.push(hexOf(payload) || "empty");
        } catch (fault) {
            return [...found, fault.message];
        }
    }
    return [...found, "wait"];
}

function tryStreams() {
    for (const { pieces, found } of cases.streams) count.same(foundIn(pieces).join(", "), found, `stream ${pieces}`);
    const longest = "00010000" + "07".repeat(65_536);
    count.same(foundIn([longest]).map(each => each.length), [131_072, 4], "the longest frame");
}

function tryTexts() {
    for (const { text, fault } of cases["refused texts"]) {
        const found = faultOf(() => parseAction(text));
        count.same(found && [found.message, found.place, found.cause], fault && [`text ${fault.join(" ")}`, ...fault], text);
    }
    for (const [text, canonical] of cases["canonical texts"]) {
        count.same(String(parseAction(text)), canonical, text);
        count.same(String(parseAction(canonical)), canonical, canonical);
    }
    for (const { text, before, after, written } of cases.given) {
        const act = parseAction(text);
        const wanted = written.map(place => after[place]);
        count.same(act.result(before.map(valueOf)).map(textsOf), wanted, `${text} on ${before}`);
    }
}

function tryActions() {
    for (const { text, canonical, bytes, shape, cause, values, result } of cases.actions) {
        const act = parseAction(text), payload = `89 00000000 00000000 0000 01 00000001 0000 00000001 ${bytes}`;
        count.same(String(act), canonical, text);
        count.same(hexOf(actionBytes(act)), bytes, `bytes of ${text}`);
        count.same(String(decodeReply(bytesOf(payload)).items[0].action), canonical, `read again: ${text}`);
        count.same(act.fault(...shape), cause, `check of ${text} in ${shape}`);
        count.same(act.result(values.map(valueOf)).map(textsOf), result, `${text} on ${values}`);
    }
    for (const each of cases["noted actions"]) {
        const act = actionOf(each), name = JSON.stringify(each);
        if (each.shape) count.same(act.fault(...each.shape), each.cause, name);
        else count.same(act.result(each.values.map(valueOf)).map(textsOf), each.result, name);
    }
    count.same(REFUSALS.map((name, place) => [place + 1, name]), cases.refusals, "the names of refusals");
}

/** A client that does the steps of a trace. */
class Repeating {
    constructor({ shape: [objects, attributes], number, interest }) {
        this.changes = [];
        this.client = Client.fromSaved({ number, objects, attributes, interest, knows: true, life: 0, made: 0, told: 0,
            versions: [], pending: [] }, { connect: () => { this.link = new TestLink(); return this.link; },
            onChange: (object, old, now) => this.changes.push([object, textsOf(old), textsOf(now)]) });
    }

    /** Does one step. */
    step({ do: what, act, objects, wait, payload }) {
        const { client } = this;
        if (what === "join" || what === "give up") this.forget();
        if (what === "join") client.join();
        else if (what === "make") client.act(actionOf(act));
        else if (what === "poll") client.poll();
        else if (what === "observe") client.observe(objects, wait);
        else if (what === "leave") client.leave();
        else if (what === "give up") client.link?.onClose(new Error("broken"));
        else if (payload === null) this.link.onClose(new Fault("toolong 65537"));
        else this.link.say(payload);
    }

    /** This client would ask again in its next session for what was not answered; the Python one does not. */
    forget() {
        for (const each of this.client.knowledge.outstanding) delete each.answer;
    }

    /** What the client said in this step, what it told, and what it keeps now. */
    state() {
        const { life, made, told, outstanding, pending, versions, objects } = this.client.knowledge;
        return { sent: this.link?.said() ?? [], changes: this.changes.splice(0), life, made, told, asked: this.client.asked,
            waiting: outstanding.map(each => each.kind),
            views: Array.from({ length: objects }, (_, object) => textsOf(this.client.view(object))),
            pending: pending.map(each => [each.number, each.kept && each.kept.map(textsOf)]),
            held: inOrder(versions).map(([object, held]) =>
                [object, inOrder(held).map(([place, value]) => [place, textsOf(value)])]) };
    }
}

const inOrder = map => [...map].sort(([one], [other]) => one - other);

function tryTraces() {
    let steps = 0;
    cases.traces.forEach((trace, place) => {
        const repeating = new Repeating(trace);
        let told = null;
        repeating.client.onStatus = (status, fault) => { told = fault; };
        trace.steps.forEach((step, number) => {
            const { do: what, act, objects, wait, payload, fault, ...wanted } = step;
            told = null;
            const thrown = faultOf(() => repeating.step(step));
            const found = { ...repeating.state(), fault: (thrown ?? (told instanceof Fault ? told : null))?.message ?? null };
            count.same(found, { ...wanted, fault }, `trace ${place}, step ${number}, ${JSON.stringify(step)}`);
            steps += 1;
        });
        clearTimeout(repeating.client.timer);
    });
    count.expect(steps > 2000, `${steps} steps`);
}

for (const each of [tryMessages, tryRefusedPayloads, tryStreams, tryTexts, tryActions, tryTraces]) each();
count.close();
