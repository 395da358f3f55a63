/**
 * Tries the client where the test is its server: taking up a number, joining again, being pushed out, watching, keys,
 * what is saved, and the builder of actions.
 *
 *     node clients/js/test/client.js
 */

import { Client, Fault, action, decodeReply, number, obj, parseAction, when } from "../dimboetu.js";
import { Clock, Count, TestLink, bytesOf, encodeReply } from "./count.js";

const count = new Count(), clock = new Clock();
const pause = milliseconds => clock.pause(milliseconds);
const ADD_ONE = "reads 0 writes 0 { set @0.0 (@0.0 + 1); }";
const QUICK = { first: 4, longest: 16 };
const WORLD = { number: 3, objects: 40, attributes: 1, interest: [0, 1] };
const gold = obj(0).attr(0);

/** A client whose links and statuses the test has. */
function clientOf(more = {}, saved = null) {
    const found = { links: [], statuses: [], changes: [], link: null };
    const options = { retry: QUICK, pause: 20, wait: 5000, ...more,
        connect: () => {
            found.link = new TestLink();
            found.links.push(found.link);
            return more.connect ? more.connect(found) : found.link;
        },
        onStatus: (status, fault) => found.statuses.push(fault ? `${status}: ${fault.message}` : status),
        onChange: (object, old, now) => found.changes.push(`${object} ${old} ${now}`) };
    found.client = saved ? Client.from(saved, options) : new Client({ ...WORLD, ...options });
    found.say = reply => found.link.say(encodeReply(reply));
    found.said = () => found.link.said();
    return found;
}

const welcome = (commit, ...values) => ({ kind: "welcome", commit, head: values.map((one, object) => [object, [BigInt(one)]]) });
const relay = (own, position, commit, text) =>
    ({ kind: "relay", number: own, commit, items: [{ position, client: 3, number: own, action: parseAction(text) }] });

/** A client in the world, with its objects 0 and 1 at 5 and 7. */
async function joined(more = {}) {
    const found = clientOf(more), entry = found.client.join();
    found.say(welcome(0, 5, 7));
    await entry;
    found.said();
    return found;
}

async function tryTakingUp() {
    let found = clientOf(), entry = found.client.join();
    count.refuses(() => found.client.act(ADD_ONE), "outside", "nothing is made before the client knows its number");
    count.same(found.said(), ["010003000000010200000001"], "the first life is 1");
    found.say(welcome(0, 5, 7));
    await entry;
    count.same([found.client.life, found.client.made, found.client.status], [1, 0, "joined"], "a number that was never there");
    count.same(found.said(), [], "nothing is asked for it");

    found = clientOf();
    entry = found.client.join();
    found.said();
    found.say({ kind: "refused", code: 11, detail: 7 });
    count.same(found.said(), ["010003000000080200000001"], "one more than the greatest life, in the same session");
    found.say(welcome(9, 5, 7));
    count.same(found.said(), ["060000000001000000000000000000000000" + "00"], "an action of number 0");
    count.refuses(() => found.client.act(ADD_ONE), "outside", "the next number is not known yet");
    found.say({ kind: "refused", code: 5, detail: 12 });
    await entry;
    count.same([found.client.life, found.client.made, found.links.length], [8, 11, 1], "the place is taken up");
    const outcome = found.client.act(ADD_ONE);
    count.same(found.said()[0].slice(0, 10), "060000000c", "the next action has the next number");
    found.say({ kind: "settled", number: 12, position: 20 });
    count.same(await outcome, { number: 12, kind: "accepted", position: 20 }, "a settled action");

    found = clientOf();
    found.client.join();
    found.say({ kind: "refused", code: 11, detail: 7 });
    found.said();
    found.link.onClose(new Error("broken"));
    await pause(20);
    count.same(found.said(), ["010003000000090200000001"], "a line that breaks in between: the next life");
    found.say(welcome(9, 5, 7));
    count.same(found.said().length, 1, "its next number is still asked for");
    found.client.close();

    const refused = (code, detail) => ({ kind: "refused", code, detail });
    for (const [name, ...replies] of [
        ["a greatest life below the one that joined", refused(11, 0)], ["no greater life", refused(11, 2 ** 32 - 1)],
        ["no such client", refused(10, 0)], ["a refusal that does not belong to a Join", refused(5, 4)],
        ["no next number", refused(11, 4), welcome(0, 1, 1), refused(5, 0)],
        ["number 0 is settled", refused(11, 4), welcome(0, 1, 1), { kind: "settled", number: 0, position: 1 }]]) {
        found = clientOf();
        entry = found.client.join();
        for (const reply of replies) found.say(reply);
        await count.breaks(entry, "wrongkind", name);
        count.same([found.client.status, found.link.isClosed], ["refused", true], name);
    }
}

async function tryPushedOut() {
    const found = await joined();
    const outcome = found.client.act(ADD_ONE), seen = found.client.observe([0]);
    found.say({ kind: "refused", code: 4, detail: 0 });
    const fault = await count.breaks(outcome, "wrongkind", "who waits for an outcome is told");
    count.same(fault.refused, { code: 4, detail: 0, name: "over" }, "the refusal is kept in the fault");
    await count.breaks(seen, "wrongkind", "who waits for values is told");
    await pause(40);
    count.same([found.client.status, found.links.length, found.statuses.at(-1)], ["pushed out", 1, "pushed out: wrongkind"],
        "it says so, and does not join again by itself");
    count.refuses(() => found.client.act(ADD_ONE), "outside", "nothing is made then");
    count.refuses(() => found.client.observe([0]), "outside", "nothing is observed then");
    count.same(found.client.pending, 1, "what is pending stays so");
    found.said();
    found.client.join();
    count.same(found.said().map(each => each.slice(0, 2)), ["01", "06"], "who was told that it is over is not asked for again");
    found.client.close();

    const again = await joined();
    again.link.onClose(new Error("broken"));
    await pause(20);
    again.say({ kind: "refused", code: 11, detail: 2 });
    count.same(again.client.status, "pushed out", "a greater life, when it means to join again");

    for (const [code, status] of [[1, "refused"], [2, "refused"], [9, "refused"], [12, "refused"], [4, "pushed out"]]) {
        const other = await joined();
        other.client.poll();
        other.say({ kind: "refused", code, detail: 8 });
        count.same(other.client.status, status, `refused ${code}`);
    }
    const unasked = await joined();
    unasked.say({ kind: "refused", code: 4, detail: 0 });
    count.same([unasked.client.status, unasked.statuses.at(-1)], ["pushed out", "pushed out: unasked"],
        "a refusal that nobody asked for");
}

async function tryJoiningAgain() {
    const found = await joined(), { client } = found;
    const first = client.act(ADD_ONE), seen = client.observe([0, 1]), polled = client.poll();
    found.link.onClose(new Error("broken"));
    count.same([client.status, found.statuses.at(-1)], ["lost", "lost: broken"], "a broken line is told");
    const second = client.act("reads 0 writes 0 { set @0.0 (@0.0 * 10); }");
    count.same([client.view(0), client.pending], [[60n], 2], "actions are made while the line is broken");
    count.same(found.links.length, 1, "not at once");
    await pause(20);
    count.same([found.links.length, client.life], [2, 2], "the next life");
    count.same(found.said().map(each => each.slice(0, 10)), ["0100030000", "0600000001", "0600000002", "0702000000", "04"],
        "Join, Submits of what is pending, and what was not answered");
    found.say(welcome(1, 6, 7));
    found.say({ kind: "settled", number: 1, position: 1 });
    found.say(relay(2, 2, 1, "reads 0 writes 0 { set @0.0 (@0.0 * 10); }"));
    found.say({ kind: "seen", last: 2, commit: 1 });
    found.say({ kind: "idle" });
    found.say({ kind: "noted", commit: 2 });
    count.same(await first, { number: 1, kind: "accepted", position: 1 }, "the first outcome");
    count.same(await second, { number: 2, kind: "accepted", position: 2 }, "the second outcome");
    count.same(await seen, { last: 2, values: new Map([[0, [60n]], [1, [7n]]]) }, "the values");
    count.same(await polled, null, "nothing is abandoned");
    count.same([client.view(0), client.pending, client.status], [[60n], 0, "joined"], "it goes on");
    found.links[0].onClose(new Error("late"));
    found.links[0].say("86");
    count.same(client.status, "joined", "an old link says nothing any more");

    const never = clientOf({ connect: ({ link }) => Object.assign(link, { wasOpen: false }) });
    never.client.join();
    for (let tries = 0; tries < 3; tries += 1) {
        never.link.onClose(new Error("nobody there"));
        await pause(25);
    }
    count.same([never.links.length, never.client.life], [4, 1], "a Join that never left its machine takes no life");
    never.client.close();

    const few = clientOf({ retry: { ...QUICK, tries: 2 } }), entry = few.client.join();
    few.link.onClose(new Error("nobody there"));
    await pause(20);
    few.link.onClose(new Error("nobody there"));
    await count.breaks(entry, "closed", "after so many tries it gives up");
    count.same(few.client.status, "closed", "after so many tries it gives up");
    few.client.join();
    few.say(welcome(0, 5, 7));
    count.same(few.client.status, "joining", "join tries anew");
    few.say({ kind: "refused", code: 5, detail: 1 });
    count.same(few.client.status, "joined", "join tries anew");

    const one = await joined({ connect: ({ link, links }) => links.length > 1 ? null : link });
    one.link.onClose(new Error("broken"));
    await pause(20);
    count.same(one.client.status, "closed", "no further link: it is over");
    const wrong = clientOf({ connect: () => { throw new SyntaxError("address"); } });
    await count.breaks(wrong.client.join(), "address", "a link that can't be made");
    const later = await joined({ connect: ({ link, links }) => links.length > 1 ? missing.address : link }), missing = null;
    later.client.watch([0], () => {});
    later.link.onClose(new Error("broken"));
    await pause(20);
    count.same(later.client.status, "closed", "nor later; who watches is not told");
}

async function tryPauses() {
    const found = await joined({ retry: { first: 100, longest: 1000 } }), longest = [100, 200, 400, 800, 1000, 1000, 100];
    for (const [place, most] of longest.entries()) {
        if (place === 6) found.say(welcome(0, 5, 7));
        found.link.onClose(new Error("broken"));
        const { links: { length } } = found;
        await pause(most / 2 - 1);
        count.same(found.links.length, length, `pause ${place} is not too short`);
        await pause(most / 2 + 1);
        count.same(found.links.length, length + 1, `pause ${place} is not too long`);
    }
    found.client.close();
}

async function tryLimits() {
    let found = await joined();
    const polls = Array.from({ length: 20 }, () => found.client.poll());
    count.same(found.said().length, 16, "sixteen requests are outstanding at most");
    for (let place = 0; place < 4; place += 1) found.say({ kind: "idle" });
    count.same(found.said().length, 4, "the others wait in line");
    for (let place = 0; place < 16; place += 1) found.say({ kind: "idle" });
    count.same(await Promise.all(polls), Array(20).fill(null), "each has its answer");
    for (let place = 0; place < 8; place += 1) found.client.act(ADD_ONE);
    count.refuses(() => found.client.act(ADD_ONE), "full", "a ninth pending action");
    count.refuses(() => found.client.act("reads 99 writes { }"), "action 4", "the check comes first");
    count.same(found.client.made, 8, "nothing was made then");

    found = await joined({ requests: 6 });
    found.client.poll();
    found.say({ kind: "idle" });
    found.client.act(ADD_ONE);
    count.same(found.said().length, 2, "so far in this session");
    found.client.poll();
    count.same([found.said(), found.links.length], [[], 1], "no room: first the action's outcome");
    found.say(relay(1, 1, 0, ADD_ONE));
    count.same([found.said(), found.links.length], [["03010000000101010000000000000006"], 1], "and its result");
    found.say({ kind: "noted", commit: 1 });
    count.same(found.said().map(each => each.slice(0, 4)), ["0100", "04"], "then the next session goes on");
    count.same([found.links.length, found.client.life, found.links[0].isClosed], [2, 2, true], "the next session");
    found.say(welcome(1, 6, 7));
    count.same([found.client.status, found.statuses.includes("lost")], ["joined", false], "no line broke");
}

async function tryOutcomes() {
    const { client, say, said, changes } = await joined();
    const outcomes = ["reads 0 writes 0 { set @0.0 1; }", action([gold.set(2)]), ADD_ONE].map(each => client.act(each));
    count.same([client.view(0), client.made], [[3n], 3], "views show at once what is expected");
    say({ kind: "dropped", number: 1, chain: 4, far: 9 });
    say({ kind: "denied", number: 2, object: 0 });
    say(relay(3, 1, 0, ADD_ONE));
    count.same(said().at(-1), "03010000000101010000000000000006", "the result is reported");
    say({ kind: "noted", commit: 1 });
    count.same(await Promise.all(outcomes), [{ number: 1, kind: "dropped", chain: 4, far: 9 },
        { number: 2, kind: "denied", object: 0 }, { number: 3, kind: "accepted", position: 1 }], "outcomes");
    count.same(changes, ["0 null 5", "1 null 7", "0 5 1", "0 1 2", "0 2 3", "0 3 6"], "each change of a view is told");
    const left = client.leave();
    count.same(said(), ["05"], "nothing is outstanding: it leaves");
    count.refuses(() => client.act(ADD_ONE), "outside", "nothing is made after that");
    say({ kind: "bye" });
    await left;
    client.close();
    count.same(client.status, "left", "the session is over");
}

async function tryLeaving() {
    const found = await joined(), { client } = found;
    const left = client.leave();
    found.link.onClose(new Error("broken"));
    await left;
    await pause(40);
    count.same([client.status, found.links.length], ["left", 1], "a line that breaks before the Bye");
    const again = client.join();
    found.say(welcome(0, 5, 7));
    await again;
    found.link.onClose(new Error("broken"));
    await client.leave();
    await pause(40);
    count.same([client.status, found.links.length], ["left", 2], "a line that is broken, and nothing is due");
    const last = client.join();
    found.say(welcome(0, 5, 7));
    await last;
    found.link.onClose(new Error("broken"));
    const outcome = client.act(ADD_ONE), end = client.leave();
    await pause(20);
    count.same(found.said().map(each => each.slice(0, 2)), ["01", "06"], "what is due is still sent");
    found.say(welcome(0, 5, 7));
    found.say({ kind: "dropped", number: 1, chain: 1, far: 1 });
    count.same(found.said(), ["05"], "before it leaves");
    found.say({ kind: "bye" });
    await end;
    count.same((await outcome).kind, "dropped", "and its outcome is told");

    const other = await joined();
    other.link.onClose(new Error("broken"));
    const seen = other.client.observe([0]);
    other.client.close();
    await count.breaks(seen, "closed", "closed while the line is broken");
    other.client.join();
    count.same(other.said().length, 1, "what was asked then is not asked again");
    other.client.close();
}

async function tryObserving() {
    const { client, say, said, link } = await joined();
    for (const objects of [[], Array.from({ length: 17 }, (_, one) => one), [1, 0], [0, 0], [40], [-1, 0], [0.5], ["0"]]) {
        count.refuses(() => client.observe(objects), "objects", `objects ${objects}`);
    }
    for (const wait of [-1, 65_536, 1.5, "1"]) count.expect(isTypeError(() => client.observe([0], wait)), `wait ${wait}`);
    const seen = client.observe([0, 1], 65_535);
    count.same(said(), ["070200000001ffff"], "objects and wait");
    const act = parseAction("reads 1 writes 1 { set @1.0 9; }");
    say({ kind: "seen", last: 1, commit: 0, items: [{ position: 1, client: 2, number: 1, action: act }] });
    count.same(await seen, { last: 1, values: new Map([[0, [5n]], [1, [9n]]]) }, "values at one position");
    count.same(said(), ["03010000000101010000000000000009"], "and the result is reported");
    say({ kind: "noted", commit: 1 });
    client.poll();
    say({ kind: "seen", last: 9, commit: 9 });
    count.same([client.status, link.isClosed], ["refused", true], "a reply of another kind");
}

/** How many Observes stand in what was said, and their waits. */
const waits = said => said.filter(each => each.startsWith("07")).map(each => parseInt(each.slice(-4), 16));

/** A client that watches, what it was told, and a Seen of values of the objects from 0 on. */
async function watching(objects, more = {}) {
    const found = await joined(more), shown = [];
    const seen = (last, ...values) => found.say({ ...welcome(last, ...values), kind: "seen", last });
    const callback = (values, changed) => shown.push(`${[...values].map(([one, value]) => `${one}:${value}`).join(" ")} / ${changed}`);
    const handle = found.client.watch(objects, callback);
    return { ...found, shown, seen, handle, news: () => shown.splice(0) };
}

async function tryWatching() {
    const { client, say, said, statuses, handle, seen, news } = await watching([1, 0, 1]);
    count.refuses(() => client.watch([40], () => {}), "objects", "no such object");
    count.refuses(() => client.watch([], () => {}), "objects", "nothing to watch");
    count.same([said(), news()], [["0702000000011388"], ["0:5 1:7 / 0,1"]], "one Observe with a wait; called at once, as all is known");
    seen(0);
    await pause(5);
    count.same([news(), said()], [[], []], "an answer without news; a pause follows");
    await pause(30);
    count.same(waits(said()), [5000], "then the next one");
    await pause(40);
    count.same(said(), [], "none while one is held");
    client.act(ADD_ONE);
    count.same([said().length, news()], [1, ["0:6 1:7 / 0"]], "an action is sent meanwhile, and its guess told at once");
    seen(1, 9);
    await pause(2);
    count.same([waits(said()), news()], [[], ["0:10 1:7 / 0"]], "the guess is put right; nothing is observed while something is asked");
    say({ kind: "settled", number: 1, position: 1 });
    count.same([waits(said()), news()], [[5000], ["0:9 1:7 / 0"]], "nothing is asked any more: the next one follows");
    seen(1);
    await pause(30);
    count.same([news(), waits(said())], [[], [5000]], "not called where nothing changed");
    const more = [], all = client.watch([2], values => more.push([...values].join(" ")));
    count.same(said(), ["07030000000100021388"], "one more watcher: one Observe for both, at once");
    seen(1);
    say({ kind: "seen", last: 1, commit: 1, head: [[2, [4n]]] });
    handle.stop();
    await pause(5);
    count.same([news(), more], [[], ["2,4"]], "each is told of its own");
    await pause(30);
    count.same(said(), ["070100021388"], "who stopped is not asked for");
    const left = client.leave();
    count.same(said(), ["070100020000"], "to leave, the held one is asked to come");
    say({ kind: "seen", last: 1, commit: 1 });
    count.same(said(), [], "all must be answered");
    say({ kind: "seen", last: 1, commit: 1 });
    count.same(said(), ["05"], "then it leaves");
    say({ kind: "bye" });
    await left;
    all.stop();
    await pause(40);
    count.same([said(), statuses.at(-1)], [[], "left"], "nothing is watched any more");
    count.refuses(() => client.watch([0], () => {}), "outside", "nor after that");
}

/** Running ends where nothing is watched any more, and breaks where the client stops. */
async function tryRunning() {
    let found = await joined(), told = [];
    await found.client.run();
    const shown = [], handle = found.client.watch([1], () => { shown.push("other"); });
    found.client.watch([0], values => {
        shown.push(values.get(0)[0]);
        return values.get(0)[0] === 9n || 1;
    });
    found.client.run().then(() => told.push("over"));
    await pause(0);
    found.say({ ...welcome(1, 9), kind: "seen", last: 1 });
    await pause(0);
    count.same([shown, told], [["other", 5n, 9n], []], "a callback that answers true is called no more; another truthy answer is none");
    handle.stop();
    await pause(0);
    count.same(told, ["over"], "nothing is watched any more");

    found = await joined();
    found.client.watch([0], () => {});
    const running = found.client.run();
    count.same(found.client.run() === running, true, "one running for all");
    found.client.poll();
    found.say({ kind: "refused", code: 4, detail: 0 });
    count.same((await count.breaks(running, "wrongkind", "the client stops")).refused.name, "over", "and says why");
    count.refuses(() => found.client.run(), "outside", "then there is nothing to run");

    found = await joined({ retry: { ...QUICK, tries: 1 } });
    found.client.watch([0], () => {});
    const last = found.client.run();
    found.link.onClose(new Error("broken"));
    count.same((await count.breaks(last, "closed", "no try is left")).reason.message, "broken", "the reason is kept");

    found = await joined();
    found.client.watch([0], () => {});
    const left = found.client.run();
    found.client.leave();
    count.same(await left, undefined, "who leaves watches nothing");
    found.client.close();
}

/** Each row: after how many milliseconds what comes, and when after that the next Observe is sent. The pause is 20. */
const PACES = [
    ["news at once, of a server that may wait", 0, "news", 2], ["news soon", 1, "news", 1], ["an empty answer at once", 0, "seen", 20], ["news at once", 0, "news", 20], ["an empty answer soon", 7, "seen", 13],
    ["news, after more than a pause: this server waits", 50, "news", 0], ["news soon, over such a server", 1, "news", 1],
    ["and again", 0, "news", 2], ["an empty answer after its wait", 5000, "seen", 0],
    ["an empty answer soon: it does not wait", 3, "seen", 17], ["news soon", 1, "news", 19]];

async function tryPaces() {
    const { client, say, said, seen, link } = await watching([0, 1]);
    said();
    let last = 0;
    for (const [name, after, what, next] of PACES) {
        await pause(after);
        last += what === "news" ? 1 : 0;
        seen(last, ...(what === "news" ? [last] : []));
        if (next > 0) {
            await pause(next - 0.5);
            count.same(said(), [], `${name}: the next one is not too early`);
            await pause(0.5);
        }
        count.same(waits(said()), [5000], `${name}: nor too late`);
    }
    await pause(50);
    say({ kind: "seen", last: last + 1, commit: last, items: [{ position: last + 1, client: 2, number: 1, action: parseAction(ADD_ONE) }] });
    count.same(said().map(each => each.slice(0, 2)), ["03", "07"], "a result is reported, and the next one follows at once");
    say({ kind: "noted", commit: last += 1 });
    client.poll();
    seen(last);
    for (let place = 0; place < 8; place += 1) client.act("reads 0 writes { }");
    said();
    await pause(19);
    count.same(said(), [], "who asks much is given time");
    await pause(2);
    count.same(waits(said()), [5000], "but is shown something in the end");
    seen(last);
    link.onClose(new Error("broken"));
    client.close();
    await pause(100);
    count.same(said(), [], "nothing is observed over a broken line");
}

async function tryCallbacks() {
    const found = await joined(), { client, say } = found, shown = [];
    const handle = client.watch([0], (values, changed) => {
        const [gold] = values.get(0) ?? [null];
        shown.push(gold);
        values.clear();
        changed.length = 0;
        if (gold !== null && gold < 8n) client.act(ADD_ONE);
        if (gold === 8n) handle.stop();
    });
    count.same(shown, [], "not before it has its handle");
    await pause(0);
    count.same(shown, [5n, 6n, 7n, 8n], "what a callback does is told when it is done, in order");
    client.act(ADD_ONE);
    count.same(shown.length, 4, "who stopped is not called");
    const unknown = [];
    client.watch([1, 2], values => unknown.push([...values].join(" ")));
    client.act("reads 1 writes 1 { set @1.0 1; }");
    await pause(0);
    count.same(unknown, [], "not as long as one of them is unknown");
    say({ kind: "seen", last: 0, commit: 0, head: [[2, [4n]]] });
    count.same(unknown.splice(0), ["1,1 2,4"], "then with the guess");
    client.act("reads 1 3 writes 1 { set @1.0 @3.0; }");
    count.same(unknown, ["1, 2,4"], "an outcome that it can't guess");
    client.close();
    await pause(50);
    count.same(unknown.length, 1, "closed");
}

async function tryWatchingMore() {
    const objects = Array.from({ length: 20 }, (_, one) => one);
    const { client, say, said, link, shown, news } = await watching(objects), asked = said();
    const heads = (from, to, value) => objects.slice(from, to).map(object => [object, [value]]);
    count.same([asked.length, waits(asked)], [2, [0, 20]], "of more than 16 objects several Observes");
    say({ kind: "seen", last: 0, commit: 0, head: heads(2, 16, 1n) });
    count.same(shown, [], "not before all are known");
    say({ kind: "seen", last: 0, commit: 0, head: heads(16, 20, 1n) });
    await pause(2);
    count.same(news().map(each => each.split(" / ")[1]), [objects.join(",")], "all are told together");
    await pause(30);
    count.same(said().length, 2, "and again");
    link.onClose(new Error("broken"));
    await pause(20);
    count.same(client.status, "joining", "a line breaks");
    count.same(waits(said()), [0, 20], "watching goes on in the next session");
    say(welcome(0, 5, 7));
    say({ kind: "seen", last: 1, commit: 0, head: heads(2, 16, 2n) });
    say({ kind: "seen", last: 1, commit: 0, head: heads(16, 20, 2n) });
    count.same(news().map(each => each.split(" / ")[1]), [objects.slice(2, 16).join(","), objects.slice(16).join(",")],
        "what changed is told once");
    client.close();
    count.same(client.status, "closed", "closed");
}

async function tryFarLives() {
    const found = await joined();
    for (let tries = 0; tries < 4; tries += 1) {
        found.link.onClose(new Error("broken"));
        await pause(20);
    }
    count.same([found.client.life, found.links.length], [5, 5], "each try has a life");
    found.say({ kind: "refused", code: 11, detail: 1 });
    count.same([found.client.status, found.link.isClosed], ["lost", true], "its life is too far above the greatest one");
    await pause(20);
    count.same([found.client.life, found.client.status, found.said()], [2, "joining", ["010003000000020200000001"]],
        "the next one is one above it");
    found.say({ kind: "refused", code: 11, detail: 1 });
    count.same(found.client.status, "refused", "which is not too far");
}

async function tryKeys() {
    const given = [], key = Uint8Array.from({ length: 16 }, (_, one) => one);
    let found = clientOf({ key });
    const hello = "0810000102030405060708090a0b0c0d0e0f";
    found.client.join();
    count.same(found.said(), [hello, "010003000000010200000001"], "a Hello comes first");
    found.say(welcome(0, 5, 7));
    count.same([found.client.asked, found.client.status], [1, "joined"], "it has no answer, and is no request");
    found.link.onClose(new Error("broken"));
    await pause(20);
    count.same(found.said()[0], hello, "over each connection");
    found.client.close();
    found = clientOf({ key, connect: ({ link }) => Object.assign(link, { hasKey: true }) });
    found.client.connect = (connect => shown => given.push(shown) && connect(shown))(found.client.connect);
    found.client.join();
    count.same([found.said(), given], [["010003000000010200000001"], [key]], "a link that is given the key may show it by itself");
    found.client.close();
    for (const length of [15, 64, 65]) {
        const isWrong = isTypeError(() => clientOf({ key: new Uint8Array(length) }));
        count.same(isWrong, length !== 64, `a key of ${length} bytes`);
    }
    for (const wrong of ["0123456789abcdef", "", [...key], 16]) count.expect(isTypeError(() => clientOf({ key: wrong })), `key ${wrong}`);
    for (const wrong of [{ number: -1 }, { number: 65_535 }, { objects: 0 }, { objects: undefined }, { objects: 65_536 }, { attributes: 5 },
        { attributes: "1" }, { atributes: 1 }, { onstatus() {} }]) {
        count.expect(isTypeError(() => clientOf(wrong)), `the shape ${Object.entries(wrong)[0]}`);
    }
    for (const [number, objects, attributes] of [[0, 1, 1], [65_534, 65_535, 4]]) clientOf({ number, objects, attributes, interest: [0] });
    count.expect(isTypeError(() => new Client({ number: 0, objects: 1, attributes: 1 })), "a client without connect");
    count.expect(isTypeError(() => clientOf({}).client.watch([0])), "what is watched calls back");
}

async function trySaving() {
    const { client, say } = await joined();
    client.act(ADD_ONE);
    client.act("reads 0 2 writes 0 at -3 4 { if [@2.0 < 5] { set @0.0 -9223372036854775808; } else { set @0.0 @2.0; } }");
    client.act("reads 1 writes 1 { set @1.0 (@1.0 + 1); }");
    client.observe([2]);
    say(relay(1, 1, 0, ADD_ONE));
    const saved = JSON.parse(JSON.stringify(client.saved()));
    count.same(saved, client.saved(), "plain data, which JSON can write");
    const next = clientOf({}, saved);
    count.same(next.client.saved(), client.saved(), "the same again");
    const { client: other } = next, views = () => [other.view(0), other.view(1)];
    count.same([...views(), other.made, other.life], [null, [8n], 3, 1], "it sees the same");
    count.refuses(() => next.client.act(ADD_ONE), "outside", "it is in no session yet");
    const entry = next.client.join();
    count.same(next.said().map(each => each.slice(0, 14)), ["01000300000002", "06000000020200", "06000000030100"],
        "the next life, and what is pending");
    next.say(welcome(1, 6, 7));
    next.say({ kind: "dropped", number: 2, chain: 1, far: 2 });
    await entry;
    count.same([...views(), other.pending, other.status], [[6n], [8n], 1, "joined"], "it goes on");
    const fresh = clientOf({}, JSON.parse(JSON.stringify(clientOf().client.saved())));
    fresh.client.join();
    fresh.say({ kind: "refused", code: 11, detail: 3 });
    count.same(fresh.said().at(-1).slice(6, 14), "00000004", "what was saved before the first join knows nothing");
}

async function tryFaultyCallbacks() {
    const thrown = [];
    process.on("uncaughtException", fault => thrown.push(fault.message));
    const { client, say } = await joined();
    Object.assign(client, { onChange: () => { throw new Error("drawing"); }, onStatus: () => { throw new Error("status"); } });
    const outcome = client.act(ADD_ONE);
    say(relay(1, 1, 0, ADD_ONE));
    say({ kind: "noted", commit: 1 });
    await outcome;
    const watching = client.watch([0], () => { throw new Error("watcher"); });
    say({ kind: "seen", last: 1, commit: 1 });
    await pause(30);
    say({ kind: "seen", last: 1, commit: 1 });
    await pause(5);
    watching.stop();
    count.same([client.view(0), client.pending, client.status], [[6n], 0, "joined"], "what callbacks throw disturbs nothing");
    client.close();
    await pause(5);
    process.removeAllListeners("uncaughtException");
    count.same(thrown, ["drawing", "watcher", "status"], "and it comes up by itself");
}

async function tryPatience() {
    const { client, say, said, links } = await joined({ patience: 30 });
    await pause(50);
    count.same(client.status, "joined", "nothing is due");
    client.observe([0], 60);
    await pause(50);
    count.same(client.status, "joined", "it may be held for as long as its wait");
    say({ kind: "seen", last: 0, commit: 0 });
    said();
    client.poll();
    await pause(20);
    client.poll();
    await pause(20);
    count.same(["lost", "joining"].includes(client.status), true, "the first one's reply is due for too long");
    count.same(links[0].isClosed, true, "the line counts as broken");
    client.close();
}

/** The byte of a node that is the 65th, and has 8 above it. */
function tryLargeAndDeep() {
    const start = "89 00000000 00000000 0000 01 00000001 0000 00000001 01 0000 0001 00000000 00000000 1d";
    const before = `${start}${"100000 20 0000000000000001".repeat(28)} 11 ${"35".repeat(7)}`;
    const { length } = bytesOf(before), read = byte => decodeReply(bytesOf(before + byte));
    count.refuses(() => read("30"), `malformed ${length} 7`, "too many nodes, and too deep");
    count.refuses(() => read("20"), `malformed ${length} 2`, "and of another kind");
}

function isTypeError(call) {
    try {
        call();
        return false;
    } catch (fault) {
        return fault instanceof TypeError;
    }
}

function tryBuilder() {
    const a = obj(3).attr(1), b = obj(300).attr(0);
    for (const [made, text] of [
        [action([a.set(a.plus(1))]), "reads 3 writes 3 { set @3.1 (@3.1 + 1); }"],
        [action([b.set(number(2).minus(a)), a.set(b.max(0).min(a))]),
            "reads 3 300 writes 3 300 { set @300.0 (2 - @3.1); set @3.1 ((@300.0 max 0) min @3.1); }"],
        [action([when(a.moreThan(1).and(b.equals(5).not().not()), [b.set(a.times(-3))],
            [b.set(b.dividedBy(2n).remainder(7))])], { at: [1, -2] }),
            "reads 3 300 writes 300 at 1 -2 { if ([1 < @3.1] and not not [@300.0 == 5]) { set @300.0 (@3.1 * -3); } "
            + "else { set @300.0 ((@300.0 / 2) % 7); } }"],
        [action([when(a.atMost(1).or(b.lessThan(5)), [])]), "reads 3 300 writes { if ([@3.1 <= 1] or [@300.0 < 5]) { } }"],
        [action([when(a.atLeast(b), [])]), "reads 3 300 writes { if [@300.0 <= @3.1] { } }"],
        [action([when(a.equals(1), [when(a.equals(2), [], [b.set(1)])])]),
            "reads 3 300 writes 300 { if [@3.1 == 1] { if [@3.1 == 2] { } else { set @300.0 1; } } }"],
        [action([a.set(2n ** 63n - 1n)]), "reads 3 writes 3 { set @3.1 9223372036854775807; }"],
        [action([], { reads: [2, 1], writes: [2] }), "reads 1 2 writes 2 { }"], [action(a.set(1)), "reads 3 writes 3 { set @3.1 1; }"],
        [action([a.set(1), [b.set(2)]]), "reads 3 300 writes 3 300 { set @3.1 1; set @300.0 2; }"],
        [action(when(a.moreThan(1), a.set(1), b.set(2))), "reads 3 300 writes 3 300 { if [1 < @3.1] { set @3.1 1; } else { set @300.0 2; } }"]]) {
        count.same(String(made), text, text);
        count.same(made, parseAction(text), text);
    }
    for (const [name, wrong] of Object.entries({
        "an operator": () => a + 1, "a comparison": () => a > 1, "a text": () => `${a}`, "no whole number": () => a.set(0.5),
        "a number over 64 bits": () => action([a.set(2n ** 63n)]), "a condition as a value": () => action([a.set(a.equals(1))]),
        "a value as a condition": () => action([when(a, [])]), "a term as a statement": () => action([a.plus(1)]),
        "set of a sum": () => a.plus(1).set(1), "a number of no safe size": () => a.plus(2 ** 60), "null": () => a.plus(null),
        "no attribute": () => action([obj(1).attr("x").set(1)]), "a statement as a value": () => action([a.set(b.set(1))]) })) {
        count.expect(isTypeError(wrong), `${name} is refused`);
    }
    for (const [text, wrong] of [
        ["the expression `+` stands where a statement belongs", () => action(a.plus(1))],
        ["'reads 0 writes { }' stands where a statement belongs", () => action("reads 0 writes { }")],
        ["null stands where a statement belongs", () => action(null)], ["an object stands where a statement belongs", () => action([{}])],
        ["an attribute stands where a condition belongs", () => when(a, [])], ["true stands where a condition belongs", () => when(true, [])],
        ["the condition `<` stands where an expression belongs", () => action(a.set(a.moreThan(1)))],
        ["'5' stands where a term or a whole number belongs", () => a.set("5")],
        ["only an attribute can be set, as obj(3).attr(0): 5 can't", () => number(5).set(3)],
        ["'x' stands where a whole number belongs", () => action(obj(1).attr("x").set(1))],
        ["an object stands where an action, or its text, belongs", () => clientOf().client.act([a.set(1)])]]) {
        count.refuses(wrong, text, text);
    }
    const fault = count.refuses(() => parseAction("reads 0 writes 1 { }"), "text 15 4", "a text that is no action");
    count.same([fault.place, fault.cause, fault.word, fault instanceof Fault], [15, 4, "text", true], "its place and cause");
}

const tests = [tryTakingUp, tryPushedOut, tryJoiningAgain, tryPauses, tryLimits, tryOutcomes, tryLeaving, tryObserving, tryWatching,
    tryRunning, tryPaces, tryCallbacks, tryWatchingMore, tryFarLives, tryKeys, trySaving, tryFaultyCallbacks, tryPatience, tryLargeAndDeep, tryBuilder];
for (const each of tests) await each();
count.close();
