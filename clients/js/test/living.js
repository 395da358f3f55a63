/**
 * Players over servers that hold Observes, and whose connections break; tests/outside/tests/test_living.py judges them.
 *
 *     node clients/js/test/living.js broken PORT..      two players at each port; the connection of the first one breaks
 *     node clients/js/test/living.js places PORT PORT PORT..
 *                                                       programs of one number, one after the other; some with keys; and
 *                                                       one at each further port that takes up the place of another one
 *     node clients/js/test/living.js many PORT FIRST [CUTS]     eight players at once, who move numbers from object to object; with
 *                                                       CUTS all over WebSockets, which they cut themselves with this chance
 *
 * With a switch of node, --experimental-websocket, some of the players use WebSockets.
 *
 * Prints what they were told, as JSON. `many` prints `ready` before, when all has its outcome, and goes on at a line.
 */

import { createInterface } from "node:readline";
import { once } from "node:events";
import { setTimeout as pause } from "node:timers/promises";
import { Client, action, obj, webSocketLink } from "../dimboetu.js";
import { nodeLink } from "../node-link.js";
import { until } from "./count.js";

const ADD = [0, 1].map(object => `reads ${object} writes ${object} { set @${object}.0 (@${object}.0 + 1); }`);
const numbersOf = values => [...values].map(([object, value]) => [object, value && Number(value[0])]);

/** A client, and what it was told. */
function playerOf(port, number, more = {}, saved = null) {
    const player = { calls: [], statuses: [] };
    const options = { connect: () => nodeLink(port), retry: { first: 10, longest: 50, tries: 200 }, pause: 50, wait: 5000,
        onStatus: (status, fault) => player.statuses.push(fault?.refused ? `${status} ${fault.refused.name}` : status), ...more };
    player.client = saved ? Client.fromSaved(saved, options) : new Client({ number, objects: 2, attributes: 1, ...options });
    player.watch = objects => player.client.watch(objects, (values, changed) => player.calls.push([numbersOf(values), changed]));
    return player;
}

const overWebSocket = port => ({ connect: key => webSocketLink(`ws://127.0.0.1:${port}/world`, globalThis.WebSocket, key) });

/** A program that takes up the place of another one, and makes one more action. */
async function taking(port) {
    const { client } = playerOf(port, 0);
    await client.join();
    await client.act(ADD[0]);
    await client.leave();
    return [client.life, client.made];
}

/** Who may join, with which key and over what. */
async function keys(port) {
    const [own, other] = [16, 64].map(length => Uint8Array.from({ length }, (_, one) => one)), found = [];
    for (const key of [own, other, null, new Uint8Array(17)]) {
        for (const link of [{}, overWebSocket(port)]) {
            const { client } = playerOf(port, 0, { ...link, key, retry: { first: 5, longest: 5, tries: 2 } });
            await client.join().then(() => client.leave(), () => {});
            found.push(client.status);
        }
    }
    return found;
}

/** Two players act in turn, while the first one watches. */
async function broken(port) {
    const [first, second] = [0, 1].map(number => playerOf(port, number)), outcomes = [];
    await Promise.all([first.client.join(), second.client.join()]);
    first.watch([0, 1]);
    for (let turn = 0; turn < 4; turn += 1) {
        outcomes.push(first.client.act(ADD[0]));
        await pause(5);
        outcomes.push(second.client.act(ADD[1]));
        await pause(5);
    }
    const kinds = (await Promise.all(outcomes)).map(each => each.kind);
    await until(() => String(first.client.view(1)) === "4");
    while (first.client.life < 2) await first.client.poll();
    await Promise.all([first.client.leave(), second.client.leave()]);
    return { kinds, calls: first.calls, life: first.client.life, statuses: first.statuses };
}

/** A program; one that takes up its place without memory; one that goes on with what was saved; and one that comes too late. */
async function places(port) {
    const first = playerOf(port, 0);
    await first.client.join();
    first.watch([0]);
    for (let made = 0; made < 3; made += 1) await first.client.act(ADD[0]);
    const second = playerOf(port, 0);
    await second.client.join();
    second.watch([0]);
    const tookUp = [second.client.life, second.client.made], outcome = await second.client.act(ADD[0]);
    await until(() => first.client.status === "pushed out");
    second.client.act(ADD[0]);
    const saved = JSON.stringify(second.client.saved());
    second.client.close();
    const third = playerOf(port, 0, {}, JSON.parse(saved));
    await third.client.join();
    third.watch([0]);
    await until(() => third.client.pending === 0 && String(third.client.view(0)) === "5");
    const old = playerOf(port, 0, {}, JSON.parse(saved)), fault = await old.client.join().catch(broken => broken);
    await third.client.leave();
    return { tookUp, outcome, statuses: [first, second, third, old].map(each => each.statuses), saved: JSON.parse(saved).pending.length,
        third: [third.client.life, third.client.made], refused: fault.refused, calls: [first, second, third].map(each => each.calls) };
}

/** Moves numbers from object to object, watches all, and observes all now and then. */
async function move(player, random, cuts) {
    const { client } = player, all = Array.from({ length: 8 }, (_, object) => object), outcomes = [];
    player.watch(all);
    for (let made = 0; made < 8; made += 1) {
        const from = Math.floor(random() * 8), to = (from + 1 + Math.floor(random() * 7)) % 8, size = 1 + Math.floor(random() * 9);
        const [source, target] = [obj(from).attr(0), obj(to).attr(0)];
        outcomes.push(client.act(action([source.set(source.minus(size)), target.set(target.plus(size))])));
        if (random() < cuts) client.link?.close();
        if (client.pending > 4) await outcomes.at(-1);
        if (made % 4 === 3) player.cuts.push(numbersOf((await client.observe(all)).values));
        await pause(random() * 10);
    }
    player.outcomes = (await Promise.all(outcomes)).map(each => each.kind);
}

async function many(port, first, cuts) {
    const linkOf = place => cuts || place % 2 ? overWebSocket(port) : {};
    const players = Array.from({ length: 8 }, (_, place) =>
        ({ ...playerOf(port, first + place, { objects: 8, ...linkOf(place) }), cuts: [] }));
    await Promise.all(players.map(({ client }) => client.join()));
    await Promise.all(players.map(player => move(player, Math.random, cuts)));
    console.log("ready");
    await once(createInterface({ input: process.stdin }), "line");
    const last = await Promise.all(players.map(async ({ client }) => numbersOf((await client.observe([0, 1, 2, 3, 4, 5, 6, 7])).values)));
    const views = players.map(({ client }) => last[0].map(([object]) => [object, Number(client.view(object)[0])]));
    await Promise.all(players.map(({ client }) => client.leave()));
    process.stdin.destroy();
    return players.map(({ client, calls, statuses, cuts, outcomes }, place) =>
        ({ number: client.number, made: client.made, calls, statuses, cuts, outcomes, last: last[place], views: views[place] }));
}

const [what, ...ports] = process.argv.slice(2);
const found = await { broken: () => Promise.all(ports.map(port => broken(Number(port)))), places: async () => [await places(Number(ports[0])), await keys(Number(ports[1])),
        await Promise.all(ports.slice(2).map(port => taking(Number(port))))],
    many: () => many(Number(ports[0]), Number(ports[1]), Number(ports[2] ?? 0)) }[what]();
console.log(JSON.stringify(found));
