/**
 * Random players over a served world, whose connections break again and again; or one that takes up a place.
 *
 *     node clients/js/test/play.js PLAN.json
 *
 * The plan has the server's port, and for each client its shape, its interest, the texts of its actions and how often
 * its connection breaks. A relay in between cuts it, anywhere in a frame. At last a line of JSON says what each client
 * keeps and was told; tests/outside/tests/test_js.py judges it by the server's journal.
 */

import { connect, createServer } from "node:net";
import { once } from "node:events";
import { readFileSync } from "node:fs";
import { setTimeout as pause } from "node:timers/promises";
import { Client } from "../dimboetu.js";
import { nodeLink } from "../node-link.js";

const textsOf = value => value && value.map(String);
const pairsOf = values => [...values].map(([object, value]) => [object, textsOf(value)]);

/** A source of chance, the same for the same seed. */
function chanceOf(seed) {
    let state = seed * 2 + 1;
    return () => {
        state = Math.imul(state ^ state >>> 15, state | 1) + 0x6d2b79f5 | 0;
        return ((state ^ state >>> 14) >>> 0) / 2 ** 32;
    };
}

/** A relay to the server's port that cuts so many connections, each after some bytes. */
async function relayTo(port, drops, chance) {
    const relay = createServer(near => {
        const far = connect({ port, host: "127.0.0.1", noDelay: true });
        const isCut = drops > 0;
        let left = isCut ? 1 + Math.floor(chance() * 600) : Infinity;
        if (isCut) drops -= 1;
        const cut = () => {
            near.destroy();
            far.destroy();
        };
        for (const [from, to] of [[near, far], [far, near]]) {
            from.on("data", piece => {
                to.write(piece.subarray(0, Math.max(0, left)));
                left -= piece.length;
                if (left <= 0) setTimeout(cut, Math.floor(chance() * 5));
            });
            from.on("end", () => to.end());
            from.on("error", () => {});
            from.on("close", () => to.destroySoon());
        }
    });
    relay.listen(0, "127.0.0.1");
    await once(relay, "listening");
    return { port: relay.address().port, close: () => relay.close(), isDone: () => drops === 0 };
}

/** One player: what it was told, and its client. */
async function playerOf(port, plan) {
    const chance = chanceOf(plan.seed), relay = await relayTo(port, plan.drops, chance);
    const player = { plan, chance, relay, shown: [], watched: [], changes: [], outcomes: [], statuses: [] };
    player.client = new Client({ ...plan.world, retry: { first: 4, longest: 20 }, pause: 15, wait: 300,
        connect: () => nodeLink(relay.port),
        onChange: (object, old, now) => player.changes.push([object, textsOf(old), textsOf(now)]),
        onStatus: (status, fault) => player.statuses.push(fault ? `${status}: ${fault.message}` : status) });
    await player.client.join();
    if (plan.watched.length) {
        player.client.watch(plan.watched, values => player.watched.push(pairsOf(values)));
    }
    return player;
}

/** Makes all its actions, observes and polls in between, until its connections broke as often as they shall. */
async function play({ plan, chance, client, shown, outcomes, relay }) {
    for (const text of plan.acts) {
        outcomes.push(client.act(text));
        if (client.pending === 8 || chance() < 0.4) await outcomes.at(-1);
        if (chance() < 0.3) {
            const { last, values } = await client.observe(plan.watched.length ? plan.watched : [0], chance() < 0.5 ? 0 : 50);
            shown.push([last, pairsOf(values)]);
        }
        if (chance() < 0.2) await client.poll();
        if (chance() < 0.3) await pause(chance() * 10);
    }
    await Promise.all(outcomes);
    while (!relay.isDone()) await client.observe([0]);
}

/** Completes what is abandoned, and looks at the whole world. */
async function settle({ client, plan: { world } }) {
    while (await client.poll() !== null);
    for (let first = 0; first < world.objects; first += 16) {
        await client.observe(Array.from({ length: Math.min(16, world.objects - first) }, (_, place) => first + place));
    }
}

/** What a client keeps, and what it was told. */
async function found({ client, shown, changes, outcomes, statuses }) {
    const { versions, told, made, life } = client.knowledge;
    return { number: client.number, told, made, life, shown, changes, statuses, outcomes: await Promise.all(outcomes),
        versions: [...versions].map(([object, held]) => [object, [...held].map(([place, value]) => [place, textsOf(value)])]),
        views: Array.from({ length: client.knowledge.objects }, (_, object) => textsOf(client.view(object))) };
}

const plan = JSON.parse(readFileSync(process.argv[2], "utf8"));
const players = await Promise.all(plan.clients.map(each => playerOf(plan.port, each)));
await Promise.all(players.map(play));
for (const round of [1, 2]) for (const player of players) await settle(player, round);
await Promise.all(players.map(({ client }) => client.leave()));
console.log(JSON.stringify(await Promise.all(players.map(found))));
for (const { relay } of players) relay.close();
