/**
 * Three programs of one number, one after the other, over a served world of two objects:
 *
 *     node clients/js/test/take_up.js PORT
 *
 * The second one has no memory and takes up the place; the first one is pushed out. The third one goes on with what
 * the second one saved. Prints what happened, as JSON.
 */

import { setTimeout as pause } from "node:timers/promises";
import { Client } from "../dimboetu.js";
import { nodeLink } from "../node-link.js";

const port = Number(process.argv[2]);
const statuses = [[], [], []];
const ADD_ONE = "reads 0 writes 0 { set @0.0 (@0.0 + 1); }";
const options = place => ({ connect: () => nodeLink(port), retry: { first: 4 },
    onStatus: (status, fault) => statuses[place].push(fault?.refused ? `${status} ${fault.refused.name}` : status) });
const WORLD = { number: 0, objects: 2, attributes: 1, interest: [0] };

const first = new Client({ ...WORLD, ...options(0) });
await first.join();
for (let made = 0; made < 11; made += 1) await first.act(ADD_ONE);
await first.observe([0]);

const second = new Client({ ...WORLD, ...options(1) });
await second.join();
const tookUp = [second.life, second.made];
const outcome = await second.act(ADD_ONE);
await first.observe([0]).catch(() => {});
await pause(30);                                // it does not join again

const view = second.view(0);
second.act(ADD_ONE);
second.act(ADD_ONE);
const saved = JSON.stringify(second.saved());
const third = Client.fromSaved(JSON.parse(saved), options(2));
const seen = third.view(0);
second.close();
await third.join();
const { values } = await third.observe([0, 1]);
await third.leave();
console.log(JSON.stringify({ statuses, tookUp, outcome, view: view.map(String), seen: seen.map(String),
    last: [third.life, third.made, third.pending], values: [...values].map(([object, value]) => [object, value.map(String)]) }));
