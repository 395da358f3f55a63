/**
 * The lines that docs/JAVASCRIPT.md shows, as one program over a served world of 4 objects with 2 attributes:
 *
 *     node clients/js/test/page.js PORT FILE
 *
 * FILE is where it keeps what it knows.
 */

import { readFile, writeFile } from "node:fs/promises";
import { Client, action, obj, when } from "../dimboetu.js";
import { nodeLink } from "../node-link.js";

const port = Number(process.argv[2]), path = process.argv[3];
let drawn = 0;
const draw = (values, changed) => {
    console.log(`draws ${[...values].join(" ")}, of which ${changed} changed`);
    drawn += 1;
};

const links = [nodeLink(port), nodeLink(port), nodeLink(port)];     // all of them before the first join
const client = new Client({ number: 0, objects: 4, attributes: 2, interest: [0, 3], connect: () => links.shift() });
await client.join();

const gold = obj(0).attr(1), inside = obj(3).attr(1);
const take = action([when(inside.moreThan(0), [gold.set(gold.plus(inside)), inside.set(0)])]);
console.log(String(take));

const outcome = await client.act(take);
if (outcome.kind === "accepted") console.log(`happens at position ${outcome.position}`);
if (outcome.kind === "dropped") console.log(`never happens: chain ${outcome.chain}, far ${outcome.far}`);

const { last, values } = await client.observe([0, 3]);
console.log(`at ${last}: ${values.get(0)} and ${values.get(3)}`);

try {
    client.act("reads 9 writes { }");
} catch (fault) {
    console.log(fault.message, fault.word, fault.cause);
}

const watching = client.watch([0, 3], draw);
while (!drawn) await new Promise(done => { setTimeout(done, 10); });
await client.act("reads 3 writes 3 { set @3.1 9; }");
watching.stop();

await writeFile(path, JSON.stringify(client.saved()));
client.close();
const again = Client.fromSaved(JSON.parse(await readFile(path, "utf8")), { connect: () => links.shift() });
await again.join();
console.log(`life ${again.life}, ${again.made} actions made, sees ${again.view(3)}`);
await again.leave();
for (const link of links) link.close();
