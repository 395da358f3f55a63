/**
 * Tries the evaluator on actions that the program carried out, one after the other:
 *
 *     node clients/js/test/replayed.js RUNS.json
 *
 * Each run has the opening values of a world's objects, and its actions in order, each with the values that the program
 * gave the objects that it writes.
 */

import { readFileSync } from "node:fs";
import { parseAction } from "../dimboetu.js";
import { Count } from "./count.js";

const count = new Count();

for (const { objects, acts } of JSON.parse(readFileSync(process.argv[2], "utf8"))) {
    const world = objects.map(value => value.map(BigInt));
    for (const { text, result } of acts) {
        const act = parseAction(text), given = act.result(act.reads.map(target => world[target]));
        count.same(given.map(value => value.map(String)), result, text);
        act.writes.forEach((target, place) => { world[target] = given[place]; });
    }
}
count.close();
