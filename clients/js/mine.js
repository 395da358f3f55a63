/**
 * Two players dig a mine of 21 nuggets in turns. Who takes the last one wins.
 *
 *     node clients/js/mine.js PLAYER PORT
 */

import { Client, action, obj, when } from "./dimboetu.js";
import { nodeLink } from "./node-link.js";

const given = process.argv.slice(2);
if (given.length !== 2 || !/^[01]$/.test(given[0]) || !/^[1-9][0-9]{0,4}$/.test(given[1]) || given[1] > 65_535) {
    console.error("words: PLAYER PORT, and PLAYER is 0 or 1");
    process.exit(1);
}
const [me, port] = given.map(Number);
const left = obj(0).attr(0), turn = obj(0).attr(1), purse = obj(me + 1);

/** The rule: it checks for itself that it is the digger's turn, and that so many nuggets are there. */
const digging = nuggets => action([when(turn.equals(me).and(left.atLeast(nuggets)), [
    left.set(left.minus(nuggets)), turn.set(1 - me),
    purse.attr(0).set(purse.attr(0).plus(nuggets)), purse.attr(1).set(purse.attr(1).plus(1))])]);

/** Player 0 knows the trick; player 1 takes what comes to mind. */
const choice = nuggets => me === 0 ? Number(nuggets % 4n) || 1 : Math.ceil(Math.random() * Math.min(3, Number(nuggets)));

const client = new Client({
    number: me, objects: 3, attributes: 2, interest: [0, 1, 2], connect: () => nodeLink(port), retry: { tries: 1 },
    onChange: (object, old, now) => console.log(`player ${me} sees object ${object}: ${now}`),
    onStatus: status => console.log(`player ${me}: ${status}`) });
try {
    await client.join();
    client.watch([0, 1, 2], values => {
        const [nuggets, player] = values.get(0);
        if (nuggets > 0n && player === BigInt(me)) client.act(digging(choice(nuggets)));
        return nuggets === 0n;
    });
    await client.run();
    await client.leave();
} catch ({ message, refused, reason }) {
    const more = refused ? `refused ${refused.code} ${refused.detail}, ${refused.name}` : reason?.message ?? "";
    console.error(`stopped: ${message}${more && `: ${more}`}`);
    process.exitCode = 1;
}
