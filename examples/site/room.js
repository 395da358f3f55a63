/**
 * The room: a page for one player. `?player=1` chooses the player, and `?server=ws://..` another server than the page's own.
 */

import { Client, webSocketLink } from "./dimboetu.js";
import { Line } from "./line.js";
import * as rules from "./rules.js";

const { NAMES, FIGURES, COINS, CHEST, IN_CHEST, NOBODY, SIDE, coinObject } = rules;
const COLOURS = ["#2f6fed", "#d9632a", "#1f9d6b", "#8a4fd3", "#c2377f", "#0d8ea8"];
const BEAT = 4000, GONE = 11_000, SHOWN = 40;
const OBJECTS = Array.from({ length: rules.WORLD.objects }, (_, object) => object);
const byId = id => document.getElementById(id), words = new URLSearchParams(location.search);
const server = words.get("server") ?? `${location.protocol === "https:" ? "wss" : "ws"}://${location.host}/`;

const line = new Line();
let client = null, me = -1, ticking = 0;
/** When each player did something last, or its count went on. */
const beats = new Map();

// What is seen.

const view = object => client?.view(object)?.map(Number) ?? null;
const figures = () => NAMES.map((name, player) => ({ player, name, at: view(player) })).filter(each => each.at);
const coins = () => Array.from({ length: COINS }, (_, coin) => ({ coin, at: view(coinObject(coin)) })).filter(each => each.at);
const coinsOf = owner => coins().filter(({ at }) => at[2] === owner);
const isGuess = object => client.knowledge.pending.some(({ action }) => action.writes.includes(object));
const isHere = player => player === me ? client.status === "joined" : performance.now() - (beats.get(player) ?? -Infinity) < GONE;
const nameOf = owner => owner === me ? "you" : owner === NOBODY ? "nobody" : owner === IN_CHEST ? "the chest" : NAMES[owner];
const distance = (one, other) => Math.max(Math.abs(one[0] - other[0]), Math.abs(one[1] - other[1]));

// What can be done: what it is about, or null.

const DEEDS = {
    take: () => {
        const own = view(me), found = own && coinsOf(NOBODY).find(({ at }) => distance(at, own) === 0);
        return found ? { label: `Take coin ${found.coin + 1}`, says: `you take coin ${found.coin + 1}`, coin: found.coin, action: rules.take(me, found.coin) } : null;
    },
    give: () => {
        const own = view(me), mine = coinsOf(me), near = own ? figures().filter(each => each.player !== me && distance(each.at, own) <= 1) : [];
        const other = near.find(each => isHere(each.player)) ?? near[0];
        if (!other || !mine.length) return null;
        return { label: `Give to ${other.name}`, says: `you give coin ${mine[0].coin + 1} to ${other.name}`, coin: mine[0].coin, action: rules.give(me, mine[0].coin, other.player) };
    },
    putIn: () => {
        const own = view(me), chest = view(CHEST), mine = coinsOf(me);
        if (!own || !chest || !mine.length || distance(own, chest) > 1) return null;
        return { says: `you put coin ${mine[0].coin + 1} into the chest`, coin: mine[0].coin, action: rules.putIn(me, mine[0].coin) };
    },
    takeOut: () => {
        const own = view(me), chest = view(CHEST), kept = coinsOf(IN_CHEST);
        if (!own || !chest || !kept.length || distance(own, chest) > 1) return null;
        return { says: `you take coin ${kept[0].coin + 1} out of the chest`, coin: kept[0].coin, action: rules.takeOut(me, kept[0].coin) };
    },
    drop: () => {
        const mine = coinsOf(me);
        return mine.length ? { says: `you drop coin ${mine[0].coin + 1}`, coin: mine[0].coin, action: rules.drop(me, mine[0].coin) } : null;
    } };

// Doing.

/** Makes an action: the guess is shown at once, and what became of it when that is known. */
async function act(action, says, coin = null) {
    let outcome;
    const start = performance.now();
    try {
        outcome = client.act(action);
    } catch (fault) {
        tell(fault.word === "full" ? "8 actions wait for an answer: no more can be made now" : `this can't be made: ${fault.message}`, "wrong");
        return;
    }
    const expected = new Map(action.writes.map(object => [object, String(client.view(object))]));
    const entry = says ? logged(says, "expected", "guessed") : null;
    draw();
    try {
        outcome = await outcome;
    } catch {
        if (entry) settle(entry, "wrong", "no answer");
        return;
    }
    const time = performance.now() - start;
    byId("latency").textContent = time < 1000 ? `${Math.round(time)} ms` : `${(time / 1000).toFixed(1)} s`;
    // What the action gave; where it was settled while the line was gone, what is seen now.
    const isRight = outcome.kind === "accepted" && action.writes.every(object =>
        String(client.knowledge.versions.get(object)?.get(outcome.position) ?? client.view(object)) === expected.get(object));
    if (entry) settle(entry, isRight ? "right" : "wrong", isRight ? `right, ${byId("latency").textContent}` : "put right");
    if (!isRight && says) entry.firstChild.textContent = `${says}, but ${correct(says, coin, outcome)}`;
    draw();
}

/** Says what was guessed wrong, and shows it; answers why. */
function correct(says, coin, { kind, object }) {
    const owner = coin === null ? null : view(coinObject(coin))?.[2];
    const cause = kind === "denied" ? `object ${object} is not yours to change` : kind === "dropped" ? "too much was going on, so it never happens"
        : owner === null ? "it was not so any more" : owner === NOBODY ? "the coin lies in the room" : owner === me ? "you have it still"
        : `${nameOf(owner)} ${owner === IN_CHEST ? "has it" : "was first"}`;
    tell(`Put right: ${says}, but ${cause}.`, "wrong");
    for (const element of [coin === null ? null : things.get(coinObject(coin)), byId("board")]) {
        const mark = element === byId("board") ? "wrong" : "undone";
        element?.classList.add(mark);
        setTimeout(() => element?.classList.remove(mark), 1400);
    }
    return cause;
}

const walk = (across, down) => client?.knows && act(rules.step(me, across, down), null);

function deed(name) {
    const found = client?.knows && client.view(me) && DEEDS[name]();
    if (found) act(found.action, found.says, found.coin);
}

// Showing.

let telling = 0;
function tell(text, kind = "") {
    clearTimeout(telling);
    byId("told").textContent = text;
    byId("told").className = kind;
    telling = setTimeout(() => { byId("told").textContent = ""; }, 6000);
}

function logged(text, more, kind) {
    const entry = document.createElement("li"), small = document.createElement("small");
    entry.className = kind;
    entry.append(text, small);
    small.textContent = more;
    byId("log").prepend(entry);
    while (byId("log").children.length > SHOWN) byId("log").lastChild.remove();
    return entry;
}

function settle(entry, kind, more) {
    entry.className = kind;
    entry.querySelector("small").textContent = more;
}

/** How far to the side a figure is shown, in parts of a cell: those in one place stand side by side. */
function asideOf(player) {
    const at = view(player), mates = figures().filter(each => at && distance(each.at, at) === 0), order = mates.findIndex(each => each.player === player);
    return mates.length > 1 ? (order - (mates.length - 1) / 2) * Math.min(0.42, 0.9 / mates.length) : 0;
}

const things = new Map();
const CHEST_PICTURE = `<svg viewBox="0 0 40 34" class="body"><rect x="2" y="12" width="36" height="20" rx="3" fill="#8a5a2b"/><path d="M2 14a18 12 0 0 1 36 0z" fill="#a56c35"/>
<path d="M2 14h36" stroke="#5b3816" stroke-width="3"/><rect x="16" y="11" width="8" height="9" rx="2" fill="#f2b632" stroke="#a86f00"/></svg>`;

function thing(object, kind, inside) {
    if (!things.has(object)) {
        const element = document.createElement("div");
        element.className = `thing ${kind}`;
        element.innerHTML = inside;
        byId("board").append(element);
        things.set(object, element);
    }
    return things.get(object);
}

function put(element, [x, y]) {
    element.style.setProperty("--x", x);
    element.style.setProperty("--y", y);
}

function drawFigures() {
    for (const { player, name, at } of figures()) {
        const element = thing(player, "figure", `<div class="body">${name[0]}</div>`);
        element.style.setProperty("--colour", COLOURS[player]);
        put(element, at);
        const aside = asideOf(player);
        element.style.setProperty("--aside", aside / 0.54 * 100);
        element.classList.toggle("together", aside !== 0 || figures().some(each => each.player !== player && distance(each.at, at) === 0));
        element.classList.toggle("mine", player === me);
        element.classList.toggle("away", client.status === "joined" && !isHere(player));
        element.classList.toggle("guess", isGuess(player));
    }
}

function drawCoins() {
    for (const { coin, at: [x, y, owner] } of coins()) {
        const element = thing(coinObject(coin), "coin", `<div class="body">${coin + 1}</div>`), isHeld = owner >= 0 && owner < FIGURES;
        const place = isHeld ? view(owner) : owner === IN_CHEST ? view(CHEST) : [x, y];
        if (place) put(element, place);
        const mates = isHeld ? coinsOf(owner) : [], order = mates.findIndex(each => each.coin === coin);
        element.style.setProperty("--aside", isHeld ? ((order - (mates.length - 1) / 2) * 0.16 + asideOf(owner)) / 0.3 * 100 : 0);
        element.classList.toggle("held", isHeld);
        element.classList.toggle("kept", owner === IN_CHEST && !isGuess(coinObject(coin)));
        element.classList.toggle("guess", isGuess(coinObject(coin)));
    }
    const chest = view(CHEST);
    if (!chest) return;
    const element = thing(CHEST, "chest", `${CHEST_PICTURE}<b></b>`);
    put(element, chest);
    element.querySelector("b").textContent = coinsOf(IN_CHEST).length;
}

function drawPlayers() {
    byId("players").replaceChildren(...NAMES.map((name, player) => {
        const entry = document.createElement("li"), own = coinsOf(player).length;
        const isOn = isHere(player), said = player === me ? "you" : isOn ? "here" : "";
        entry.innerHTML = `<span class="lamp ${isOn ? "on" : ""}"></span><span class="dot" style="--colour:${COLOURS[player]}"></span>
            <span class="name">${name} <small>${said}</small></span><span class="coins">${"<i></i>".repeat(own)}</span>`;
        entry.title = `${name} has ${own} coins`;
        return entry;
    }));
    const all = coins(), inRoom = coinsOf(NOBODY).length, kept = coinsOf(IN_CHEST).length;
    if (all.length) byId("sum").textContent = `${inRoom} in the room, ${kept} in the chest, ${all.length - inRoom - kept} in purses: ${all.length} coins in all.`;
}

function draw() {
    if (!client) return;
    drawFigures();
    drawCoins();
    drawPlayers();
    byId("commit").textContent = client.told;
    for (const button of byId("deeds").children) {
        const found = client.view(me) && client.knows ? DEEDS[button.dataset.deed]() : null;
        button.disabled = !found;
        if (["take", "give"].includes(button.dataset.deed)) {
            button.firstChild.textContent = `${found?.label ?? (button.dataset.deed === "take" ? "Take" : "Give")} `;
        }
    }
    const waiting = client.pending, { status } = client;
    byId("board").classList.toggle("away", status !== "joined");
    byId("status").dataset.status = status;
    byId("status").textContent = status === "joined" ? waiting ? `joined, ${waiting} guessed` : "joined"
        : status === "lost" || status === "joining" ? `no line, ${waiting} of 8 wait` : status;
}

// What others did.

let before = new Map();
/** Is called with what is watched, at each change. */
function look(values, changed) {
    for (const object of changed) {
        const old = before.get(object), now = values.get(object)?.map(Number);
        if (!now) continue;
        if (object < FIGURES && old && String(old) !== String(now)) beats.set(object, performance.now());
        if (object >= FIGURES && object < CHEST && old && old[2] !== now[2] && !isGuess(object)) sayOf(object - FIGURES, old[2], now[2]);
        before.set(object, now);
    }
    draw();
}

/** A line for what became of a coin, where another player did it. */
function sayOf(coin, from, to) {
    const by = to >= 0 && to < FIGURES && to !== me && from !== me ? to : null;
    const what = to === NOBODY ? "was dropped" : to === IN_CHEST ? "was put into the chest" : from === IN_CHEST ? `was taken out by ${nameOf(to)}`
        : from === NOBODY ? `was taken by ${nameOf(to)}` : `went from ${nameOf(from)} to ${nameOf(to)}`;
    if (by !== null || (to !== me && from !== me) || (to === me && from >= 0 && from < FIGURES)) logged(`coin ${coin + 1} ${what}`, "", "");
}

// The connection.

const HINTS = {
    0: "Each deed is shown at once, as a guess with a dashed ring, until the server answered.",
    200: "A good connection. Your guesses are still shown at once.",
    2000: "A bad connection. Take a coin while another player stands on it too: who comes later is put right.",
    Infinity: "No connection. Go on: up to 8 deeds wait, and count once when the line is back." };

function slow(delay) {
    line.set(delay);
    for (const button of byId("lines").children) button.setAttribute("aria-checked", String(Number(button.dataset.delay) === delay));
    byId("hint").textContent = HINTS[delay];
}

function told(status, fault) {
    if (status === "pushed out") {
        tell(`${NAMES[me]} plays in another tab now.`, "wrong");
        choose();
    } else if (status === "refused") {
        tell(`The server refused a request: ${fault?.refused?.name ?? fault?.message}. Load the page again.`, "wrong");
    } else if (status === "lost" && line.delay !== Infinity) {
        tell("The connection broke. Go on: it comes back by itself.", "wrong");
    } else if (status === "joined") {
        tell("You are in the room.", "right");
    }
    draw();
}

function start(player) {
    client?.close();
    me = player;
    before = new Map();
    sessionStorage.setItem("player", player);
    byId("me").innerHTML = `<span class="dot" style="--colour:${COLOURS[me]}"></span>${NAMES[me]}`;
    document.title = `${NAMES[me]} in one room`;
    const mine = new Client({ ...rules.WORLD, number: me, interest: OBJECTS, connect: () => line.link(() => webSocketLink(server)),
        retry: { first: 300, longest: 2000 }, wait: 10_000, patience: 6000, onChange: draw, onStatus: (status, fault) => client === mine && told(status, fault) });
    client = mine;
    mine.join().then(() => mine.watch(OBJECTS, look)).catch(() => {});
    clearInterval(ticking);
    ticking = setInterval(() => {
        if (mine.status === "joined" && mine.pending < 4) act(rules.beat(me), null);
        draw();
    }, BEAT);
}

function choose() {
    byId("names").replaceChildren(...NAMES.map((name, player) => {
        const button = document.createElement("button");
        button.innerHTML = `<span class="dot" style="--colour:${COLOURS[player]}"></span>${name}`;
        button.onclick = () => {
            byId("choice").close();
            start(player);
        };
        return button;
    }));
    if (!byId("choice").open) byId("choice").showModal();
}

// Hands.

const STEPS = { arrowup: [0, -1], w: [0, -1], arrowleft: [-1, 0], a: [-1, 0], arrowright: [1, 0], d: [1, 0], arrowdown: [0, 1], s: [0, 1] };
const KEYS = { " ": "take", g: "give", c: "putIn", x: "takeOut", f: "drop" };
document.addEventListener("keydown", event => {
    const key = event.key.toLowerCase();
    if (event.ctrlKey || event.metaKey || event.altKey || byId("choice").open || !(key in STEPS || key in KEYS)) return;
    event.preventDefault();
    if (key in STEPS) walk(...STEPS[key]);
    else deed(KEYS[key]);
});
for (const button of byId("pad").children) button.onclick = () => walk(...button.dataset.step.split(" ").map(Number));
for (const button of byId("deeds").children) button.onclick = () => deed(button.dataset.deed);
for (const button of byId("lines").children) button.onclick = () => slow(Number(button.dataset.delay));
byId("board").onclick = ({ clientX, clientY }) => {
    const { left, top, width } = byId("board").getBoundingClientRect(), own = client && view(me);
    if (!own) return;
    const across = Math.floor((clientX - left) / width * SIDE) - own[0], down = Math.floor((clientY - top) / width * SIDE) - own[1];
    if (across === 0 && down === 0) deed("take");
    else if (Math.abs(across) >= Math.abs(down)) walk(Math.sign(across), 0);
    else walk(0, Math.sign(down));
};
addEventListener("pagehide", () => client?.close());
addEventListener("pageshow", ({ persisted }) => persisted && client && start(me));

slow(0);
const asked = words.get("player") ?? sessionStorage.getItem("player");
if (asked !== null && Number(asked) in NAMES) start(Number(asked));
else choose();

/** For tests, and for who looks at it by the tools of the browser. */
globalThis.room = { walk, deed, slow, view, coinsOf, get client() { return client; } };
