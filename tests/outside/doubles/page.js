/**
 * Stands in for a browser without a window: runs the script of a page of tools/picture, and prints as JSON what it shows.
 *
 *     node tests/outside/doubles/page.js PAGE [MARK [WIDTH]]
 *
 * `shown` has what the script wrote into each element, `body` the data of the page's body, and `strokes` each call and each setting of the
 * canvas, in order. MARK is what stands behind the page's name, as `#action=c1.2`. No style is applied, and nothing is laid out.
 */
"use strict";
const fs = require("fs");

const [page, mark = "", width = "1080"] = process.argv.slice(2);
const html = fs.readFileSync(page, "utf8");
const strokes = [];
const pen = new Proxy({}, {
  get: (target, name) => name in target ? target[name] : (...given) => { strokes.push([name, ...given]); },
  set: (target, name, value) => { target[name] = value; strokes.push([name, value]); return true; },
});

/** An element by its mark: what the script writes into it stays, and what it listens to is never called. */
function element(id) {
  return { id, innerHTML: "", value: "", dataset: {}, style: {}, clientWidth: Number(width), addEventListener() {}, getContext: () => pen };
}

const elements = new Map([...html.matchAll(/\bid="([^"]+)"/g)].map(([, id]) => [id, element(id)]));
const [, data] = /<script type="application\/json" id="data">([^]*?)<\/script>/.exec(html);
const [, script] = /<script>\n([^]*?)<\/script>/.exec(html);
elements.get("data").textContent = data;
for (const [, id, first] of html.matchAll(/<select id="([^"]+)">(?:\s*<option value="([^"]+)")?/g)) elements.get(id).value = first ?? "all";

const body = { dataset: {} };
const page_document = { body, addEventListener() {}, getElementById: (id) => elements.get(id) };
const run = new Function("document", "window", "location", "history", "requestAnimationFrame", script);
run(page_document, { addEventListener() {} }, { hash: mark }, { replaceState() {} }, () => {});
const shown = Object.fromEntries([...elements].map(([id, one]) => [id, one.innerHTML]));
process.stdout.write(JSON.stringify({ shown, body: body.dataset, height: elements.get("lanes").height, strokes }));
