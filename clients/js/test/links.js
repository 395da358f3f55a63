/**
 * Tries the two links: over a WebSocket class that the test brings, and over sockets of node.
 *
 *     node clients/js/test/links.js
 */

import { createServer } from "node:net";
import { once } from "node:events";
import { Client, webSocketLink } from "../dimboetu.js";
import { frame, nodeLink } from "../node-link.js";
import { Count, bytesOf, encodeReply, hexOf, until } from "./count.js";

const count = new Count();
const WORLD = { number: 3, objects: 2, attributes: 1, interest: [0] };
const WELCOME = encodeReply({ kind: "welcome", head: [[0, [5n]]] });

/** A WebSocket whose other side is the test. */
class TestSocket {
    static made = [];

    constructor(address) {
        Object.assign(this, { address, readyState: 0, sent: [] });
        TestSocket.made.push(this);
    }

    send(bytes) {
        if (this.readyState === 0) throw new Error("InvalidStateError");
        this.sent.push(hexOf(bytes));
    }

    close() {
        this.readyState = 2;
    }

    /** What the browser does. */
    open() {
        this.readyState = 1;
        this.onopen({});
    }

    say(payload) {
        this.onmessage({ data: payload.buffer.slice(payload.byteOffset, payload.byteOffset + payload.byteLength) });
    }
}

async function tryWebSocket() {
    const statuses = [], last = () => TestSocket.made.at(-1);
    const client = new Client({ ...WORLD, connect: () => webSocketLink("ws://here/", TestSocket), retry: { first: 4 },
        onStatus: status => statuses.push(status) });
    const entry = client.join();
    const { address, binaryType, sent } = last();
    count.same([address, binaryType, sent], ["ws://here/", "arraybuffer", []], "nothing is sent before it is open");
    last().open();
    count.same(last().sent, ["01000300000001010000"], "one binary message for each message of the wire");
    last().say(WELCOME);
    await entry;
    client.poll();
    count.same(last().sent.slice(1), ["04"], "without a length");
    last().say(encodeReply({ kind: "idle" }));
    last().onerror({});
    last().onclose({ code: 1006 });
    await until(() => TestSocket.made.length > 1);
    count.same([TestSocket.made.length, client.life, client.status], [2, 2, "joining"], "joined again over another one");
    last().onclose({ code: 1006 });
    await until(() => TestSocket.made.length > 2);
    count.same([TestSocket.made.length, client.life], [3, 2], "one that was never open takes no life");
    last().onerror({});
    await until(() => TestSocket.made.length > 3);
    count.same([TestSocket.made.length, client.life], [4, 2], "node tells an error alone where none can be made");
    TestSocket.made.at(-2).onclose({ code: 1006 });
    last().open();
    last().say(WELCOME);
    count.same([TestSocket.made.length, client.status], [4, "joined"], "what is told later of an old one is nothing");
    last().onmessage({ data: "9999999999999999" });
    count.same([client.status, last().readyState, statuses.at(-1)], ["refused", 2, "refused"], "a text message is no reply");
    globalThis.WebSocket = TestSocket;
    webSocketLink("ws://there/").close();
    count.same([last().address, last().readyState], ["ws://there/", 2], "the class of the browser, if none is given");
    const key = Uint8Array.from({ length: 16 }, (_, one) => 17 * one);
    for (const [address, shown] of [["ws://here/", "ws://here/?key=00112233445566778899aabbccddeeff"],
        ["ws://here/?room=1", "ws://here/?room=1&key=00112233445566778899aabbccddeeff"]]) {
        const keyed = new Client({ ...WORLD, key, connect: given => webSocketLink(address, TestSocket, given) });
        keyed.join();
        last().open();
        count.same([last().address, last().sent], [shown, ["01000300000001010000"]], "a key stands in the address, and is not said");
        keyed.close();
    }
}

/** A server of one connection after the other, each of which a test has. */
async function serving() {
    const server = createServer(), sockets = [];
    server.on("connection", socket => {
        socket.on("error", () => {});
        sockets.push(socket);
    });
    server.listen(0, "127.0.0.1");
    await once(server, "listening");
    const next = async () => {
        if (!sockets.length) await once(server, "connection");
        return sockets.shift();
    };
    return { server, port: server.address().port, next };
}

async function tryNodeLink() {
    const { server, port, next } = await serving(), faults = [];
    const client = new Client({ ...WORLD, connect: () => nodeLink(port), retry: { first: 4 },
        onStatus: (status, fault) => faults.push(fault ? fault.message : status) });
    const entry = client.join(), socket = await next();
    const [said] = await once(socket, "data");
    count.same(hexOf(said), "0000000a01000300000001010000", "a frame");
    const framed = frame(WELCOME);
    for (const byte of framed) {
        socket.write(Uint8Array.of(byte));
        await new Promise(done => { setTimeout(done, 1); });
    }
    await entry;
    count.same(client.view(0), [5n], "a reply that comes byte by byte");
    socket.end(framed.subarray(0, 9));
    const second = await next();
    count.same([client.life, faults.includes("lost") || faults.includes("closed")], [2, true], "half a frame, and the line breaks");
    second.write(bytesOf("00010001ff"));
    await until(() => client.status === "refused");
    count.same([client.status, faults.at(-1)], ["refused", "toolong 65537"], "a length that is too long");

    const late = nodeLink(port), third = await next(), told = [];
    late.onClose = fault => told.push(fault.message);
    third.destroy();
    await until(() => told.length);
    late.send(Uint8Array.of(4));
    await until(() => told.length > 1);
    count.same(told.length, 2, "a link that closed before it was used says so when it is");
    for (const each of [second, third]) each.destroy();
    server.close();
    await once(server, "close");

    const nobody = new Client({ ...WORLD, connect: () => nodeLink(port, "127.0.0.1", 0), retry: { first: 4, tries: 3 } });
    const { reason } = await count.breaks(nobody.join(), "closed", "nobody listens");
    count.same([nobody.life, reason.code], [0, "ECONNREFUSED"], "no life is taken, and the fault has the reason");
    const broken = nodeLink(port);
    broken.onClose = fault => told.push(fault.message);
    broken.close();
    await until(() => told.length > 2);
    await tryLate(port);
}

/** A server that comes later: what is sent meanwhile waits. */
async function tryLate(port) {
    const [first, second] = [nodeLink(port), nodeLink(port)], sockets = [];
    for (const link of [first, second]) link.send(Uint8Array.of(4));
    await new Promise(done => { setTimeout(done, 250); });
    count.same([first.wasOpen, second.wasOpen], [false, false], "nobody listens yet");
    const server = createServer(socket => { socket.once("data", said => sockets.push([socket, hexOf(said)])); });
    server.listen(port, "127.0.0.1");
    await until(() => sockets.length > 1);
    count.same(sockets.map(([, said]) => said), ["0000000104", "0000000104"], "what was sent before comes");
    const told = [];
    first.onClose = fault => told.push(fault.message);
    first.close();
    second.onClose = fault => told.push(fault.message);
    for (const [socket] of sockets) socket.destroy();
    server.close();
    await until(() => told.length > 1);
    count.same(told, ["closed", "closed"], "a link that broke once it was open is not made again");
}

/** A player who closes its own link joins again, though nothing else keeps the program alive. */
async function tryOwnCut() {
    const { server, port, next } = await serving(), statuses = [];
    const client = new Client({ ...WORLD, connect: () => nodeLink(port), retry: { first: 4 }, onStatus: status => statuses.push(status) });
    const entry = client.join();
    (await next()).write(frame(WELCOME));
    await entry;
    client.link.close();
    const socket = await next();
    socket.write(frame(WELCOME));
    await until(() => client.status === "joined");
    count.same([statuses, client.life], [["joining", "joined", "lost", "joining", "joined"], 2], "an own cut");
    client.close();
    socket.destroy();
    server.close();
}

await tryWebSocket();
await tryNodeLink();
await tryOwnCut();
count.close();
