/** A line that can be made slow, or be cut: a link around a link. */

export class Line {
    /** How many milliseconds a message takes there and back; Infinity where the line is gone. */
    delay = 0;

    links = new Set();

    set(delay) {
        this.delay = delay;
        if (delay === Infinity) for (const link of [...this.links]) link.close();
    }

    /** A link over the one that `make` gives, which is slow in both directions; or one that breaks at once, where the line is gone. */
    link(make) {
        if (this.delay === Infinity) return goneLink();
        const inner = make(), sent = this.queue(), came = this.queue();
        const link = { hasKey: inner.hasKey, onMessage() {}, onClose() {},
            get wasOpen() { return inner.wasOpen; },
            send: bytes => sent(() => inner.send(bytes)),
            close: () => {
                this.links.delete(link);
                inner.close();
            } };
        inner.onMessage = bytes => came(() => link.onMessage(bytes));
        inner.onClose = fault => {
            this.links.delete(link);
            link.onClose(fault);
        };
        this.links.add(link);
        return link;
    }

    /** Does one thing after the other, each after half the time there and back. (Timers alone would not keep the order: they cut
     * off parts of milliseconds.) */
    queue() {
        const waiting = [];
        const go = () => {
            while (waiting.length && waiting[0].due <= performance.now()) waiting.shift().task();
            if (waiting.length) setTimeout(go, waiting[0].due - performance.now());
        };
        return task => {
            waiting.push({ task, due: performance.now() + Math.min(this.delay, 10_000) / 2 });
            if (waiting.length === 1) go();
        };
    }
}

function goneLink() {
    const link = { wasOpen: false, onMessage() {}, onClose() {}, send() {}, close() {} };
    setTimeout(() => link.onClose(new Error("the line is gone")), 50);
    return link;
}
