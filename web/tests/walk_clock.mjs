/* Time and chance of a walk: both follow from its seed alone. */

export class Dice {
    constructor(seed) {
        this.state = seed >>> 0;
    }

    /** A number from 0 to below another one. */
    below(count) {
        this.state = this.state + 0x6D2B79F5 >>> 0;
        let mixed = Math.imul(this.state ^ this.state >>> 15, 1 | this.state);
        mixed = mixed + Math.imul(mixed ^ mixed >>> 7, 61 | mixed) ^ mixed;
        return ((mixed ^ mixed >>> 14) >>> 0) % count;
    }

    of(list) {
        return list[this.below(list.length)];
    }
}

export class Clock {
    constructor(dice) {
        this.dice = dice;
        this.time = 0;
        this.waiting = [];
    }

    /** Waits up to so long; a signal ends it as it ends a run of the program. */
    delay(most = 300, signal = null, why = null) {
        return new Promise((resolve, reject) => {
            const entry = { time: this.time + this.dice.below(most + 1), resolve };
            this.waiting.push(entry);
            if (signal !== null) {
                const stop = () => {
                    this.waiting = this.waiting.filter((it) => it !== entry);
                    reject(why());
                };
                if (signal.aborted) {
                    stop();
                } else {
                    signal.addEventListener('abort', stop, { once: true });
                    entry.resolve = () => {
                        signal.removeEventListener('abort', stop);
                        resolve();
                    };
                }
            }
        });
    }

    /** Lets all that is ready come to its next wait. */
    settle() {
        return new Promise((resolve) => setImmediate(resolve));
    }

    /** Lets so much time pass, or all that is waited for. */
    async pass(most) {
        const end = this.time + most;
        await this.settle();
        for (;;) {
            const next = this.waiting.reduce((least, it) => (least && least.time <= it.time ? least : it), null);
            if (next === null || next.time > end) {
                this.time = most === Infinity ? this.time : end;
                return;
            }
            this.time = next.time;
            this.waiting.splice(this.waiting.indexOf(next), 1);
            next.resolve();
            await this.settle();
        }
    }
}
