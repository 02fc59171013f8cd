/* Steps, one after another: each is begun when all that were asked before it have ended. */

/** What a step that is stopped, or that a later one takes the place of, ends with. */
export class Stopped extends Error {}

/**
 * What a step is about: an edit, a save, a drawing that is opened or offered, or something that only reads.
 * @typedef {'edit' | 'save' | 'open' | 'read'} Kind
 */

/** A step that waits or runs. */
export class Step {
    /**
     * @param {string} name what is said while it runs
     * @param {Kind} kind
     */
    constructor(name, kind) {
        this.name = name;
        this.kind = kind;
        this.controller = new AbortController();
        this.isSettled = false;
    }

    get signal() {
        return this.controller.signal;
    }

    /** From here on the step can't be stopped any more; it throws Stopped where it was stopped before. */
    settle() {
        if (this.signal.aborted) {
            throw new Stopped('stopped');
        }
        this.isSettled = true;
    }
}

export class Queue {
    /** @param {(queue: Queue) => void} tell is told whenever a step is asked, begins or ends */
    constructor(tell) {
        this.tell = tell;
        /**
         * The steps that run or wait, in their order.
         * @type {Step[]}
         */
        this.steps = [];
        /** @type {Promise<unknown>} */
        this.end = Promise.resolve();
    }

    /** The step that runs, or null. */
    get running() {
        return this.steps.length > 0 ? this.steps[0] : null;
    }

    /** Whether a step runs or waits that may change the work or save it. */
    get isWorking() {
        return this.steps.some(({ kind }) => kind === 'edit' || kind === 'save');
    }

    /**
     * Does something when all that was asked before has ended. What it throws is thrown, and Stopped where it was
     * stopped before it began.
     * @template T
     * @param {string} name
     * @param {Kind} kind
     * @param {(step: Step) => Promise<T>} act
     * @returns {Promise<T>}
     */
    add(name, kind, act) {
        const step = new Step(name, kind);
        this.steps.push(step);
        this.tell(this);
        const done = this.end.then(() => {
            this.tell(this);
            if (step.signal.aborted) {
                throw new Stopped('stopped');
            }
            return act(step);
        }).finally(() => {
            this.steps.splice(this.steps.indexOf(step), 1);
            this.tell(this);
        });
        this.end = done.catch(() => {});
        return done;
    }

    /**
     * Stops the step that runs and those that wait, but one that can't be stopped any more.
     * @param {(step: Step) => boolean} which
     */
    stop(which = () => true) {
        for (const step of this.steps.filter(which)) {
            if (!step.isSettled) {
                step.controller.abort();
            }
        }
    }
}
