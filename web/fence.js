/* The fence: its corners, and the trees that the program says it takes. */

import { byId, setHidden } from './dom.js';
import { fenceLines, probesOfFence } from './lines.js';
import { isRefused } from './work.js';

export class Fence {
    /** @param {import('./app.js').App} app */
    constructor(app) {
        this.app = app;
        /** @type {number[][] | null} */
        this.corners = null;
        /** @type {number[]} */
        this.chosen = [];
        /**
         * The cause against each edit of the fence.
         * @type {Map<string, string>}
         */
        this.causes = new Map();
        this.isKnown = false;
        /**
         * Tells the last asking from those before it.
         * @type {object | null}
         */
        this.asked = null;
        byId('fence-mode').addEventListener('change', () => this.ask());
        byId('fence-clear').addEventListener('click', () => app.tools.clearFence());
        byId('fence-choose').addEventListener('click', () => this.takeOver());
    }

    clear() {
        this.corners = null;
        this.chosen = [];
        this.causes.clear();
        this.isKnown = false;
        this.asked = null;
    }

    get isSet() {
        return this.corners !== null;
    }

    get mode() {
        return byId('fence-mode').value;
    }

    /**
     * Sets the corners; without a word from the program there is no fence.
     * @param {number[][]} corners
     */
    async set(corners) {
        this.clear();
        this.corners = corners;
        await this.ask();
    }

    /**
     * The lines that set this fence, behind the script or alone.
     * @param {readonly string[]} script
     */
    lines(script) {
        return this.corners === null ? [] : fenceLines(script, this.corners, this.app.scene.levels);
    }

    /** Asks the program what the fence takes of what is shown, and then which edits of it would be refused. What was
        known of it before, as of another mode, isn't any more. */
    async ask() {
        const { app, corners } = this, { document } = app.work;
        if (corners === null || document === null || !app.hasProgram) {
            return;
        }
        this.isKnown = false;
        this.causes.clear();
        const asked = this.asked = {}, { mode } = this, lines = [...this.lines([]), 'select ' + mode];
        const answers = await app.work.ask(lines);
        if (answers === null || this.asked !== asked) {
            return;
        }
        if (isRefused(answers[lines.length - 2])) {
            this.clear();
            app.tellRefusal({ document, lines, answers, index: lines.length - 2 });
            return;
        }
        const chosen = answers[lines.length - 1];
        this.isKnown = true;
        this.chosen = chosen === null ? [] : chosen.listed.map(Number);
        app.show();
        app.stage.request();
        await this.askCauses(asked, lines.slice(0, -1), mode);
    }

    /**
     * Asks which edits of the fence would be refused.
     * @param {object} asked
     * @param {string[]} lines that set it
     * @param {string} mode
     */
    async askCauses(asked, lines, mode) {
        const { app } = this, probes = probesOfFence(mode, app.open.drawing.axes);
        const answers = await app.work.ask([...lines, ...probes]);
        if (answers !== null && this.asked === asked) {
            ['move', 'copy', 'sym', 'delete'].forEach((edit, index) => (
                this.noteCause(edit, answers[lines.length + 2 * index])));
            app.show();
        }
    }

    /**
     * Notes why an edit of the fence would be refused, where it would be.
     * @param {string} edit
     * @param {import('./answers.js').Answer | null} answer
     */
    noteCause(edit, answer) {
        if (answer !== null && answer.cause !== null) {
            this.causes.set(edit, answer.cause);
        }
    }

    /** Chooses the trees of the fence one by one. */
    takeOver() {
        const { chosen, corners, mode } = this, { choice, scene } = this.app;
        this.app.tools.clearFence();
        choice.choose(chosen, corners === null ? null : { corners, mode, levels: scene.levels.slice() });
    }

    show() {
        setHidden(byId('fence-row'), !this.isSet);
        byId('fence-choose').disabled = this.chosen.length === 0;
    }
}
