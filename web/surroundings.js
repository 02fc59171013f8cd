/* What stands around the work in the app: who is asked, what is said, and how a step's document comes to be seen. */

import { byId, setHidden } from './dom.js';
import { keptSaid } from './opener.js';
import { Fault } from './opening.js';
import { NotRun } from './making.js';
import { Stopped } from './queue.js';
import { readOf } from './stopping.js';
import { faultSaid } from './refusals.js';
import { sha256 } from './saving.js';
import { BrowserStore } from './store.js';
import { KIND_SAID, kindOf } from './tcb.js';
import { bytesOf } from './byte_strings.js';
import { readable } from './texts.js';

/** @typedef {import('./app.js').App} App */
/** @typedef {import('./work.js').Surroundings} Surroundings */

/**
 * A line of a script as it is read.
 * @param {string} line
 */
export function lineSaid(line) {
    return readable(bytesOf(line));
}

/** @param {string} text */
function sentenceOf(text) {
    return text.charAt(0).toUpperCase() + text.slice(1) + '.';
}

/**
 * Why bytes don't open, in a sentence.
 * @param {Fault} fault
 * @param {Uint8Array} bytes
 */
export function whyNotOpened({ word, at }, bytes) {
    const kind = kindOf(bytes);
    return word === 'not-design' && kind !== 'design' ? 'It is ' + KIND_SAID[kind] + '.'
        : sentenceOf(faultSaid(word, at));
}

/**
 * The fault that the program prints, `bad design cut at 1680`.
 * @param {NotRun} fault
 */
function printedFault({ said }) {
    const [, , word, , at] = said.split(' ');
    return new Fault(word, Number(at));
}

/** Shows that a step or the program takes longer than a blink, and which. */
class Busy {
    constructor() {
        /** @type {ReturnType<typeof setTimeout> | undefined} */
        this.timer = undefined;
        this.step = '';
        this.running = 0;
        this.isAsking = false;
    }

    /**
     * Says how far the step is that runs.
     * @param {string} text
     */
    tell(text) {
        byId('busy-text').textContent = text;
    }

    show() {
        const isBusy = !this.isAsking && (this.step !== '' || this.running > 0);
        document.documentElement.dataset.busy = String(isBusy);
        clearTimeout(this.timer);
        this.tell((this.step || 'The program is working') + ' …');
        if (!isBusy) {
            setHidden(byId('busy'), true);
        } else {
            this.timer = setTimeout(() => setHidden(byId('busy'), false), 200);
        }
    }
}

export const busy = new Busy();

/**
 * The surroundings of the work in the app.
 * @param {App} app
 * @param {import('./making.js').Program | null} program
 * @returns {Surroundings}
 */
export function surroundingsOf(app, program) {
    return {
        program, store: new BrowserStore(), digest: sha256, now: () => Date.now(),
        read: readOf,
        ask: (question, signal) => app.questions.ask(question, signal),
        show: (document, former) => app.showDocument(document, former),
        busy: (queue) => {
            busy.step = queue.running === null ? '' : queue.running.name;
            busy.show();
            app.show();
        },
        say: (text) => app.say(text),
        tellFault: (why, document) => tellFault(app, why, document !== null),
        tellNotOpened: (name, fault, bytes) => tellNotOpened(app, name, fault, bytes),
        tellRefusal: (refusal) => app.tellRefusal(refusal),
        tellGone: (gone) => app.notice('The browser had no room for this work: the oldest that was kept went, that on '
            + gone.name + ', ' + keptSaid(gone) + '.'),
        behind: (document, made, index) => app.editing.behind(document, made, index),
    };
}

/**
 * Says why something wasn't done.
 * @param {App} app
 * @param {unknown} why
 * @param {boolean} isOpen
 */
function tellFault(app, why, isOpen) {
    if (why instanceof Stopped) {
        app.say('Stopped. Nothing has changed.');
    } else if (why instanceof NotRun && isOpen && app.drawing !== null) {
        const said = app.refusals.notRun(why.status, why.said);
        app.notice(why.name === '' ? said : why.name + ': ' + said);
    } else {
        tell(app, 'That wasn’t done: ' + (why instanceof Error ? why.message : String(why)));
    }
}

/**
 * @param {App} app
 * @param {string} name
 * @param {Fault | NotRun} fault
 * @param {Uint8Array} bytes
 */
function tellNotOpened(app, name, fault, bytes) {
    if (fault instanceof Fault) {
        tell(app, name + ' doesn’t open. ' + whyNotOpened(fault, bytes));
    } else if (fault.status === 4) {
        tell(app, name + ' doesn’t open. ' + whyNotOpened(printedFault(fault), bytes));
    } else {
        tell(app, name + ' doesn’t open: the program ended with ' + fault.status
            + (fault.said === '' ? '.' : ', ‘' + fault.said + '’.'));
    }
}

/**
 * Says something where it is seen: on the start page, or beside the drawing.
 * @param {App} app
 * @param {string} text
 */
function tell(app, text) {
    if (app.drawing === null) {
        byId('start-fault').textContent = text;
        setHidden(byId('start-fault'), false);
    } else {
        app.notice(text);
    }
}
