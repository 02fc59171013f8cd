/* Questions to the person, one at a time, each in a dialog of its own: closing one never answers another. */

import { fill, make } from './dom.js';
import { readFile } from './files.js';

/** @typedef {import('./work.js').Question} Question */
/** @typedef {import('./work.js').Reply} Reply */
/** @typedef {import('./work.js').NamedFile} NamedFile */

const MOST_IN_LIST = 300;

export class Questions {
    /** @param {(isOpen: boolean) => void} tell is told when a question comes up and when none is there any more */
    constructor(tell) {
        this.tell = tell;
        /** @type {Promise<unknown>} */
        this.end = Promise.resolve();
        /** @type {HTMLDialogElement | null} */
        this.dialog = null;
        /**
         * Ends when the first question comes up.
         * @type {Promise<void>}
         */
        this.first = new Promise((resolve) => {
            /** @type {() => void} */
            this.tellFirst = resolve;
        });
    }

    get isOpen() {
        return this.dialog !== null;
    }

    /**
     * Asks something when all that was asked before has been answered. Esc, closing it and the end of the signal answer
     * nothing.
     * @param {Question} question
     * @param {AbortSignal} signal
     * @returns {Promise<Reply | null>}
     */
    ask(question, signal) {
        const asked = this.end.then(() => (signal.aborted ? null : this.askNow(question, signal)));
        this.end = asked.catch(() => {});
        return asked;
    }

    /**
     * @param {Question} question
     * @param {AbortSignal} signal
     * @returns {Promise<Reply | null>}
     */
    askNow(question, signal) {
        return new Promise((resolve) => {
            /** @type {HTMLDialogElement} */
            const dialog = make('dialog', { 'id': 'asking', 'aria-labelledby': 'asking-title' });
            /** @param {Reply | null} reply */
            const end = (reply) => {
                if (this.dialog === dialog) {
                    this.dialog = null;
                    dialog.remove();
                    this.tell(false);
                    resolve(reply);
                }
            };
            fill(dialog, ...dialogParts(question, end));
            dialog.addEventListener('close', () => end(null));
            signal.addEventListener('abort', () => end(null), { once: true });
            document.body.append(dialog);
            this.dialog = dialog;
            dialog.showModal();
            this.tell(true);
            this.tellFirst();
        });
    }
}

/**
 * What stands in the dialog of a question.
 * @param {Question} question
 * @param {(reply: Reply) => void} end
 */
function dialogParts({ title, said, list = [], fields = [], accept, buttons }, end) {
    const inputs = fields.map(fieldOf);
    /** @param {string} button @param {NamedFile | null} file */
    const reply = (button, file = null) => end({
        button, file, values: Object.fromEntries(fields.map(({ name }, at) => [name, inputs[at].value])),
    });
    const pressed = buttons.map((name) => buttonOf(name, () => reply(name)));
    const rows = fields.map(({ name, label }, at) => make('div', { class: 'row' },
        make('label', { for: 'asked-' + name }, label), inputs[at]));
    return [
        make('h2', { id: 'asking-title' }, title),
        make('div', { id: 'asking-body' }, ...said.map((text) => make('p', {}, text)), ...listIn(list), ...rows),
        ...(accept === undefined ? [] : [fileField(accept, (file) => reply('', file))]),
        make('div', { id: 'asking-buttons', class: 'row' }, ...pressed),
    ];
}

/**
 * A field of a question: a number or a word, or one of some words.
 * @param {{ name: string, value: string, options?: string[] }} field
 * @returns {HTMLInputElement | HTMLSelectElement}
 */
function fieldOf({ name, value, options }) {
    if (options === undefined) {
        return make('input', { id: 'asked-' + name, inputmode: 'decimal', value });
    }
    const select = make('select', { id: 'asked-' + name }, ...options.map((it) => make('option', { value: it }, it)));
    select.value = value;
    return select;
}

/**
 * A field for a file, which is read when it is chosen.
 * @param {string} accept
 * @param {(file: NamedFile) => void} take
 */
function fileField(accept, take) {
    /** @type {HTMLInputElement} */
    const field = make('input', { 'type': 'file', 'id': 'asked-file', accept, 'aria-label': 'The file' });
    field.addEventListener('change', async () => {
        const file = field.files && field.files[0];
        if (file) {
            take(await readFile(file));
        }
    });
    return make('p', {}, field);
}

/** @param {string[]} list */
function listIn(list) {
    if (list.length === 0) {
        return [];
    }
    const said = list.slice(0, MOST_IN_LIST);
    if (list.length > MOST_IN_LIST) {
        said.push('and ' + (list.length - MOST_IN_LIST) + ' more');
    }
    return [make('ul', { class: 'said-list' }, ...said.map((line) => make('li', {}, line)))];
}

/**
 * A button with a name that does something.
 * @param {string} name
 * @param {() => void} act
 */
export function buttonOf(name, act) {
    const button = make('button', { type: 'button' }, name);
    button.addEventListener('click', act);
    return button;
}
