/* The script with its answers, the line that is typed, and how the result is checked. */

import { stagesOf } from './acts.js';
import { typed } from './byte_strings.js';
import { lineSaid } from './surroundings.js';
import { counted } from './describing.js';
import { byId, fill, make } from './dom.js';
import { LINES_MOST, LISTED_MOST } from './limits.js';
import { namesOf } from './saving.js';
import { shellWord } from './lines.js';

/** @typedef {import('./answers.js').Answer} Answer */
/** @typedef {import('./document.js').Document} Document */

export class ScriptPanel {
    /** @param {import('./app.js').App} app */
    constructor(app) {
        this.app = app;
        /**
         * What the panel shows, so that it is made anew only where that has changed.
         * @type {Document | null}
         */
        this.document = null;
        /** @type {import('./refusals.js').Refusals | null} */
        this.refusals = null;
        byId('typing').addEventListener('submit', (/** @type {Event} */ event) => {
            event.preventDefault();
            this.addTyped();
        });
        byId('script-copy').addEventListener('click', () => this.copyText());
    }

    /** Runs the line that is typed; it stays in the field where it wasn't run. */
    async addTyped() {
        const line = byId('typed').value;
        if (line.trim() !== '' && this.app.canEdit
            && await this.app.work.apply({ why: 'typed', lines: [typed(line)] }) && byId('typed').value === line) {
            byId('typed').value = '';
        }
    }

    show() {
        const { document, maker } = this.app.work, { refusals } = this.app;
        const isShown = this.document === document && this.refusals === refusals;
        if (document === null || maker === null || isShown) {
            return;
        }
        const { lines, answers } = document;
        this.document = document;
        this.refusals = refusals;
        byId('script-count').textContent = lines.length === 0 ? '' : String(lines.length);
        byId('script-copy').disabled = lines.length === 0;
        const first = Math.max(lines.length - LINES_MOST, 0);
        const rows = lines.slice(first).map((line, index) => this.rowOf(line, answers[first + index], first + index));
        const hidden = first === 0 ? [] : [make('li', { class: 'note' }, counted(first, 'line') + ' before these')];
        fill(byId('script'), ...hidden, ...rows);
        this.showBefore(document.before);
        this.showCheck(document);
    }

    /**
     * What was done before the script, which its lines stand on.
     * @param {import('./acts.js').Stage[]} stages
     */
    showBefore(stages) {
        const said = stages.flatMap(({ lines, patch }) => [
            ...(lines.length > 0 ? ['a script of ' + counted(lines.length, 'line')] : []),
            ...(patch === null ? [] : ['the patch file ' + patch.name])]);
        fill(byId('steps'), ...(said.length === 0 ? [] : [make('h3', {}, 'Done before'),
            make('ol', { class: 'steps' }, ...said.map((it) => make('li', {}, it)))]));
    }

    /**
     * @param {string} line
     * @param {Answer | null} answer
     * @param {number} index
     */
    rowOf(line, answer, index) {
        const { work, refusals } = this.app, { document } = this, isRefused = answer !== null && answer.cause !== null;
        const why = answer === null || answer.cause === null || document === null ? ''
            : ': ' + refusals.sentence(line, answer.cause, document.doneBefore(index));
        const said = answer === null ? [] : [make('span', { class: 'answer' }, answer.said + why)];
        const name = 'Remove line ' + (index + 1);
        const button = make('button', { 'type': 'button', 'class': 'remove', 'aria-label': name, 'title': name }, '×');
        button.addEventListener('click', () => work.remove(index));
        return make('li', { class: isRefused ? 'refused' : 'ok' }, make('code', {}, lineSaid(line)), ...said, button,
            ...listedOf(answer));
    }

    /**
     * The commands that make the same drawing, and the sums that tell that it is the same.
     * @param {Document} document
     */
    showCheck(document) {
        const { original, savedDigest } = document;
        if (!document.hasWork) {
            fill(byId('check'));
            return;
        }
        const commands = commandsOf(document);
        const sums = [['as it was opened', original.digest], ['as it was saved', savedDigest]]
            .filter(([, sum]) => sum !== '');
        fill(byId('check'), make('h3', {}, 'Make it again'),
            make('p', { class: 'note' },
                'The program makes the same drawing, byte for byte, from the saved files:'),
            make('output', { 'class': 'command', 'id': 'command', 'aria-label': 'Commands' }, commands.join('\n')),
            make('p', { class: 'note' }, 'SHA-256 of the drawing'),
            make('dl', { class: 'sums' }, ...sums.flatMap(([what, sum]) => [make('dt', {}, what),
                make('dd', { class: 'mono' }, sum)])));
    }

    async copyText() {
        const text = this.document === null ? '' : this.document.lines.map((line) => lineSaid(line) + '\n').join('');
        try {
            await navigator.clipboard.writeText(text);
            this.app.say('The script was copied.');
        } catch {
            this.app.notice('The browser doesn’t let this page copy: save the script instead.');
        }
    }
}

/**
 * What a listing has in front of its last line.
 * @param {Answer | null} answer
 */
function listedOf(answer) {
    if (answer === null || answer.listed.length === 0) {
        return [];
    }
    const more = answer.listed.length < LISTED_MOST ? '' : '\n…';
    return [make('pre', { class: 'listed' }, answer.listed.join('\n') + more)];
}

/**
 * The commands that do on disk what was done here.
 * @param {Document} document
 */
function commandsOf({ original, acts }) {
    const names = namesOf(original.name), stages = stagesOf(acts);
    const steps = stages.flatMap(({ lines, patch }, at) => [
        ...(lines.length === 0 ? [] : [{ word: 'edit', by: at === stages.length - 1 ? names.script
            : names.scriptBefore(at + 1) }]), ...(patch === null ? [] : [{ word: 'apply', by: patch.name }])]);
    let from = original.name;
    return steps.map(({ word, by }, index) => {
        const to = index === steps.length - 1 ? names.out : names.between(index + 1), last = from;
        from = to;
        return words(word, last, by, to);
    });
}

/** @param {string[]} those */
function words(...those) {
    return ['dgnedit', ...those.map(shellWord)].join(' ');
}
