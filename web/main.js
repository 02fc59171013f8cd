/* Starts the page. `window.page` is there for the console and for tests. */

import { App } from './app.js';
import { byId, setHidden } from './dom.js';
import { Engine, canRun } from './engine.js';
import { partOf } from './files.js';
import { Help } from './help.js';
import { Incoming } from './incoming.js';
import { linesOf } from './making.js';
import { StartPage } from './start_page.js';
import { busy } from './surroundings.js';

const NO_PROGRAM = 'This browser can show drawings, but can’t run the program that edits them: it lacks Memory64 of '
    + 'WebAssembly, which Chrome and Edge have from version 133 on, and Firefox from 134 on.';

const NO_PART = 'This copy of the app can only show drawings: the program that edits them isn’t in it.';

/** The program in its worker, or null where it can't be run here. */
async function engineOf() {
    const part = canRun() ? await partOf('program-part') : null;
    if (part === null) {
        return null;
    }
    const program = await WebAssembly.compile(/** @type {BufferSource} */ (part));
    return new Engine(byId('worker-part').textContent || '', program, (running) => {
        busy.running = running;
        busy.show();
    });
}

async function start() {
    const app = new App(await engineOf());
    Object.assign(window, { page: app });
    new Incoming(app);
    new Help(app);
    document.body.dataset.program = String(app.hasProgram);
    if (!app.hasProgram) {
        byId('start-fault').textContent = canRun() ? NO_PART : NO_PROGRAM;
        setHidden(byId('start-fault'), false);
    }
    await openOwn(app);
    if (app.drawing === null) {
        await new StartPage(app).show();
    }
    if (!canRun() && app.drawing !== null) {
        app.notice(NO_PROGRAM);
    }
    document.documentElement.dataset.started = 'true';
}

/**
 * Opens the drawing that the page was made with, and does what it was made for.
 * @param {App} app
 */
async function openOwn(app) {
    const drawing = await partOf('drawing-part'), script = await partOf('script-part');
    if (drawing === null) {
        return;
    }
    const lines = script === null || !app.hasProgram ? [] : linesOf(script);
    const { name = '' } = byId('drawing-part').dataset;
    // A question may stay open; the page has started all the same.
    const opening = app.opener.open(name, async () => drawing, lines);
    await Promise.race([opening, app.questions.first]);
    const other = await partOf('after-part');
    if (other !== null) {
        await app.menu.compareWith(byId('after-part').dataset.name || '', other);
    }
    if (lines.length > 0 && app.drawing !== null && app.scene.after !== null) {
        app.modes.set('both');
        app.tabs.show('script');
    }
}

start();
