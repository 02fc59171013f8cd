/* The page before a drawing is open: a picture of the example, and what opens it. */

import { byId, setHidden } from './dom.js';
import { Drawing } from './drawing.js';
import { partOf } from './files.js';
import { Scene } from './scene.js';
import { drawSheet, sheetOf } from './sheet.js';

const WIDTH = 560, HEIGHT = 300;  // pixels of the picture
const MILLIMETRES = 25.4 / 96;    // of a pixel
const NAME = 'town.dgn';

export class StartPage {
    /** @param {import('./app.js').App} app */
    constructor(app) {
        this.app = app;
        for (const id of ['start-example', 'start-picture']) {
            byId(id).addEventListener('click', () => this.open());
        }
    }

    /** Shows the example, where the app has one. */
    async show() {
        const example = await partOf('example-part');
        const drawing = example === null ? null : Drawing.open(NAME, example);
        if (!(drawing instanceof Drawing)) {
            return;
        }
        const canvas = byId('start-picture'), ratio = Math.min(window.devicePixelRatio || 1, 3);
        const scene = new Scene(drawing.records, drawing.before);
        canvas.width = WIDTH * ratio;
        canvas.height = HEIGHT * ratio;
        const sheet = sheetOf({ box: scene.extent().box, width: WIDTH * MILLIMETRES, height: HEIGHT * MILLIMETRES,
            scale: null, hasFrame: false, titleOf: () => '' });
        const context = canvas.getContext('2d');
        if (context !== null) {
            await drawSheet(scene, drawing.colours.table, context, sheet, ratio);
            setHidden(byId('start-shown'), false);
        }
    }

    /** Opens the example. */
    open() {
        return openExample(this.app);
    }
}

/**
 * Opens the example, where the app has one.
 * @param {import('./app.js').App} app
 */
export async function openExample(app) {
    const example = await partOf('example-part');
    return example === null ? false : app.opener.open(NAME, async () => example);
}
