/* The drawing as a picture, as GeoJSON, and on paper. */

import { byId, fill, setHidden } from './dom.js';
import { contextOf } from './dots.js';
import { featuresOf } from './features.js';
import { TOP } from './orientation.js';
import { namesOf, targetOf } from './saving.js';
import { PIXELS_OF_MILLIMETRE, SHEETS, drawSheet, sheetOf } from './sheet.js';
import { SvgCanvas } from './svg.js';
import { metresOfUnit } from './units.js';

const MOST_PIXELS = 16384;        // of a side of a picture, which a browser's canvas has at most
const PICTURE_RATIO = 2;          // dots of a PNG to a pixel
const USUAL = 400;                // millimetres of the longer side of a picture without a scale

const FORMATS = ['PNG picture', 'SVG picture', 'GeoJSON'];
const PARTS = ['what is seen', 'all that is shown'];
const FRAMES = ['a frame with name and scale', 'no frame'];

/** @typedef {import('./sheet.js').Sheet} Sheet */

export class Exports {
    /** @param {import('./app.js').App} app */
    constructor(app) {
        this.app = app;
        /** Whether a picture is being made. */
        this.isDrawing = false;
    }

    /** The question's field for a scale, where the drawing's units are known; none where they aren't. */
    get scaleFields() {
        const drawing = this.app.drawing;
        return drawing === null || metresOfUnit(drawing.units) === null ? []
            : [{ name: 'scale', label: 'scale 1 : ', value: '' }];
    }

    /** Asks what is to be exported, and saves it. */
    async export() {
        const answer = await this.app.questions.ask({
            title: 'Export', said: ['By a scale a picture is as large as it is on paper.'],
            buttons: ['Export', 'Cancel'], fields: [
                { name: 'format', label: 'as', value: FORMATS[0], options: FORMATS },
                { name: 'part', label: 'of', value: PARTS[0], options: PARTS },
                { name: 'frame', label: 'with', value: FRAMES[0], options: FRAMES }, ...this.scaleFields],
        }, new AbortController().signal);
        if (answer === null || answer.button !== 'Export') {
            return;
        }
        if (answer.values.format === 'GeoJSON') {
            const { scene, words } = this.app, text = featuresOf(scene, words);
            await this.save('features', async () => new TextEncoder().encode(text));
            return;
        }
        const sheet = this.pictureSheet(answer.values), isSvg = answer.values.format === 'SVG picture';
        if (sheet !== null) {
            await this.save(isSvg ? 'svg' : 'picture', () => (isSvg ? this.svgOf(sheet) : this.pngOf(sheet)));
        }
    }

    /**
     * Saves what is made for it; it is no part of the work.
     * @param {'svg' | 'picture' | 'features'} kind
     * @param {() => Promise<Uint8Array>} bytesOf
     */
    async save(kind, bytesOf) {
        const { app } = this, target = await targetOf(namesOf(app.open.drawing.name)[kind]);
        if (target !== null) {
            const isWhole = await target.put(await bytesOf());
            app.say(target.name + (isWhole ? ' was saved.' : ' was given to the browser to save.'));
        }
    }

    /**
     * The part of the drawing that is asked for: low x, low y, high x, high y.
     * @param {string} part
     * @returns {number[]}
     */
    boxOf(part) {
        return part === PARTS[0] ? this.app.view.rectangle() : this.app.scene.extent().box;
    }

    /**
     * Pixels to a unit of resolution by a scale; null where none is given, and nothing where it is no scale.
     * @param {string | undefined} text
     * @returns {number | null | undefined}
     */
    scaleOf(text = '') {
        const metres = metresOfUnit(this.app.open.drawing.units);
        const value = Number(text.replace(',', '.'));
        if (text.trim() === '' || metres === null) {
            return null;
        }
        if (!(value > 0 && value < 1e9)) {
            this.app.notice('A scale is a number, such as 500 for 1 : 500.');
            return undefined;
        }
        return metres * 1000 / value * PIXELS_OF_MILLIMETRE;
    }

    /**
     * What the strip of a frame says: the drawing's name, its scale where the units are known, and the view where it
     * isn't from above.
     * @param {number} scale
     */
    titleOf(scale) {
        const { drawing: { name, units }, scene: { orientation } } = this.app.open, metres = metresOfUnit(units);
        const view = orientation === TOP ? '' : '   ' + orientation.name;
        return (metres === null ? name : name + '   1 : '
            + Number((metres * 1000 * PIXELS_OF_MILLIMETRE / scale).toPrecision(4))) + view;
    }

    /**
     * The sheet of a picture, as large as what is on it; null where it can't be made.
     * @param {Record<string, string>} asked
     * @returns {Sheet | null}
     */
    pictureSheet({ part, frame, scale: text }) {
        const box = this.boxOf(part), hasFrame = frame === FRAMES[0], scale = this.scaleOf(text);
        if (scale === undefined) {
            return null;
        }
        const [wide, high] = [box[2] - box[0], box[3] - box[1]].map((it) => Math.max(it, 1));
        const millimetres = scale === null ? USUAL / Math.max(wide, high) : scale / PIXELS_OF_MILLIMETRE;
        const edge = hasFrame ? 20 : 0, strip = hasFrame ? 8 : 0;
        const [width, height] = [wide * millimetres + edge, high * millimetres + edge + strip];
        if (Math.max(width, height) * PIXELS_OF_MILLIMETRE * PICTURE_RATIO > MOST_PIXELS) {
            this.app.notice('By this scale the picture would be ' + Math.round(width) + ' mm by ' + Math.round(height)
                + ' mm, which is more than a browser draws: take a part of it, or print it on a sheet.');
            return null;
        }
        return sheetOf({ box, width, height, scale, hasFrame, titleOf: (it) => this.titleOf(it) });
    }

    /** @param {Sheet} sheet */
    async pngOf(sheet) {
        const canvas = document.createElement('canvas');
        canvas.width = Math.ceil(sheet.width * PICTURE_RATIO);
        canvas.height = Math.ceil(sheet.height * PICTURE_RATIO);
        await this.draw(contextOf(canvas), sheet, PICTURE_RATIO);
        /** @type {Blob | null} */
        const blob = await new Promise((resolve) => canvas.toBlob(resolve, 'image/png'));
        if (blob === null) {
            throw new Error('the browser couldn’t make the picture');
        }
        return new Uint8Array(await blob.arrayBuffer());
    }

    /** @param {Sheet} sheet */
    async svgOf(sheet) {
        const canvas = new SvgCanvas(sheet.width, sheet.height);
        await this.draw(canvas, sheet, 1);
        return new TextEncoder().encode(canvas.text);
    }

    /**
     * Draws what is shown on a sheet. Meanwhile the view isn't changed, so that all of it is of one.
     * @param {import('./painter.js').Canvas} canvas
     * @param {Sheet} sheet
     * @param {number} ratio dots to a pixel
     */
    async draw(canvas, sheet, ratio) {
        const { scene, drawing } = this.app.open;
        this.isDrawing = true;
        try {
            await drawSheet(scene, drawing.colours.table, canvas, sheet, ratio);
        } finally {
            this.isDrawing = false;
        }
    }

    /** Asks for a sheet and a scale, and prints what is in the middle of the screen on it. */
    async print() {
        const answer = await this.app.questions.ask({
            title: 'Print', said: ['Its middle comes to the middle of the sheet; without a scale it is as large as it'
                + ' fits. Print without margins, and without fitting to the page.'],
            buttons: ['Print', 'Cancel'], fields: [
                { name: 'sheet', label: 'on', value: 'A4', options: Object.keys(SHEETS) },
                { name: 'way', label: 'laid', value: 'across', options: ['across', 'upright'] },
                { name: 'part', label: 'of', value: PARTS[0], options: PARTS }, ...this.scaleFields],
        }, new AbortController().signal);
        const scale = answer === null ? undefined : this.scaleOf(answer.values.scale);
        if (answer === null || answer.button !== 'Print' || scale === undefined) {
            return;
        }
        const { sheet: name, way, part } = answer.values;
        const [short, long] = SHEETS[name], [width, height] = way === 'across' ? [long, short] : [short, long];
        await this.printSheet(sheetOf({ box: this.boxOf(part), width, height, scale, hasFrame: true,
            titleOf: (it) => this.titleOf(it) }), width, height);
    }

    /**
     * @param {Sheet} sheet
     * @param {number} width in millimetres
     * @param {number} height
     */
    async printSheet(sheet, width, height) {
        const canvas = new SvgCanvas(sheet.width, sheet.height), rules = new CSSStyleSheet(), paper = byId('paper');
        await this.draw(canvas, sheet, 1);
        rules.replaceSync('@page { size: ' + width + 'mm ' + height + 'mm; margin: 0; }');
        document.adoptedStyleSheets = [rules];
        fill(paper, canvas.root);
        setHidden(paper, false);
        window.print();
        setHidden(paper, true);
        fill(paper);
        document.adoptedStyleSheets = [];
    }
}
