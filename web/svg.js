/* A picture as SVG: a canvas of which each stroke, area and text becomes an element of a file. */

import { byId } from './dom.js';

/** @typedef {import('./painter.js').Canvas} Canvas */

/** @param {number} value */
function short(value) {
    return String(Math.round(value * 100) / 100);
}

/**
 * Takes what a painter draws, as far as a painter does, and makes elements of it. What a drawing holds becomes text of
 * these, never markup.
 * @implements {Canvas}
 */
export class SvgCanvas {
    /**
     * @param {number} width in pixels of 96 to the inch
     * @param {number} height
     */
    constructor(width, height) {
        this.root = svgElement('svg', {
            viewBox: '0 0 ' + short(width) + ' ' + short(height), width: short(width * 25.4 / 96) + 'mm',
            height: short(height * 25.4 / 96) + 'mm',
        });
        this.measure = /** @type {CanvasRenderingContext2D} */ (document.createElement('canvas').getContext('2d'));
        this.globalAlpha = 1;
        this.lineWidth = 1;
        this.strokeStyle = this.fillStyle = '#000000';
        this.lineJoin = this.lineCap = '';
        this.font = this.textBaseline = '';
        /** @type {readonly number[]} */
        this.dash = [];
        this.transform = [1, 0, 0, 1, 0, 0];
        /** @type {string[]} */
        this.path = [];
    }

    /** @param {number[]} transform */
    setTransform(...transform) {
        this.transform = transform;
    }

    /** @param {readonly number[]} dash */
    setLineDash(dash) {
        this.dash = dash;
    }

    /** @param {string} text */
    measureText(text) {
        this.measure.font = this.font;
        return this.measure.measureText(text);
    }

    beginPath() {
        this.path = [];
    }

    /** @param {number} left @param {number} top */
    moveTo(left, top) {
        this.path.push('M' + short(left) + ' ' + short(top));
    }

    /** @param {number} left @param {number} top */
    lineTo(left, top) {
        this.path.push('L' + short(left) + ' ' + short(top));
    }

    closePath() {
        this.path.push('Z');
    }

    stroke() {
        this.add('path', {
            'd': this.path.join(''), 'fill': 'none', 'stroke': this.strokeStyle, 'stroke-width': short(this.lineWidth),
            'stroke-dasharray': this.dash.length > 0 ? this.dash.join(' ') : null, 'stroke-linejoin': 'round',
        });
    }

    /** @param {'evenodd' | 'nonzero'} rule */
    fill(rule = 'nonzero') {
        this.add('path', { 'd': this.path.join(''), 'fill': this.fillStyle, 'fill-rule': rule });
    }

    /** @param {number} left @param {number} top @param {number} width @param {number} height */
    fillRect(left, top, width, height) {
        this.add('rect', { x: short(left), y: short(top), width: short(width), height: short(height),
            fill: this.fillStyle });
    }

    /** @param {number} left @param {number} top @param {number} width @param {number} height */
    strokeRect(left, top, width, height) {
        this.add('rect', { 'x': short(left), 'y': short(top), 'width': short(width), 'height': short(height),
            'fill': 'none', 'stroke': this.strokeStyle, 'stroke-width': short(this.lineWidth) });
    }

    /** @param {string} text @param {number} left @param {number} top */
    fillText(text, left, top) {
        const [size, ...families] = this.font.split('px ');
        const element = this.add('text', {
            'x': short(left), 'y': short(top), 'fill': this.fillStyle, 'font-size': size,
            'font-family': families.join('px '), 'transform': 'matrix(' + this.transform.map((it) => (
                String(Math.round(it * 1e6) / 1e6))).join(' ') + ')',
        });
        // What XML can't hold is shown as a box.
        element.textContent = text.replace(/[^\t\n\r -\uD7FF\uE000-\uFFFD\u{10000}-\u{10FFFF}]/gu, '\uFFFD');
    }

    /**
     * @param {string} name
     * @param {Record<string, string | null>} attributes
     */
    add(name, attributes) {
        const opacity = this.globalAlpha < 1 ? short(this.globalAlpha) : null;
        const element = svgElement(name, { ...attributes, opacity });
        this.root.append(element);
        return element;
    }

    /** The file. */
    get text() {
        return '<?xml version="1.0" encoding="UTF-8"?>\n' + new XMLSerializer().serializeToString(this.root) + '\n';
    }
}

/**
 * @param {string} name
 * @param {Record<string, string | null>} attributes
 */
function svgElement(name, attributes) {
    // the page has an empty SVG, whose namespace is the one that is wanted
    const element = document.createElementNS(byId('no-picture').namespaceURI, name);
    for (const [key, value] of Object.entries(attributes)) {
        if (value !== null) {
            element.setAttribute(key, value);
        }
    }
    return element;
}
