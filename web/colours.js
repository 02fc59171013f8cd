/* Colours of elements on a ground. */

/** @typedef {'dark' | 'light'} Ground what the drawing is shown on */
/** @typedef {readonly number[]} Parts red, green and blue of a colour, each from 0 to 255 */

/** @type {Readonly<Record<Ground, Parts>>} */
const GROUNDS = Object.freeze({ dark: [18, 22, 29], light: [255, 255, 255] });
const LEAST_CONTRAST = 2.6;

/**
 * Pens for what isn't a colour of the drawing, on each ground.
 * @typedef {Readonly<Record<'changed' | 'added' | 'deleted' | 'old' | 'chosen' | 'hover' | 'fence', string>>} Pens
 */

/** @type {Readonly<Record<Ground, Pens>>} */
export const PENS = Object.freeze({
    dark: Object.freeze({
        changed: '#ffb224', added: '#3ddc84', deleted: '#ff6b6b', old: '#d9a441', chosen: '#5cc8ff', hover: '#a5e1ff',
        fence: '#e08bff',
    }),
    light: Object.freeze({
        changed: '#b45309', added: '#0a7d33', deleted: '#c81e1e', old: '#b98b3a', chosen: '#0062d6', hover: '#3b8eea',
        fence: '#8a2be2',
    }),
});

/**
 * How light a colour is to the eye, from 0 to 1.
 * @param {Parts} colour
 */
function luminance(colour) {
    const [red, green, blue] = colour.map((part) => {
        const share = part / 255;
        return share <= 0.04045 ? share / 12.92 : ((share + 0.055) / 1.055) ** 2.4;
    });
    return 0.2126 * red + 0.7152 * green + 0.0722 * blue;
}

/**
 * The contrast of two colours, from 1 to 21.
 * @param {Parts} one
 * @param {Parts} other
 */
function contrast(one, other) {
    const [darker, lighter] = [luminance(one), luminance(other)].sort((a, b) => a - b);
    return (lighter + 0.05) / (darker + 0.05);
}

/**
 * A colour that is seen on the ground: grey that isn't is turned over, another is made darker or lighter.
 * @param {Parts} ground
 * @param {Parts} colour
 * @returns {Parts}
 */
function seenOn(ground, colour) {
    if (contrast(ground, colour) >= LEAST_CONTRAST) {
        return colour;
    }
    if (Math.max(...colour) - Math.min(...colour) < 16) {
        return colour.map((part) => 255 - part * 0.9);
    }
    const aim = luminance(ground) > 0.5 ? 0 : 255;
    let share = 0, mixed = colour;
    while (contrast(ground, mixed) < LEAST_CONTRAST && share < 1) {
        share += 0.05;
        mixed = colour.map((part) => part + (aim - part) * share);
    }
    return mixed;
}

/**
 * @param {Parts} colour
 * @returns {string} as `#rrggbb`
 */
function hexOf(colour) {
    return '#' + colour.map((part) => Math.round(part).toString(16).padStart(2, '0')).join('');
}

/**
 * @param {string} hex as `#rrggbb`
 * @returns {Parts}
 */
export function partsOf(hex) {
    return [1, 3, 5].map((at) => parseInt(hex.slice(at, at + 2), 16));
}

/**
 * The colours of a table as they are drawn on a ground.
 * @param {Ground} ground
 * @param {readonly string[]} table as `#rrggbb`
 */
export function coloursOn(ground, table) {
    return table.map((hex) => hexOf(seenOn(GROUNDS[ground], partsOf(hex))));
}
