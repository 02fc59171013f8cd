/* Small helpers for what stands beside the drawing. What a drawing holds is put there as text, never as markup. */

/**
 * A row of buttons.
 * @typedef {{ readonly children: HTMLCollectionOf<HTMLButtonElement> } & HTMLElement} Buttons
 */

/**
 * The elements of app.html of which more is used than any element has, by their names.
 * @typedef {Record<'open' | 'start-open' | 'undo' | 'redo' | 'save' | 'mend' | 'import' | 'apply' | 'compare'
 *     | 'open-script' | 'save-script' | 'save-patch' | 'throw-away' | 'previous' | 'next' | 'go' | 'fence-choose'
 *     | 'fence-clear' | 'edit-move' | 'edit-copy' | 'edit-sym' | 'edit-delete' | 'drag-move' | 'drag-copy'
 *     | 'typed-add' | 'script-copy', HTMLButtonElement>
 *     & Record<'open-file' | 'second-file' | 'search-field' | 'show-deleted' | 'typed' | 'changes-filter' | 'by-x'
 *     | 'by-y' | 'by-z' | 'new-color' | 'new-weight' | 'new-style' | 'make-level' | 'make-color' | 'make-weight'
 *     | 'make-style' | 'make-words' | 'make-height' | 'make-font' | 'coordinate', HTMLInputElement>
 *     & Record<'fence-mode' | 'by-unit', HTMLSelectElement> & Record<'edits' | 'making', HTMLFieldSetElement>
 *     & Record<'drawing' | 'marks' | 'start-picture', HTMLCanvasElement> & Record<'modes' | 'tools' | 'views', Buttons>
 *     & { 'more': HTMLDetailsElement } & Record<'kept-dialog' | 'help-dialog', HTMLDialogElement>} Parts
 */

/**
 * The element of the page with this name.
 * @template {string} Name
 * @param {Name} id
 * @returns {Name extends keyof Parts ? Parts[Name] : HTMLElement}
 */
export function byId(id) {
    const element = /** @type {unknown} */ (document.getElementById(id));
    return /** @type {Name extends keyof Parts ? Parts[Name] : HTMLElement} */ (element);
}

/**
 * A new element with these attributes, and with text or other elements in it.
 * @template {keyof HTMLElementTagNameMap} Tag
 * @param {Tag} tag
 * @param {Record<string, string | null>} attributes
 * @param {...(string | Node)} children
 * @returns {HTMLElementTagNameMap[Tag]}
 */
export function make(tag, attributes = {}, ...children) {
    const element = document.createElement(tag);
    for (const [name, value] of Object.entries(attributes)) {
        if (value !== null) {
            element.setAttribute(name, value);
        }
    }
    element.append(...children);
    return element;
}

/**
 * Puts these children in the place of all that stand in an element.
 * @param {Element} element
 * @param {...(string | Node)} children
 */
export function fill(element, ...children) {
    element.replaceChildren(...children);
}

/**
 * @param {HTMLElement} element
 * @param {boolean} isHidden
 */
export function setHidden(element, isHidden) {
    element.hidden = isHidden;
}

/**
 * A term and what is said of it, for a list of descriptions.
 * @param {string} term
 * @param {...(string | Node)} said
 */
export function termed(term, ...said) {
    return [make('dt', {}, term), make('dd', {}, ...said)];
}

/**
 * A button that looks like a link within text, and does something.
 * @param {string} text
 * @param {() => void} act
 */
export function linkTo(text, act) {
    const button = make('button', { type: 'button', class: 'link' }, text);
    button.addEventListener('click', act);
    return button;
}

/**
 * A square in a colour.
 * @param {string} colour
 */
export function swatchOf(colour) {
    const swatch = make('span', { class: 'swatch', 'aria-hidden': 'true' });
    swatch.style.backgroundColor = colour;
    return swatch;
}
