/* The manual: search while one types, and light or dark. tools/make_manual puts it into the page. */

const MOST = 40, BEFORE = 50, AFTER = 90;  // results; characters of a piece around what was found

/**
 * A section of a page: its heading, what it and the page are called, and its text.
 * @typedef {{ heading: HTMLElement, title: string, page: string, text: string, lower: string }} Section
 */

const field = /** @type {HTMLInputElement} */ (document.getElementById('field'));
const found = /** @type {HTMLElement} */ (document.getElementById('found'));
const count = /** @type {HTMLElement} */ (document.getElementById('count'));
const contents = /** @type {HTMLElement} */ (document.getElementById('contents'));

/** @param {Element} page */
function* sectionsOf(page) {
    /** @type {HTMLElement | null} */
    let heading = null;
    let text = '';
    const name = page.querySelector('h1')?.textContent ?? '';
    for (const element of [...page.children, null]) {
        const isHeading = element instanceof HTMLHeadingElement;
        if (heading !== null && (element === null || isHeading)) {
            const title = heading.textContent ?? '';
            yield { heading, title, page: name, text, lower: (title + ' ' + text).toLowerCase() };
            text = '';
        }
        if (isHeading) {
            heading = element;
        } else if (element !== null) {
            text += ' ' + wordsOf(element);
        }
    }
}

/**
 * The text of an element, its cells and lines apart.
 * @param {Element} element
 */
function wordsOf(element) {
    const cells = [...element.querySelectorAll('td, th, li, p')];
    const parts = cells.length > 0 ? cells : [element];
    return parts.map((it) => it.textContent).join(' ').replace(/\s+/g, ' ');
}

/** @type {Section[]} */
const sections = [...document.querySelectorAll('.page')].flatMap((page) => [...sectionsOf(page)]);

/**
 * How well a section meets what is searched: not at all is 0.
 * @param {Section} section
 * @param {string} phrase
 */
function worth(section, phrase) {
    const words = phrase.split(' ');
    if (!words.every((it) => section.lower.includes(it))) {
        return 0;
    }
    const title = section.title.toLowerCase();
    const times = section.lower.split(phrase).length - 1;
    return 1 + Math.min(times, 20) + (title.includes(phrase) ? 100 : 0)
        + words.filter((it) => title.includes(it)).length * 10;
}

/**
 * A piece of a section around what was found.
 * @param {Section} section
 * @param {string} phrase
 */
function piece(section, phrase) {
    const lower = section.text.toLowerCase();
    const at = Math.max(lower.indexOf(phrase), lower.indexOf(phrase.split(' ')[0]), 0);
    const start = Math.max(at - BEFORE, 0);
    return (start > 0 ? '… ' : '') + section.text.slice(start, at + AFTER).trim() + ' …';
}

/** The words that are searched, in lower case with one blank between them. */
function searched() {
    return field.value.trim().toLowerCase().replace(/\s+/g, ' ');
}

function search() {
    const phrase = searched();
    const all = phrase === '' ? [] : sections
        .map((section) => ({ section, is: worth(section, phrase) }))
        .filter(({ is }) => is > 0)
        .sort((one, other) => other.is - one.is);
    found.replaceChildren(...all.slice(0, MOST).map(({ section }) => row(section, phrase)));
    found.hidden = phrase === '';
    contents.hidden = phrase !== '';
    count.textContent = phrase === '' ? '' : all.length === 0 ? 'Nothing was found.'
        : `${all.length} ${all.length === 1 ? 'section' : 'sections'}`;
}

/**
 * @param {Section} section
 * @param {string} phrase
 */
function row(section, phrase) {
    const link = document.createElement('a'), small = document.createElement('small');
    link.href = '#' + section.heading.id;
    link.textContent = section.title === section.page ? section.page : section.page + ': ' + section.title;
    small.textContent = piece(section, phrase);
    link.append(small);
    link.addEventListener('click', (event) => {
        event.preventDefault();
        go(section, phrase);
    });
    const item = document.createElement('li');
    item.append(link);
    return item;
}

/**
 * Goes to a section, and to where the words stand in it.
 * @param {Section} section
 * @param {string} phrase
 */
function go(section, phrase) {
    history.pushState(null, '', '#' + section.heading.id);
    section.heading.focus({ preventScroll: true });
    const range = place(section, phrase) ?? place(section, phrase.split(' ')[0]);
    (range?.startContainer.parentElement ?? section.heading).scrollIntoView({ block: range ? 'center' : 'start' });
    const { CSS: { highlights }, Highlight } = /** @type {any} */ (window);
    if (range !== null && highlights) {
        highlights.set('found', new Highlight(range));
    }
}

/**
 * Where some words stand first in a section.
 * @param {Section} section
 * @param {string} words
 */
function place(section, words) {
    for (let at = section.heading.nextElementSibling; at && !(at instanceof HTMLHeadingElement);
        at = at.nextElementSibling) {
        const walker = document.createTreeWalker(at, NodeFilter.SHOW_TEXT);
        while (walker.nextNode()) {
            const node = walker.currentNode, start = (node.textContent ?? '').toLowerCase().indexOf(words);
            if (start >= 0) {
                const range = document.createRange();
                range.setStart(node, start);
                range.setEnd(node, start + words.length);
                return range;
            }
        }
    }
    return null;
}

/** @param {number} way */
function step(way) {
    const all = [...found.querySelectorAll('a')];
    const at = all.findIndex((it) => it === document.activeElement) + way;
    (at < 0 ? field : all[Math.min(at, all.length - 1)] ?? field).focus();
}

field.addEventListener('input', search);
document.getElementById('search')?.addEventListener('submit', (event) => {
    event.preventDefault();
    found.querySelector('a')?.click();
});
document.getElementById('ground')?.addEventListener('click', () => {
    const { dataset } = document.documentElement;
    const isDark = dataset.ground ? dataset.ground === 'dark' : matchMedia('(prefers-color-scheme: dark)').matches;
    dataset.ground = isDark ? 'light' : 'dark';
});
document.addEventListener('keydown', (event) => {
    const isInList = document.activeElement === field || found.contains(document.activeElement);
    if (event.key === '/' && document.activeElement !== field) {
        event.preventDefault();
        field.focus();
        field.select();
    } else if (event.key === 'Escape' && isInList) {
        field.value = '';
        search();
        field.focus();
    } else if (isInList && (event.key === 'ArrowDown' || event.key === 'ArrowUp')) {
        event.preventDefault();
        step(event.key === 'ArrowDown' ? 1 : -1);
    }
});
document.documentElement.dataset.started = 'true';

export {};
