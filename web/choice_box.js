/* The box on the screen that is drawn to choose by. */

export class ChoiceBox {
    /** @param {import('./app.js').App} app */
    constructor(app) {
        this.app = app;
        /**
         * Where on the screen it was begun, and where it goes to.
         * @type {number[][] | null}
         */
        this.ends = null;
    }

    clear() {
        this.ends = null;
    }

    /**
     * @param {number[]} start of the screen
     * @param {number[]} place
     */
    drawTo(start, place) {
        this.ends = [start, place];
        this.app.stage.request();
    }

    /** Chooses what lies inside the box; one that is drawn to the left takes what it touches, too. */
    async drop() {
        const { app, ends } = this;
        this.clear();
        app.stage.request();
        if (ends !== null) {
            await app.editing.chooseIn(ends.map((place) => app.wholePlace(place)),
                ends[1][0] < ends[0][0] ? 'overlap' : 'inside');
        }
    }
}
