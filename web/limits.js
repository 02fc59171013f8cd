/* Limits of what the page shows. None is one of the program's. */

/** Lines of a listing that are kept and shown. */
export const LISTED_MOST = 500;

/** Lines of the script that are shown. */
export const LINES_MOST = 1000;
