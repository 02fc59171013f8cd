/* Tables and constants of the format. tools/make_tables makes this module, of crates/dgn_layout/src/types.rt,
   crates/dgn_layout/specs/Classes.antt, crates/dgn_layout/specs/Spots.antt, crates/dgn_layout/specs/Ends.antt,
   crates/dgn_drawing/specs/Nesting.antt, crates/dgn_layout/src/lib.rt, crates/elem_head/specs/Head.antt,
   crates/edit_ops/specs/Causes.antt, crates/dgn_drawing/specs/Opening.antt, crates/range_code/specs/Plane.antt,
   crates/dgn_linkage/src/first.rt, crates/dgn_radix50/src/lib.rt, crates/dgn_radix50/specs/Signs.antt,
   crates/patch_file/specs/Spelling.antt, crates/patch_file/specs/Exchanges.antt. */

/** What a type's class says of an element: which of it is read. */
export const CLASS = Object.freeze({ vertices: 0, words: 1, counted: 2, run: 3, floating: 4, boxed: 5, silent: 6 });

/**
 * The class of each type.
 * @type {ArrayLike<number>}
 */
export const CLASS_OF = Uint8Array.from([6, 6, 2, 0, 0, 6, 0, 2, 6, 6, 6, 0, 2, 6, 2, 4, 4, 1, 2, 2, 6, 6, 5, 4, 3, 6,
    6, 3, 6, 6, 6, 6, 6, 5, 3, 5, 6, 6, 6, 6, 6, 6, 6, 6, 6, 6, 6, 6, 6, 6, 6, 6, 6, 6, 6, 6, 6, 6, 6, 6, 6, 6, 6, 6,
    6, 6, 6, 6, 6, 6, 6, 6, 6, 6, 6, 6, 6, 6, 6, 6, 6, 6, 6, 6, 6, 6, 6, 6, 6, 6, 6, 6, 6, 6, 6, 6, 6, 6, 6, 6, 6, 6,
    6, 6, 6, 6, 6, 6, 6, 6, 6, 6, 6, 6, 6, 6, 6, 6, 6, 6, 6, 6, 6, 6, 6, 6, 6, 6]);

/**
 * How many points each type has, its origin being one, or BY_WORD.
 * @type {ArrayLike<number>}
 */
export const COUNTS = Uint8Array.from([0, 0, 1, 2, 255, 0, 255, 1, 0, 0, 0, 255, 0, 0, 0, 0, 0, 1, 0, 0, 0, 0, 0, 0, 0,
    0, 0, 0, 0, 0, 0, 0, 0, 0, 0, 0, 0, 0, 0, 0, 0, 0, 0, 0, 0, 0, 0, 0, 0, 0, 0, 0, 0, 0, 0, 0, 0, 0, 0, 0, 0, 0, 0,
    0, 0, 0, 0, 0, 0, 0, 0, 0, 0, 0, 0, 0, 0, 0, 0, 0, 0, 0, 0, 0, 0, 0, 0, 0, 0, 0, 0, 0, 0, 0, 0, 0, 0, 0, 0, 0, 0,
    0, 0, 0, 0, 0, 0, 0, 0, 0, 0, 0, 0, 0, 0, 0, 0, 0, 0, 0, 0, 0, 0, 0, 0, 0, 0, 0]);

/** As many as the word at COUNT_AT says. */
export const BY_WORD = 255;

/** Where the word stands that counts points. */
export const COUNT_AT = 36;

/**
 * Where with two axes the points of each type begin, and the body ends of one that has none.
 * @type {ArrayLike<number>}
 */
export const POINTS_IN_PLANE = Uint8Array.from([4, 4, 84, 36, 38, 4, 38, 62, 4, 4, 4, 38, 40, 4, 40, 36, 36, 50, 40,
    40, 4, 4, 36, 36, 36, 4, 4, 36, 4, 4, 4, 4, 4, 36, 36, 36, 4, 4, 4, 4, 4, 4, 4, 4, 4, 4, 4, 4, 4, 4, 4, 4, 4, 4, 4,
    4, 4, 4, 4, 4, 4, 4, 4, 4, 4, 4, 4, 4, 4, 4, 4, 4, 4, 4, 4, 4, 4, 4, 4, 4, 4, 4, 4, 4, 4, 4, 4, 4, 4, 4, 4, 4, 4,
    4, 4, 4, 4, 4, 4, 4, 4, 4, 4, 4, 4, 4, 4, 4, 4, 4, 4, 4, 4, 4, 4, 4, 4, 4, 4, 4, 4, 4, 4, 4, 4, 4, 4, 4]);

/** Where with two axes the characters of a text begin. */
export const TEXT_IN_PLANE = 60;

/**
 * Where with three axes the points of each type begin, and the body ends of one that has none.
 * @type {ArrayLike<number>}
 */
export const POINTS_IN_SPACE = Uint8Array.from([4, 4, 112, 36, 38, 4, 38, 74, 4, 4, 4, 38, 40, 4, 40, 36, 36, 62, 40,
    40, 4, 4, 36, 36, 36, 4, 4, 36, 4, 4, 4, 4, 4, 36, 36, 36, 4, 4, 4, 4, 4, 4, 4, 4, 4, 4, 4, 4, 4, 4, 4, 4, 4, 4, 4,
    4, 4, 4, 4, 4, 4, 4, 4, 4, 4, 4, 4, 4, 4, 4, 4, 4, 4, 4, 4, 4, 4, 4, 4, 4, 4, 4, 4, 4, 4, 4, 4, 4, 4, 4, 4, 4, 4,
    4, 4, 4, 4, 4, 4, 4, 4, 4, 4, 4, 4, 4, 4, 4, 4, 4, 4, 4, 4, 4, 4, 4, 4, 4, 4, 4, 4, 4, 4, 4, 4, 4, 4, 4]);

/** Where with three axes the characters of a text begin. */
export const TEXT_IN_SPACE = 76;

/** Types of the headers of B-splines. */
export const SPLINES = Object.freeze([24, 27]);

/** Types of the parts of B-splines. */
export const SPLINE_PARTS = Object.freeze([21, 25, 26, 28]);

/** The type of a shared cell definition. */
export const SHARED_CELL = 34;

/** Bytes of a counted header up to the end of its total. */
export const BEFORE_TOTAL = 38;

/** The bit of the properties that says that attribute data follow. */
export const LINKED = 0x800;

/** The bit of the properties that says that an element is locked. */
export const LOCKED = 0x100;

/** The bytes that a drawing begins with, one of these. */
export const TCB_FRONTS = Object.freeze([Object.freeze([8, 9, 254, 2]), Object.freeze([200, 9, 254, 2])]);

/** Where the byte stands that says how many axes a drawing has. */
export const AXES_AT = 1214;

/** The bit of it that says that they are three. */
export const AXES_BIT = 0x40;

/** The least coordinate. */
export const LEAST = -2147483648;

/** The greatest coordinate. */
export const GREATEST = 2147483647;

/** The fewest bytes of a linkage. */
export const LINKAGE_LEAST = 4;

/** How many bytes a Dmrs has. */
export const DMRS_LENGTH = 8;

/** The bit of a linkage's second byte that marks a User. */
export const USER_BIT = 0x10;

/** The signs of Radix-50 in the order of their codes. */
export const SIGNS = ' ABCDEFGHIJKLMNOPQRSTUVWXYZ$.%0123456789';

/** The least word that stands for no signs. */
export const SIGNLESS = 64000;

/** What a patch file begins with. */
export const PATCH_MARK = 'DGNPAT01';

/** The most bytes that a field of a patch file exchanges. */
export const FIELD_LONGEST = 4;
