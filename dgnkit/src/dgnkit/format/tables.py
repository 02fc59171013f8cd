"""Tables and constants. tools/make_tables makes this module, of crates/dgn_layout/src/types.rt,
crates/dgn_layout/specs/Classes.antt, crates/dgn_layout/specs/Spots.antt, crates/dgn_layout/specs/Ends.antt,
crates/dgn_drawing/specs/Nesting.antt, crates/dgn_layout/src/lib.rt, crates/elem_head/specs/Head.antt,
crates/edit_ops/specs/Causes.antt, crates/dgn_drawing/specs/Opening.antt, crates/range_code/specs/Plane.antt,
crates/dgn_linkage/src/first.rt, crates/dgn_radix50/src/lib.rt, crates/dgn_radix50/specs/Signs.antt,
crates/patch_file/specs/Spelling.antt, crates/patch_file/specs/Exchanges.antt, crates/edit_script/specs/Edits.antt,
crates/edit_script/specs/Appends.antt, crates/edit_script/specs/Imports.antt, crates/dgn_answers/specs/Texts.antt,
crates/dgn_drawing/src/limits.rt, crates/edit_script/src/limits.rt, crates/patch_file/src/limits.rt,
crates/edit_script/specs/CommandNames.antt, crates/edit_script/specs/Grammar.antt,
crates/edit_script/specs/Fences.antt, crates/dgn_listing/specs/CauseTexts.antt,
crates/dgn_answers/specs/Imports.antt."""

# What a type's class says of an element: which of it is read.
CLASS = {
    'vertices': 0,
    'words': 1,
    'counted': 2,
    'run': 3,
    'floating': 4,
    'boxed': 5,
    'silent': 6,
}

# The class of each type.
CLASS_OF = bytes.fromhex(
    '060602000006000206060600020602040401020206060504030606030606060606050305060606060606060606060606'
    '060606060606060606060606060606060606060606060606060606060606060606060606060606060606060606060606'
    '0606060606060606060606060606060606060606060606060606060606060606'
)

# How many points each type has, its origin being one, or BY_WORD.
COUNTS = bytes.fromhex(
    '00000102ff00ff01000000ff000000000001000000000000000000000000000000000000000000000000000000000000'
    '000000000000000000000000000000000000000000000000000000000000000000000000000000000000000000000000'
    '0000000000000000000000000000000000000000000000000000000000000000'
)

# As many as the word at COUNT_AT says.
BY_WORD = 255

# Where the word stands that counts points.
COUNT_AT = 36

# Where with two axes the points of each type begin, and the body ends of one that has none.
POINTS_IN_PLANE = bytes.fromhex(
    '040454242604263e04040426280428242432282804042424240404240404040404242424040404040404040404040404'
    '040404040404040404040404040404040404040404040404040404040404040404040404040404040404040404040404'
    '0404040404040404040404040404040404040404040404040404040404040404'
)

# Where with two axes the characters of a text begin.
TEXT_IN_PLANE = 60

# Where with three axes the points of each type begin, and the body ends of one that has none.
POINTS_IN_SPACE = bytes.fromhex(
    '040470242604264a0404042628042824243e282804042424240404240404040404242424040404040404040404040404'
    '040404040404040404040404040404040404040404040404040404040404040404040404040404040404040404040404'
    '0404040404040404040404040404040404040404040404040404040404040404'
)

# Where with three axes the characters of a text begin.
TEXT_IN_SPACE = 76

# Types of the headers of B-splines.
SPLINES = [24, 27]

# Types of the parts of B-splines.
SPLINE_PARTS = [21, 25, 26, 28]

# The type of a shared cell definition.
SHARED_CELL = 34

# Bytes of a counted header up to the end of its total.
BEFORE_TOTAL = 38

# The bit of the properties that says that attribute data follow.
LINKED = 0x800

# The bit of the properties that says that an element is locked.
LOCKED = 0x100

# The bytes that a drawing begins with, one of these.
TCB_FRONTS = [[8, 9, 254, 2], [200, 9, 254, 2]]

# Where the byte stands that says how many axes a drawing has.
AXES_AT = 1214

# The bit of it that says that they are three.
AXES_BIT = 0x40

# The least coordinate.
LEAST = -2147483648

# The greatest coordinate.
GREATEST = 2147483647

# The fewest bytes of a linkage.
LINKAGE_LEAST = 4

# How many bytes a Dmrs has.
DMRS_LENGTH = 8

# The bit of a linkage's second byte that marks a User.
USER_BIT = 0x10

# The signs of Radix-50 in the order of their codes.
SIGNS = ' ABCDEFGHIJKLMNOPQRSTUVWXYZ$.%0123456789'

# The least word that stands for no signs.
SIGNLESS = 64000

# What a patch file begins with.
PATCH_MARK = 'DGNPAT01'

# The most bytes that a field of a patch file exchanges.
FIELD_LONGEST = 4

# The greatest number of an element.
NUMBER_MOST = 4294967295

# The greatest displacement, either way.
FARTHEST = 4294967295

# The greatest level.
LEVEL_MOST = 63

# The greatest colour.
COLOUR_MOST = 255

# The greatest weight.
WEIGHT_MOST = 31

# The greatest style.
STYLE_MOST = 7

# The greatest font.
FONT_MOST = 255

# The greatest justification.
JUSTIFICATION_MOST = 255

# The greatest multiplier of a text's length or height.
MULTIPLIER_MOST = 2147483647

# The most characters of a text.
TEXT_LONGEST = 255

# The most bytes of the name of a file to import.
NAME_LONGEST = 255

# The most lines of a script that import.
IMPORTS_MOST = 4

# Of a fence.
CORNERS_LEAST = 3

# Of a fence.
CORNERS_MOST = 256

# The most bytes of a design file.
DESIGN_LONGEST = 67108864

# The most bytes of a script file.
SCRIPT_LONGEST = 1048576

# The most bytes of a patch file.
PATCH_LONGEST = 134217728

# The forms of what stands behind the word of each command.
COMMANDS = {
    'line': ['LV C W S P P'],
    'string': ['LV C W S P P ..'],
    'shape': ['LV C W S P P P ..'],
    'text': ['LV C W S F J M M P CHARS'],
    'fence': ['Q ..'],
    'import': ['NAME', 'NAME D D', 'NAME D D D'],
    'color': ['N C'],
    'move': ['N D D', 'N D D D'],
    'copy': ['N D D', 'N D D D'],
    'sym': ['N C- W- S-'],
    'delete': ['N'],
    'undo': [''],
    'levels': ['all', 'none', 'R ..'],
    'show': [''],
    'tree': ['N'],
    'elements': [''],
    'refs': [''],
    'links': ['N'],
    'select': ['MODE'],
    'nofence': [''],
    'fmove': ['MODE D D', 'MODE D D D'],
    'fcopy': ['MODE D D', 'MODE D D D'],
    'fsym': ['MODE C- W- S-'],
    'fdelete': ['MODE'],
    'audit': [''],
    'fit': ['N'],
}

# The fewest and the most points of what a script appends.
POINTS_OF = {
    'line': [2, 2],
    'string': [2, 101],
    'shape': [3, 101],
}

# How a fence chooses.
MODES = ['inside', 'overlap', 'void']

# What the program says behind refused, its first word.
CAUSES = [
    'unknown',
    'broken',
    'deleted',
    'locked',
    'dimension',
    'floating',
    'opaque',
    'off-plane',
    'too-long',
    'nothing',
    'no-fence',
    'few',
    'many',
    'import',
]
