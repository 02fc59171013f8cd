# The module touches its stack, page by page, by a call of this name; it is the one that mingw has.
	.text
	.globl "inline-asm"
"inline-asm":
	jmp ___chkstk_ms
