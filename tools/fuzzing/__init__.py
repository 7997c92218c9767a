"""A reference of the program's replies, written from docs/FORMATS.md and docs/DEFINITIONS.md, and scripts that try it.

    codec    logs, plans and images as bytes
    judge    trees, leases, and a log's entries one by one
    plans    what a log makes of each byte; right plans, the first wrong row of others, and written blocks
    images   the ten rules of an image, and its one spelling
    desk     a session: each line's reply
    calls    calls of a desk as bytes, a session that is asked by them, and such calls from a seed
    words    what `fsck` and `show` write of an image
    scripts  lines made from a seed, right and wrong ones
    cases    what the program is given, and what is due

Nothing here is taken from the program. tools/fuzz compares the two.
"""
