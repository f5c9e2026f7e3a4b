"""The pages of a description: the tree of a page, and the media that it is written to.

`level` makes the tree, by `texts`, `entries`, `usage` and `words`. `console`, `man`, `markdown` and `html` write one,
and know no description; `man_reader` and `markdown_reader` read the text of a page back. This is the definition of
the pages as a program: plain above all, and slow.
"""
