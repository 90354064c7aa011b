"""What the program dyncollate has to print for the bytes of its files, worked out from
docs/FORMATS.md and not from the program.

Texts are bytes throughout. Lines are divided by regular expressions and documents are read by
Python's json module; nothing is shared with the program's own sources.
"""
