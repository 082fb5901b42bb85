"""A reference of Youtopia in Python, made from the rules alone (docs/RULES.md, docs/FORMATS.md) and from no code of the crates.

It is short and slow on purpose: each rule is written down as the pages state it. The tests take expected values from it, and
`tests/differential` runs it beside the program. `python3 -m oracle WORDS < session`, in the folder tests/, is the program.
"""
