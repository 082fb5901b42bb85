"""How lines are read and printed, gathered under one name.

A value is (0, number), (1, bytes), (2, U, P) an unknown by its name, or (3, name) a new unknown ('' for a bare ?).
A fact is (relation number, (value, ..)).
"""
from .cells import *
from .cursor import *
from .faults import *
from .grammar import *
from .grids import *
from .printing import *
from .verbs import *
