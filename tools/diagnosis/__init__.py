"""What tools/triage is made of: whom a refusal is for, by what racecheck, racefill and racereplay say.

Nothing here judges a pair. A verdict rests on an answer of a proved program, or on a search that met no race, and says on which.
"""
