"""What the tools for users share: the tables of words and refusals, and how a pair is read, explained, walked and drawn.

Nothing here judges a pair. The answer is racecheck's; these modules put it into words.
"""
