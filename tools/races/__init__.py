"""What tools/show-race is made of, over tools/interpreter: the search for an order of moves with a race, and how it is shown.

Nothing here judges a pair. An order that is found is a witness: racereplay, which is proved, confirms it.
"""
