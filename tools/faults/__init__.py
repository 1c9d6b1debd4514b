"""Practice pairs with a known fault, drawn from a seed, with a sheet of questions and a sheet of answers.

Nothing here judges. What the sheet of answers says of a pair is what racecheck and racereplay, which are proved, said of it.
"""
