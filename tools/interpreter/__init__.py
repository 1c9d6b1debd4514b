"""The steps of a job's threads, for the tools that follow an order: the machine, what its things are called, a step in words.

Nothing here judges. What a tool says of an order is said by racereplay, which is proved, or put beside its line.
"""
