"""The calls of the code, read from its text and from what is compiled of it.

    sources  the functions of the crates, and the types that types hold
    found    which functions a function calls, as far as names and types tell
    frames   compiled functions: their frames and calls

tools/descents finds cycles in these, and tools/stack the needs of calls.
"""
