"""A model of the rules of the profile, for searches that ask more calls than `labsys` can be asked in time.

The model answers each call as `labsys` does, but leaves no records. No answer of `labask` rests on it alone where a script is found:
that is played by `labsys`. A test compares the two reply by reply.
"""
