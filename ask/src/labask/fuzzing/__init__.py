"""Random worlds that `labsys` and another program play, and what is made of a difference: the least world, and a case."""
