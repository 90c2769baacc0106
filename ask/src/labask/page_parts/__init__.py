"""The parts of the question `page`: the run, what labels see of it, and the sections of the page."""
