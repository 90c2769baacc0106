"""The calls of the profile and the utilities, with the names of their arguments, as the call table and the formats have them."""
from typing import Dict, List

from labask import kernel_profile
from labask.kernel_profile import CALLS, CAPABILITIES, LINES

__all__ = ["CALLS", "CAPABILITIES", "FORMS", "LINES", "UTILITIES", "arguments_of"]


def form_of(utility: kernel_profile.Utility) -> str:
    """The names of the arguments of a utility: what its call has behind the path stands before the paths."""
    return " ".join([*CALLS[utility.call].split()[1:1 + utility.before], "PATH", "..."])


UTILITIES: Dict[str, str] = {word: form_of(utility) for word, utility in kernel_profile.UTILITIES.items()}
FORMS: Dict[str, str] = {**CALLS, **UTILITIES}


def arguments_of(word: str, count: int) -> List[str]:
    """The names of the arguments of a call or utility; the last of a utility stands for each of `count` arguments from there on."""
    names = FORMS[word].split()
    if names and names[-1] == "...":
        return names[:-1] + [names[-2]] * max(0, count - len(names) + 1)
    return [name.strip("[]") for name in names]
