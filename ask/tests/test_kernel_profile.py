"""What `labask` says in words of the kernel's checks, errors and capabilities covers those that the sources of the kernel have."""
import subprocess
import sys

from support import TOP

from labask.file_caps import LINUX, SPLIT
from labask.kernel_profile import CALLS, CAPABILITIES, CHECKS, DENIALS, ERRORS, FAULTS, REFUSALS, UTILITIES
from labask.reasons import CHECKS as CHECKS_IN_WORDS
from labask.reasons import ERRORS as ERRORS_IN_WORDS
from labask.reasons import ERRORS_OF_CALLS
from labask.signatures import FORMS, arguments_of


def test_profile_is_that_of_the_sources():
    subprocess.run([sys.executable, str(TOP / "tests" / "labask_profile.py"), "--check"], check=True)


def test_every_denial_has_words():
    """Soft checks deny nothing."""
    assert set(CHECKS_IN_WORDS) == {name for name, check in CHECKS.items() if check.error}


def test_every_error_has_words():
    """Those of checks are said by the check."""
    assert set(ERRORS_IN_WORDS) == set(ERRORS) - {check.error for check in CHECKS.values()}


def test_errors_of_calls_are_errors_of_calls():
    """What is said of an error of one call is said of one that it may answer."""
    assert [(call, error) for call, error in ERRORS_OF_CALLS if error not in REFUSALS[call]] == []


def test_answers_of_every_call():
    assert set(REFUSALS) == set(DENIALS) == set(CALLS)
    assert {error for errors in REFUSALS.values() for error in errors} == set(ERRORS_IN_WORDS)
    assert {check for checks in DENIALS.values() for check in checks} == set(CHECKS_IN_WORDS)


def test_capabilities_that_override():
    assert {check.capability for check in CHECKS.values() if check.capability} == set(CAPABILITIES) - {"cap_link_dir"}


def test_capabilities_of_linux():
    """What Linux has under another name is split, and what neither has is one of labels, or of directories."""
    assert {name for names in SPLIT.values() for name in names} <= set(CAPABILITIES)
    assert not set(SPLIT) - set(LINUX)


def test_arguments_of_utilities():
    assert {word: FORMS[word] for word in UTILITIES} == {
        "getfcap": "PATH ...", "setfcap": "CAPS PATH ...", "getfmac": "PATH ...", "setfmac": "LABEL PATH ..."}
    assert arguments_of("setfcap", 3) == ["CAPS", "PATH", "PATH"]
    assert arguments_of("open", 2) == ["PATH", "FLAGS", "MODE"]


def test_faults_count_once():
    assert len(set(FAULTS)) == len(FAULTS)
