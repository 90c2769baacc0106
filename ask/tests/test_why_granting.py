"""`why` names the capability with which a denied call passes, also where the caller has executed programs."""
import pytest

from labask import asking
from labask.playing import Outcome
from labask.worlds import read_world

WORLD = """\
world 2
levels low high
categories
bound {bound}
dir / 0755 0 0 low
dir /bin 0755 0 0 low
file /bin/flag 0755 0 0 low "x" "cap_kill,cap_setuid=ep"
file /bin/inherits 0755 0 0 low "x" "cap_kill=ei"
file /bin/permits 0755 0 0 low "x" "cap_kill=p"
file /bin/setid 4755 5 50 low "x"
file /bin/setidflag 6755 5 50 low "x" "cap_fowner=ep"
file /bin/plain 0755 0 0 low "x"
dir /own 0777 0 0 low
file /mine 0600 0 0 low "mine"
file /secret 0600 0 0 high "secret"
proc low 10 10 - "="
proc low 11 11 - "cap_setfcap,cap_fowner,cap_kill=ep cap_chown=i"
script
"""
READ = "open /mine r"
PROGRAMS = ("flag", "inherits", "permits", "setid", "setidflag", "plain")


@pytest.fixture
def explained(player):
    """Gives the explanations of the calls of a script that were not done, by their numbers."""
    def explain(script, bound="all", more=""):
        text = (WORLD.format(bound=bound).replace("script\n", f"{more}script\n") + script).encode()
        return {each.reply.number: each for each in asking.explain_all(read_world(text), player.play_accepted(text), player)}
    return explain


def passed(found):
    """The capabilities with which a call passes, and the reply then."""
    return None if found.passing is None else (found.passing.capabilities, found.passing.permitted, found.passing.reply.text)


def test_caller_of_the_world(explained):
    found = explained(f"1@low {READ}\n")
    assert passed(found[1]) == (("cap_dac_read_search",), (), "ok 0")


@pytest.mark.parametrize("bound", ("all", "none", "cap_kill"))
@pytest.mark.parametrize("name", PROGRAMS)
def test_caller_after_exec(name, bound, explained):
    found = explained(f"1@low exec /bin/{name}\n1@low {READ}\n1@low open /secret r\n", bound)
    assert passed(found[2]) == (("cap_dac_read_search",), (), "ok 0"), f"after {name} with the bound {bound}"
    assert passed(found[3]) == (("cap_mac_read", "cap_dac_read_search"), (), "ok 0"), f"after {name} with the bound {bound}"


@pytest.mark.parametrize("name", PROGRAMS)
def test_child_of_such_a_caller(name, explained):
    found = explained(f"1@low exec /bin/{name}\n1@low fork\n3@low fork\n4@low {READ}\n")
    assert passed(found[4]) == (("cap_dac_read_search",), (), "ok 0"), f"a grandchild after {name}"


def test_parent_executes_after_the_fork(explained):
    found = explained(f"1@low fork\n1@low exec /bin/flag\n3@low exec /bin/flag\n3@low {READ}\n1@low {READ}\n")
    assert {passed(found[number]) for number in (4, 5)} == {(("cap_dac_read_search",), (), "ok 0")}


def test_after_setuid(explained):
    found = explained(f"1@low exec /bin/flag\n1@low setuid 20\n1@low {READ}\n1@low setuid 10\n1@low cap_set_proc =\n1@low setuid 30\n")
    assert passed(found[3]) == (("cap_dac_read_search",), (), "ok 0"), "with cap_setuid, all users are set"
    assert passed(found[6]) == (("cap_setuid",), (), "ok"), "a user that is neither the real nor the saved one"


def test_effective_sets_stay_as_they_were_before_the_call(explained):
    """With cap_setuid effective, `setuid 10` would set all three users, and the last call could not go back to user 5."""
    script = f"1@low exec /bin/setidflag\n1@low setuid 10\n1@low {READ}\n1@low setuid 5\n1@low chmod /mine 0666\n1@low {READ}\n"
    found = explained(script)
    assert passed(found[3]) == (("cap_dac_read_search",), (), "ok 0")
    assert 4 not in found, "the saved user may be set again"


def test_program_that_the_script_makes(explained):
    script = (f"2@low open /own/program wc 0755\n2@low setfcap \"cap_kill=ep\" /own/program\n1@low exec /own/program\n1@low {READ}\n"
              f"1@low chdir /own\n1@low exec program\n1@low {READ}\n")
    found = explained(script)
    assert {passed(found[number]) for number in (4, 7)} == {(("cap_dac_read_search",), (), "ok 0")}


def test_program_that_lowers_its_sets(explained):
    found = explained(f"1@low exec /bin/flag\n1@low cap_set_proc =\n1@low {READ}\n1@low cap_set_proc \"cap_kill=p\"\n")
    assert passed(found[3]) == (("cap_dac_read_search",), (), "ok 0")
    assert passed(found[4]) == ((), ("cap_kill",), "ok"), "the set would have to be permitted"


def test_permitted_capabilities_are_as_few_as_it_takes(explained):
    found = explained("2@low cap_set_proc \"cap_kill,cap_fsetid=ep cap_chown=i cap_link_dir=i\"\n"
                      "1@low cap_set_file /bin/plain \"cap_kill=ep\"\n2@low setfcap \"cap_kill=ep\" /bin/plain\n"
                      "2@low setfcap \"cap_chown=i\" /bin/plain\n")
    assert passed(found[1]) == ((), ("cap_fsetid", "cap_link_dir"), "ok")
    assert passed(found[2]) == (("cap_fowner", "cap_setfcap"), ("cap_kill",), "ok")
    assert 3 not in found, "the second process is permitted cap_kill"
    assert passed(found[4]) == ((), ("cap_chown",), "ok")


def test_nothing_passes_what_nothing_overrides(explained):
    found = explained("1@low exec /bin/flag\n1@low exec /bin\n1@low unlink /own\n")
    assert found[2].reply.check == "exec_kind" and passed(found[2]) is None
    assert not found[3].passing.complete and found[3].passing.reply.check == "unlink_dir"


def test_capabilities_of_the_trial_end_with_the_call(explained):
    """What the caller is permitted for the trial does not let a later call pass, neither its own nor those of relatives."""
    later = "1@low cap_set_proc \"cap_fsetid=ep\"\n3@low cap_set_proc \"cap_fsetid=ep\"\n4@low cap_set_proc \"cap_fsetid=ep\"\n"
    found = explained(f"1@low fork\n1@low exec /bin/flag\n1@low fork\n4@low {READ}\n{later}4@low read 0 4\n")
    assert [each.call.reply.number for each in found[4].followers] == [8], "the read alone comes from the denied open"
    assert all(found[number].cause is None for number in (5, 6, 7))


def test_calls_that_lead_to_nothing_are_tried_in_one_run(explained, player):
    calls = [f"{tag} {call}\n" for tag in ("1@low", "2@low") for call in ("stat /secret", READ, "open /secret w", "chmod /secret/x 0", READ)]
    alone = [passed(explained(call)[1]) for call in calls]
    before = player.plays
    found = explained("".join(calls))
    assert [passed(found[number]) for number in range(1, len(calls) + 1)] == alone and None not in alone
    assert player.plays - before == 4, "the script, its records, what is observed, and one trial"


def test_an_open_is_followed_by_calls_on_its_descriptor(explained):
    found = explained(f"1@low {READ}\n1@low fork\n1@low {READ}\n3@low read 1 4\n1@low {READ}\n")
    assert [[each.call.reply.number for each in found[number].followers] for number in (1, 3, 5)] == [[], [], []]
    found = explained(f"1@low {READ}\n1@low fork\n1@low {READ}\n3@low read 0 4\n1@low {READ}\n")
    assert [[each.call.reply.number for each in found[number].followers] for number in (1, 3, 5)] == [[4], [], []]


def test_a_caller_whose_run_departs_leaves_the_others_their_own(explained):
    sets = "cap_chown=i " * 168 + "all= ="  # which leaves no room in the line for what the caller would be permitted
    found = explained(f"1@low cap_set_proc \"{sets}\"\n2@low {READ}\n1@low {READ}\n2@low {READ}\n")
    assert [passed(found[number]) for number in (2, 4)] == [(("cap_dac_read_search",), (), "ok 0")] * 2
    assert passed(found[3]) is None


def test_a_caller_that_can_have_no_child(explained):
    crowd = 'proc low 10 10 - "="\n' * 4_093
    found = explained("1@low fork\n1@low cap_set_proc \"cap_kill=ep cap_chown=i\"\n", more=crowd)
    assert passed(found[2]) == ((), ("cap_chown", "cap_kill"), "ok")


def test_every_denied_call_of_a_generated_input_is_tried(player):
    status, text, _ = player.run(["gen", "120"], b"")
    found = asking.explain_all(read_world(text), player.play_accepted(text), player)
    denied = [each for each in found if each.reply.outcome is Outcome.DENIED]
    assert status == 0 and denied and all(each.tried and each.passing for each in denied)
