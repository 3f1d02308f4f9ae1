"""What a call on handles costs, by its instructions, which repeat."""

import pytest
from calls import counted
from driving import FREED, PLAIN, call, script_of

LARGE = {f"name {number:06}": number for number in range(5_000)}
MOST = 200_000  # to read the large one takes some millions


@pytest.fixture(name="cost")
def instructions_of_calls(driver, valgrind):
    def cost(*lines):
        status, _, taken = counted([driver], script_of([*PLAIN, "capacity 0", *lines, *FREED]))
        assert status == 0
        return taken

    return cost


@pytest.mark.parametrize("patch", [{"more": 1}, {"name 000000": {"x": 1}}], ids=["compatible", "conflicting"])
@pytest.mark.parametrize("large,small", [(0, 1), (1, 0)])
def test_a_combine_costs_what_the_smaller_join_costs(cost, patch, large, small):
    """Whichever of the two handles has it."""
    apart = [call("add", large, LARGE), call("add", small, patch)]
    assert cost(*apart, call("combine", 0, b"", 1)) - cost(*apart) < MOST


def log_of(patches):
    """The start of a log and the messages of these patches, each under an identity of its own."""
    return [call("log_start", 0, {}, numbers=[0]), *(call("log_receive", 0, patch, numbers=[0, 1, number]) for number, patch in enumerate(patches))]


def test_what_a_log_shows_costs_what_a_replica_shows_once_it_is_kept(cost):
    """Also after one more patch has arrived."""
    patches = [{f"name {number}": {"a": number}} for number in range(300)]
    replica = [call("start", 0, {}), *(call("receive", 0, patch) for patch in patches)]
    kept = [*log_of(patches), call("log_document"), call("log_receive", 0, {"more": 1}, numbers=[0, 2, 0])]
    of_log, of_replica = (cost(*lines, line) - cost(*lines) for lines, line in ((kept, call("log_document")), (replica, call("document"))))
    assert of_log <= 1.5 * of_replica


@pytest.mark.parametrize("pairs", [lambda many: [{f"name {number}": side} for number in range(many) for side in range(2)],
                                   lambda many: [{f"name {number}": 0} for number in range(many)] + [{f"name {number}": 1 for number in range(many)}]],
                         ids=["apart", "of one patch"])
def test_the_pairs_of_a_log_cost_what_is_reported(cost, pairs):
    """Twice as many cost twice as much: no two patches are compared that do not conflict."""
    few, many = (cost(*log_of(pairs(count)), call("log_conflicts")) - cost(*log_of(pairs(count))) for count in (150, 300))
    assert many <= 2.3 * few
