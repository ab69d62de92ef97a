"""While a chunk of an output is under way, a small one stays open for more entries, but not until that one is settled."""

import pytest

from next_hop import hold


@pytest.mark.quick
@pytest.mark.parametrize("readers", [1, 4])
@pytest.mark.parametrize(
    "keys", [{"workers": 2}, {"window": 2}, {"workers": 2, "window": 2}], ids=["workers", "window", "both"]
)
def test_what_is_under_way_holds_nothing_up(relay, next_hop, keys, readers):
    """A server that acknowledges nothing gets as many chunks as it may have, each with what came meanwhile."""
    hop = next_hop(answer=hold)
    one = relay([{"servers": [hop.port]} | keys])
    source = one.source()
    chunks = keys.get("workers", 1) * keys.get("window", 1)
    for number in range(chunks):
        source.send(entries=[(1, {"n": number})], chunk=str(number))
        hop.await_entries(number + 1)
    hop.release()
    assert sorted(source.told() for _ in range(chunks)) == [str(number) for number in range(chunks)]
