"""As many outputs as there may be, and as many servers of one output: each of them is reached."""

import pytest

from relay import free_ports

pytestmark = pytest.mark.quick
OUTPUTS, SERVERS = 64, 16


@pytest.mark.parametrize("place", [8, SERVERS - 1])
def test_the_only_server_that_lives(relay, next_hop, place):
    """One of many servers is there, behind others or as the last one: it gets what the output has."""
    hop = next_hop()
    servers = free_ports(SERVERS)
    servers[place] = hop.port
    one = relay([{"servers": servers}])
    one.source(timeout=60).ask("app", [(7, {"n": 1})])
    assert hop.entries() == [("app", 7, {"n": 1})]


def test_each_output(relay, next_hop):
    """Each output hands its requests to its own server."""
    hops = [next_hop() for _ in range(OUTPUTS)]
    one = relay([{"match": f"tag.{number}", "servers": [hop.port]} for number, hop in enumerate(hops)])
    source = one.source(timeout=60)
    for number, hop in enumerate(hops):
        source.ask(f"tag.{number}", [(number, {})])
        assert hop.entries() == [(f"tag.{number}", number, {})]
