"""What the contract of a call reaches: of the top call, if nothing else is said; or what the meaning of one command does."""

import os

from trusted.order import Order
from trusted.reach import Reach, Repository

# what the clauses of `workbench` say of the output of each command, in the specs of lw_cli
MEANINGS = {
    "run": [("RunOutcomes", "RunOutcome"), ("RunOutcomes", "RunBegins")],
    "check": [("Commands", "CheckOutcome")],
    "gen": [("GenOutcomes", "GenOutcome")],
}


def reached(top, crate="lw_cli", file="top_call.rt", call="workbench"):
    """The definitions that the clauses of the call reach, and their files in order."""
    repository = Repository(top)
    reach = Reach(repository)
    reach.follow(repository.read(os.path.join("crates", crate, "src", file)).contract(call))
    return reach, Order(top, reach, crate)


def reached_by(top, command):
    """The definitions that the meaning of the command reaches, and their files in order."""
    reach = Reach(Repository(top))
    for module, name in MEANINGS[command]:
        reach.follow(reach.member("Rattle.lw_cli.specs." + module, name)[0])
    return reach, Order(top, reach, "lw_cli")
