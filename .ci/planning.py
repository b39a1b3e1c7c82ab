"""What a merge would prove and try, about how long it takes, and what it leaves to its records."""

import os
from pathlib import Path

import together
import tried
from tried import PROVED, TRIED

TOP = Path(__file__).resolve().parent.parent
# Crates of tests that take longer to run unproved than to prove and run: ./dev test leaves them to
# rt ci.
PROVED_EACH_TIME = {"bk_crash_tests", "bk_scenarios_tests"}


def only_run(states):
    """Returns the crates of tests that a merge runs and does not prove. A test has no input, so
    that its proof shows no more than its run, but of a test that is built to be run again with
    allocations refused."""
    return [
        it
        for it in tried.test_crates(TOP)
        if it not in states[PROVED] and it not in PROVED_EACH_TIME
    ]


def edits_in(crates):
    """Returns how many edits these crates have."""
    return sum(len(tried.edits_of(TOP, it)) for it in crates)


def tell_earlier(crates):
    """Prints how many edits of these crates, which have a record, were tried by an earlier rule
    alone."""
    earlier = [it for it in crates if TRIED.is_earlier(TOP, it)]
    print(
        f"of these, by an earlier rule: {edits_in(earlier)}, in {len(earlier)} "
        f"crates{': ' if earlier else ''}{' '.join(earlier)}"
    )


def tell_kept(known, states, left):
    """Prints what this run has not shown again, and of which crates it has only run the tests."""
    edits = edits_in(known[TRIED])
    print(
        f"edits tried before, not tried again: {edits} of {edits_in(states[TRIED])}, in "
        f"{len(known[TRIED])} crates"
    )
    tell_earlier(known[TRIED])
    tests = sum(len(tried.tests_of(TOP, it)) for it in left)
    print(
        f"crates of tests that were run and not proved: {len(left)} of "
        f"{len(tried.test_crates(TOP))}, with {tests} tests"
    )


def minutes():
    """Returns what each crate's proof, tests and programs take together, in minutes of processor
    time, as measured."""
    rows = (
        it.split()
        for it in (TOP / ".ci" / "minutes.txt").read_text().splitlines()
        if not it.startswith("#")
    )
    return {row[0]: float(row[1]) for row in rows}


def edit_minutes(crate, cost):
    """Estimates the minutes that the edits of a crate take: the first check is a proof of it, each
    further one takes about a minute."""
    return cost.get(crate, 1) + together.count_checks(TOP, crate) - 1


def longest_chain(below, cost):
    chain = {}
    for crate in sorted(below, key=lambda it: len(below[it])):
        chain[crate] = cost.get(crate, 1) + max((chain[it] for it in below[crate]), default=0)
    return max(chain.values())


def plan(states):
    """Prints what a merge would prove and try, and about how long it takes if nothing is kept on
    the machine."""
    stale = {
        record: [it for it, digest in states[record].items() if not record.fits(TOP, it, digest)]
        for record in states
    }
    for crate in stale[TRIED]:
        print(f"{crate}: {len(tried.edits_of(TOP, crate))} edits")
    for crate in stale[PROVED]:
        print(f"{crate}: to be proved, with {len(tried.tests_of(TOP, crate))} tests")
    cost, cores, below = minutes(), len(os.sched_getaffinity(0)), tried.dependences(TOP)
    proved = [
        it
        for it in below
        if it in stale[PROVED] or it not in states[PROVED] and it not in only_run(states)
    ]
    proof_cost, edits = sum(cost.get(it, 1) for it in proved), edits_in(stale[TRIED])
    edit_cost = sum(edit_minutes(it, cost) for it in stale[TRIED])
    chain = longest_chain({it: below[it] for it in proved}, cost)
    wall = max((proof_cost + edit_cost) / cores, chain)
    print(
        f"edits to try: {edits}, in {len(stale[TRIED])} crates, about {edit_cost:.0f} minutes of "
        "processor time"
    )
    known = [it for it in states[TRIED] if it not in stale[TRIED]]
    print(f"edits with a record: {edits_in(known)}, in {len(known)} crates")
    tell_earlier(known)
    print(
        f"crates of tests to prove: {len(stale[PROVED])} of {len(tried.test_crates(TOP))}; the "
        "tests of the others are only run"
    )
    print(
        f"proofs and tests: about {proof_cost:.0f} minutes of processor time from nothing; the "
        f"longest chain {chain:.0f}"
    )
    print(
        f"a merge from nothing: about {wall:.0f} minutes on {cores} idle processors; up to twice "
        "as long has been seen"
    )
