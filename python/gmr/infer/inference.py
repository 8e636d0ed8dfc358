"""Makes a rule of an example of an operation: folds it, finds its values, drops what isn't needed, and certifies it."""
from collections.abc import Callable, Iterator, Sequence
from itertools import groupby, islice, permutations

from gmr.infer.check import certify, script_text
from gmr.infer.doubt import has_too_many_numbers, rests_of, tell_other, tell_rests
from gmr.infer.draft import Draft, book_text
from gmr.infer.example import Example, NoRule
from gmr.infer.fold import Broken
from gmr.infer.place import place
from gmr.infer.search import Candidate, Hand, find, least_context, set_values, words_of
from gmr.infer.values import Place, Unfound, wanted_values

Further = tuple[Example, tuple[int, ...] | None]   # a further example, and the darts of its hooks where they are given
Telling = Callable[[str], None] | None
Reason = tuple[Candidate | None, str]

GUESSED = ": numbers of its own would take more of the example's equations than they leave"
MOST_ALIKE = 12         # rules of one size that are made ready and compared
MOST_PLACES = 24        # places of a further example's hooks that are tried
MOST_DARTS = 20_000     # of a map of which all is folded again where the smallest rules fail
OTHERS = 2              # other rules that are told of


def infer(example: Example, further: Sequence[Further] = (), words: Sequence[tuple[int, ...]] | None = None,
          hook: int | None = None, name: str = "operation", tells: Telling = None, breaks: Telling = None) -> Candidate:
    """The certified rule with the fewest nodes, and of those the one that asks for the fewest free darts, along one of
    the words and from the hook where they are given; NoRule where there is none. It has to make each further example's
    map after too. `tells` is told how far the search is, `breaks` of each orbit that doesn't fold and where it breaks.
    """
    if hook is not None and hook not in example.before.alpha[0]:
        raise NoRule(f"the hook {hook} is no dart of the map before")
    if any(other.schema != example.schema for other, _ in further):
        raise NoRule("a further example has another dimension or other embeddings")
    reasons: list[Reason] = []
    some = words_of(example.before.dimension) if words is None else words
    for goes_on in (False, True):
        if goes_on and len(example.before.darts) > MOST_DARTS:
            break
        found = find(example, some, hook, Hand(tells=tells, breaks=None if goes_on else breaks), goes_on)
        candidate = first_certified(example, further, found, name, reasons)
        if candidate:
            return candidate
    closest, why = next((reason for reason in reasons if reason[0]), reasons[0])
    raise NoRule(why, closest)


def first_certified(example: Example, further: Sequence[Further], found: Sequence[Candidate], name: str,
                    reasons: list[Reason]) -> Candidate | None:
    """The first candidate that is certified, with its doubts; why each one before it isn't becomes a reason."""
    for _, some in groupby(found, key=lambda candidate: candidate.cost(example)[:2]):
        ready = [made for candidate in distinct(some) if (made := make_ready(example, further, candidate, reasons))]
        ready.sort(key=lambda candidate: (len(candidate.draft.nodes), candidate.loops()))
        passed: list[Candidate] = []
        for candidate in ready:
            fault = certify_all(example, candidate, name)
            if fault is None:
                passed.append(candidate)
            else:
                reasons.append((None, f"a rule folds, but doesn't make the map after: {fault}"))
            if len(passed) > OTHERS:
                break
        if passed:
            add_doubts(example, passed)
            return passed[0]
    return None


def distinct(some: Iterator[Candidate]) -> Iterator[Candidate]:
    """The first candidate of each text, as far as a limit."""
    seen: set[str] = set()
    for candidate in some:
        text = candidate.draft.text("r")
        if text not in seen and len(seen) < MOST_ALIKE:
            seen.add(text)
            yield candidate


def make_ready(example: Example, further: Sequence[Further], candidate: Candidate,
               reasons: list[Reason]) -> Candidate | None:
    """The candidate with its values, and with no more context than it needs; None where that can't be, for a reason."""
    fitting = False
    for places in islice(placements(candidate.draft, further), MOST_PLACES):
        fitting = True
        candidate = Candidate(candidate.lines, places)
        for draft in candidate.drafts():
            for node in draft.nodes:
                node.sets.clear()
        candidate.unfound = set_values([*((example, draft) for draft in candidate.lines), *places])
        if not candidate.unfound:
            break
    if not fitting:
        reasons.append((None, "a further example isn't met by the rule of the first, at none of its darts"))
        return None
    rests = rests_of([*((example, draft) for draft in candidate.lines), *candidate.further], example.before.embeds)
    if candidate.unfound or has_too_many_numbers(rests):
        guessed = [(rest.embed, rest.node) for rest in rests if rest.is_guess()]
        reasons.append(unfound_reason(example, candidate, guessed))
        return None
    return least_context(example, candidate)


def unfound_reason(example: Example, candidate: Candidate, guessed: Sequence[tuple[str, int]]) -> Reason:
    """Why a candidate has no values, and it without those that are guessed."""
    is_guessed = not candidate.unfound
    if is_guessed:
        places = [*((example, draft) for draft in candidate.lines), *candidate.further]
        for name, at in guessed:
            embed = next(embed for embed in example.before.embeds if embed.name == name)
            candidate.unfound.append(Unfound(name, at, wanted_values(places, at, embed)))
            for draft in candidate.drafts():
                draft.nodes[at].sets.pop(name, None)
    name, at, _ = candidate.unfound[0]
    why = f"a rule folds, but no expression is found for {name} at {candidate.draft.names()[at]}"
    return candidate, why + (GUESSED if is_guessed else "")


def placements(draft: Draft, further: Sequence[Further]) -> Iterator[list[Place]]:
    """The ways in which a rule lies in all further examples: at the darts that are given, or else at any."""
    if not further:
        yield []
        return
    (other, hooks), rest = further[0], further[1:]
    number = sum(node.is_hook for node in draft.nodes)
    tried = [hooks] if hooks is not None else permutations(
        other.starts if number > 1 else other.before.darts.tolist(), number)
    for darts in tried:
        try:
            lying = place(draft, other, darts)
        except Broken:
            continue
        yield from ([(other, lying), *more] for more in placements(draft, rest))


def add_doubts(example: Example, passed: Sequence[Candidate]) -> None:
    """Tells at the first candidate what the examples leave open."""
    chosen = passed[0]
    places = [*((example, draft) for draft in chosen.lines), *chosen.further]
    chosen.doubts = list(tell_rests(rests_of(places, example.before.embeds), chosen.draft.names()))
    for other in passed[1:]:
        chosen.doubts += tell_other(example, chosen.draft, other.draft)


def certify_all(example: Example, candidate: Candidate, name: str) -> str | None:
    """Why the program doesn't make a map after of its map before, or None where it makes all."""
    book = write_book(example, candidate, name)
    faults = [certify(example, book, candidate.script(name), candidate.lines)]
    for other, lying in candidate.further:
        faults.append(certify(other, book, script_text(name, [lying]), [lying]))
    return next((fault for fault in faults if fault), None)


def write_book(example: Example, candidate: Candidate, name: str) -> str:
    """The book of a candidate's rule, with remarks above it."""
    return book_text(*example.schema, [candidate.remarks() + candidate.draft.text(name)])
