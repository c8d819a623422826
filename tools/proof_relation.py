"""The relation that a proof builds, as a graph: pairs that `derive` put aside, and where each derivative of a pair leads."""
from dataclasses import dataclass, field


@dataclass
class Closed:
    """How a goal ended: the hypotheses that its chains used, by number, and what both sides were then."""

    hypotheses: list
    ends: list
    step: object


@dataclass
class Node:
    """A pair, by its number from 0 over all blocks; its number as a hypothesis counts the goals of earlier blocks first."""

    number: int
    goal: object
    is_goal: bool
    step: object


@dataclass
class Edge:
    """From a pair by a derivative to a pair, or to how the goal was closed."""

    start: int
    derivative: int
    end: object


@dataclass
class Loose:
    """A goal of the script that was closed without a pair."""

    goal: object
    closed: Closed


@dataclass
class BlockRelation:
    number: int
    first: int  # the number of its first pair
    lemmas: list
    nodes: list = field(default_factory=list)
    edges: list = field(default_factory=list)
    loose: list = field(default_factory=list)


def ends_of(why):
    """What the sides of a reason are at its ends, one for each case."""
    if why.split is None:
        return [why.sides["left"]]
    return [end for _, case in why.cases for end in ends_of(case)]


def relation_of(proof):
    """The graph of each block of a proof."""
    found, count, lemmas = [], 0, []
    for block in proof.blocks:
        relation = BlockRelation(block.number, count, list(lemmas))
        used = set()  # hypotheses that Simplify steps used on the way, by the goal that they lead to
        on_way = {}
        for step in block.steps:
            if step.kind == "done":
                continue
            here = on_way.get(id(step.entry), [])
            used = [*here, *hypotheses_of(step.why)] if step.why else here
            if step.kind in ("simplify", "cases"):
                for entry in step.made:
                    on_way[id(entry)] = used
            elif step.kind == "derive":
                add_pair(relation, step)
            else:
                add_end(relation, step.entry, Closed(sorted(set(used)), ends_of(step.why), step))
        lemmas += block.goals
        count += len(relation.nodes)
        found.append(relation)
    return found


def hypotheses_of(why):
    return [link.number for link in why.all_links() if link.kind == "hypothesis"]


def add_pair(relation, step):
    number = relation.first + len(relation.nodes)
    origin = step.entry.origin
    relation.nodes.append(Node(number, step.entry.goal, origin[0] == "goal", step))
    if origin[0] == "pair":
        relation.edges.append(Edge(pair_of(relation, origin[1]), origin[2], number))


def add_end(relation, entry, closed):
    if entry.origin[0] == "pair":
        relation.edges.append(Edge(pair_of(relation, entry.origin[1]), entry.origin[2], closed))
    else:
        relation.loose.append(Loose(entry.goal, closed))


def pair_of(relation, hypothesis):
    """The number of the pair that is a hypothesis of this number in the block."""
    return hypothesis - len(relation.lemmas) + relation.first
