"""Plans of a fleet, by the program: the rows of each router for a kind, without some links, under the labels that stay."""
from __future__ import annotations

from typing import Any, Callable, Dict, List, Tuple

from . import fleet
from .fleet import FleetError, Link, Spec

MOST_LINKS_OF_A_WALK = 250  # hop limits start with 255


def text_without(text: str, form: str, links: List[Link]) -> str:
    """A topology's text without some links."""
    from . import lab_net
    remove: Callable[[str, str, List[Link]], str] = lab_net.without_links
    return remove(text, form, links)


def rows_of(spec: Spec, config: Dict[str, str]) -> List[Tuple[str, str]]:
    """The rows of a plan, as pairs of a node and its row's text. They are compared with the plan label by label.

    Parameters
    ----------
    spec : Spec
        What the plan is for.
    config : dict
        The texts `topology`, `form` and `order`, as etcd has them below `config/`.

    Raises
    ------
    BentzoluError
        Where there is no such plan, or no program; the text says why.
    """
    from . import lab
    plan_of: Callable[..., Any] = lab.plan_of
    text, form, order = config["topology"], config["form"], config["order"]
    shape = fleet.shape_of(text, form)
    cut, gone = fleet.leaves_of(shape, frozenset(spec.without), frozenset(spec.cut))
    if cut != tuple(sorted(spec.cut)) or not fleet.reaches_all(shape, gone):
        raise FleetError(f"without {', '.join(' '.join(it) for it in sorted(gone))} the network is not connected")
    left, kind = text_without(text, form, sorted(gone)), spec.kind
    if kind == "tree":  # labels that stay are no tree's own: so the tree's links alone, and the shortest ways over them
        tree, _ = plan_of(left, form, kind, [f"--root={order.split()[0]}"])
        kept = {fleet.link_of(str(node), str(to)) for node, row in tree.nodes.items() for to in row.neighbours}
        left, kind = text_without(left, form, sorted(shape.links - gone - kept)), "shortest"
    plan, found = plan_of(left, form, kind, [], order)
    if [node for node, _ in sorted(plan.labels.items(), key=lambda it: int(it[1]))] != order.split():
        raise FleetError("the plan numbers the nodes in another way than they were enrolled: enroll the topology again")
    return [(str(node), fleet.row_text(found[node])) for node in plan.nodes]


def order_of(text: str, form: str, words: List[str]) -> List[str]:
    """The nodes of a topology in the order of the labels that a first plan gives them; `words` are options of the program."""
    from . import lab
    plan_of: Callable[..., Any] = lab.plan_of
    plan, _ = plan_of(text, form, "tree", words)
    return [str(node) for node, _ in sorted(plan.labels.items(), key=lambda it: int(it[1]))]
