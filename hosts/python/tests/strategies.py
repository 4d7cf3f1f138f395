"""Random accepted trees for hypothesis."""

from hypothesis import strategies as st

from kterc import Node, Tree


@st.composite
def shapes(draw, largest):
    """The parents of nodes in preorder, none deeper than 32."""
    parents, depths = [None], [0]
    for node in range(1, draw(st.integers(1, largest))):
        route = [node - 1]
        while parents[route[-1]] is not None:
            route.append(parents[route[-1]])
        parent = draw(st.sampled_from([v for v in route if depths[v] < 32]))
        parents.append(parent)
        depths.append(depths[parent] + 1)
    return parents


@st.composite
def trees(draw, largest=12, lengths=st.integers(0, 1000), flows=st.integers(0, 100_000_000), budgets=st.integers(0, 32)):
    """Trees of every version, named by node numbers."""
    version = draw(st.sampled_from((1, 2, 3)))
    parents = draw(shapes(largest))
    nodes = []
    for number, parent in enumerate(parents):
        flow = draw(flows)
        hit = draw(st.sampled_from((0, 1, 500, 999, 1000)) | st.integers(0, 1000)) if version == 1 else None
        cachable = None if version == 1 else draw(st.sampled_from((0, flow // 2, flow)) | st.integers(0, flow))
        opened = version < 3 or draw(st.booleans())
        name = None if parent is None else str(parent)
        nodes.append(Node(str(number), name, 0 if parent is None else draw(lengths), flow, hit, cachable, opened))
    return Tree(version, draw(budgets), tuple(nodes))


def small_trees():
    """Trees of at most 6 nodes with many equal totals."""
    return trees(6, st.integers(0, 3), st.integers(0, 4), st.integers(0, 6))
