"""Bills, plans and rankings of small trees by full enumeration, from documents 01 and 02 and without the library."""

from itertools import combinations


class Enumeration:
    """A tree as numbers: parents, and the least that documents 01 and 02 say of them. Sets are tuples, ascending."""

    def __init__(self, tree):
        self.tree = tree
        self.n = len(tree.nodes)
        self.parents = [0 if node.parent is None else tree.names.index(node.parent) for node in tree.nodes]

    def route(self, node):
        """The node, its parent and so on, the server last."""
        nodes = [node]
        while nodes[-1]:
            nodes.append(self.parents[nodes[-1]])
        return nodes

    def distance(self, node):
        return sum(self.tree.nodes[v].length for v in self.route(node))

    def below(self, node):
        return [v for v in range(self.n) if node in self.route(v)]

    def amounts(self, node):
        """What a client asks for and what of it is cachable, both in thousandths."""
        record = self.tree.nodes[node]
        cachable = record.flow * record.hit if self.tree.version == 1 else 1000 * record.cachable
        return 1000 * record.flow, cachable

    def cost(self, client, nodes):
        asked, cachable = self.amounts(client)
        sites = [v for v in self.route(client) if v == 0 or v in nodes]
        return min(asked * self.distance(client) - cachable * self.distance(v) for v in sites)

    def total(self, nodes):
        return sum(self.cost(client, nodes) for client in range(self.n))

    def serving(self, nodes):
        return [next(v for v in self.route(client) if v == 0 or v in nodes) for client in range(self.n)]

    def loads(self, nodes):
        return [0] + [sum(self.load(client, v, nodes) for client in self.below(v)) for v in range(1, self.n)]

    def load(self, client, link, nodes):
        """What of a client's flow the link above a node carries."""
        asked, cachable = self.amounts(client)
        up_to_link = self.route(client)[: self.route(client).index(link) + 1]
        return asked - cachable if set(up_to_link) & set(nodes) else asked

    def rank(self, nodes):
        """Smaller where the set ranks first: total, size, then at each node more members at or below it, and not the node."""
        ties = [(-len(set(self.below(v)) & set(nodes)), v in nodes) for v in range(1, self.n)]
        return self.total(nodes), len(nodes), ties

    def sets(self, budget):
        """All sets of at most so many open nodes."""
        sites = [v for v in range(1, self.n) if self.tree.nodes[v].open]
        return [nodes for size in range(budget + 1) for nodes in combinations(sites, size)]

    def plan(self, budget):
        return min(self.sets(budget), key=self.rank)

    def greedy(self, budget):
        """The nodes in the order taken, in at most so many steps."""
        taken = []
        for _ in range(budget):
            sites = [v for (v,) in self.sets(1)[1:] if v not in taken]
            best = min(sites, key=lambda v: (self.total([*taken, v]), v), default=None)
            if best is None or self.total([*taken, best]) >= self.total(taken):
                break
            taken.append(best)
        return taken
