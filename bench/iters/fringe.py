"""Whether two trees with 4,096 equal leaves have the same fringe, ten times: one is balanced, the other leans at each node."""


class Node:
    def __init__(self, first, count, part):
        self.leaf = first
        self.left = self.right = None
        if count > 1:
            taken = max(count // part, 1)
            self.left = Node(first, taken, part)
            self.right = Node(first + taken, count - taken, part)

    def leaves(self):
        if self.left is None:
            yield self.leaf
        else:
            yield from self.left.leaves()
            yield from self.right.leaves()


def same_fringe(a, b, count):
    left, right = a.leaves(), b.leaves()
    return all(next(left) == next(right) for _ in range(count))


def main():
    a, b = Node(0, 4096, 2), Node(0, 4096, 5)
    print(sum(same_fringe(a, b, 4096) for _ in range(10)))


main()
