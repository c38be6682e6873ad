"""The values of a balanced tree of 8,191 nodes in order, ten times, and the sum of each with its place modulo 1,000,003."""


class Node:
    def __init__(self, first, last):
        middle = (first + last) // 2
        self.value = middle
        self.left = Node(first, middle - 1) if first < middle else None
        self.right = Node(middle + 1, last) if middle < last else None

    def walk(self):
        if self.left:
            yield from self.left.walk()
        yield self.value
        if self.right:
            yield from self.right.walk()


def main():
    tree = Node(1, 8191)
    total = 0
    for _ in range(10):
        for value in tree.walk():
            total = (total * 3 + value) % 1000003
    print(total)


main()
