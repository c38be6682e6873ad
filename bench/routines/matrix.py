"""The product of two matrices of 120 rows and columns, and the sum of its elements modulo 1,000,003."""
import math


class Matrix:
    def __init__(self, size):
        self.size = size
        self.cells = [0] * (size * size)

    def get(self, i, j):
        return self.cells[i * self.size + j]

    def set(self, i, j, value):
        self.cells[i * self.size + j] = value

    def times(self, other):
        result = Matrix(self.size)
        for i in range(self.size):
            for j in range(self.size):
                total = 0
                for k in range(self.size):
                    total += self.get(i, k) * other.get(k, j)
                result.set(i, j, total)
        return result


def main():
    n = 120
    a = Matrix(n)
    b = Matrix(n)
    for i in range(n * n):
        a.set(i // n, i % n, i % 17)
        b.set(i // n, i % n, i % 13 - 6)
    c = a.times(b)
    total = 0
    for i in range(n * n):
        total = int(math.fmod(total * 3 + c.get(i // n, i % n), 1000003))
    print(total)


main()
