"""The areas and sides of shapes of four classes, 2,000 times, 4,000,000 calls behind an abstract class."""


class Square:
    def __init__(self, a):
        self.a = a

    def area(self):
        return self.a * self.a

    def sides(self):
        return 4


class Rectangle:
    def __init__(self, a, b):
        self.a = a
        self.b = b

    def area(self):
        return self.a * self.b

    def sides(self):
        return 4


class Triangle:
    def __init__(self, base, height):
        self.base = base
        self.height = height

    def area(self):
        return self.base * self.height // 2

    def sides(self):
        return 3


class Point:
    def area(self):
        return 0

    def sides(self):
        return 0


def shape(i):
    if i % 4 == 0:
        return Square(i % 31)
    if i % 4 == 1:
        return Rectangle(i % 29, i % 7)
    if i % 4 == 2:
        return Triangle(i % 23, i % 11)
    return Point()


def main():
    shapes = [shape(i) for i in range(1000)]
    total = 0
    for _ in range(2000):
        for s in shapes:
            total = (total + s.area() * s.sides()) % 1000003
    print(total)


main()
