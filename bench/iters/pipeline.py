"""The squares of the numbers up to 400,000 that 3 or 5 divides, from one generator to the next, and their sum modulo 1,000,003."""


def numbers(n):
    i = 1
    while i <= n:
        yield i
        i += 1


def multiples(n):
    for x in numbers(n):
        if x % 3 == 0 or x % 5 == 0:
            yield x


def squares(n):
    for multiple in multiples(n):
        x = multiple % 1000
        yield x * x


def main():
    total = 0
    for square in squares(400000):
        total = (total + square) % 1000003
    print(total)


main()
