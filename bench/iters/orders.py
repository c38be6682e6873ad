"""The permutations of 8 numbers by a recursive generator, and the sum of their digits with their places modulo 1,000,003."""


def swap(a, i, j):
    a[i], a[j] = a[j], a[i]


def orders(a, start):
    if start == len(a):
        yield
        return
    for i in range(start, len(a)):
        swap(a, start, i)
        yield from orders(a, start + 1)
        swap(a, start, i)


def main():
    a = [1, 2, 3, 4, 5, 6, 7, 8]
    total = 0
    for _ in orders(a, 0):
        total = (total * 3 + a[0] * 10 + a[7]) % 1000003
    print(total)


main()
