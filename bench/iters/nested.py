"""The sum of products over two nested loops of 1,000 and 1,500 rounds, modulo 1,000,003."""


def upto(start, end):
    i = start
    while i <= end:
        yield i
        i += 1


def main():
    total = 0
    for i in upto(1, 1000):
        for j in upto(1, 1500):
            total = (total + i * j) % 1000003
    print(total)


main()
