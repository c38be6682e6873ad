"""How many primes there are up to 2,000,000, and their sum modulo 1,000,003."""


def main():
    n = 2000000
    composite = [False] * (n + 1)
    i = 2
    while i * i <= n:
        if not composite[i]:
            j = i * i
            while j <= n:
                composite[j] = True
                j += i
        i += 1
    count = 0
    total = 0
    i = 2
    while i <= n:
        if not composite[i]:
            count += 1
            total = (total + i) % 1000003
        i += 1
    print(count, total)


main()
