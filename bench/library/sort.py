"""Puts scattered numbers into their order, by the sort of a list."""
numbers = []
x = 1
for _ in range(100000):
    x = (x * 137 + 71) % 1000003
    numbers.append(x)
numbers.sort()
print(numbers[0], numbers[50000], numbers[99999])
