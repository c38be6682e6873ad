"""How often each remainder comes among so many products, by a dict."""
counts = {}
for i in range(300000):
    key = i * 31 % 20011
    if key in counts:
        counts[key] = counts[key] + 1
    else:
        counts[key] = 1
total = 0
for key, count in counts.items():
    total = (total + key * count) % 1000003
print(len(counts), total)
