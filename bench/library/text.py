"""A text of many pieces, joined at the end, and how often one character stands in it."""
pieces = []
for i in range(100000):
    pieces.append('item ' + str(i) + ', ')
text = ''.join(pieces)
count = 0
for c in text:
    if c == '7':
        count += 1
print(len(text), count)
