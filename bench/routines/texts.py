"""A text of 100,000 items that is put together byte by byte, and read again."""


class Buffer:
    def __init__(self):
        self.bytes = []

    def add(self, text):
        for byte in text:
            self.bytes.append(byte)

    def text(self):
        return ''.join(self.bytes)


def main():
    buffer = Buffer()
    for i in range(100000):
        buffer.add('item ')
        buffer.add(str(i * 7919 % 100003))
        buffer.add(',')
    text = buffer.text()
    commas = 0
    code = 7
    for byte in text:
        if byte == ',':
            commas += 1
        code = (code * 31 + ord(byte)) % 1000003
    print(len(text), commas, code, text[:24])


main()
