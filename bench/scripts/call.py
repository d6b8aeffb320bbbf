def part(n):
    return n % 7


def main():
    i = 0
    s = 0
    while i < 1000000:
        s = s + part(i)
        i = i + 1
    print(s)


main()
