def main():
    rows = [(i, i % 11) for i in range(100000)]
    n = 0
    for _ in range(10):
        n = n + len([t for t in rows if t[1] < 5])
    print(n)


main()
