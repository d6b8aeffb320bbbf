def main():
    rows = [(i, i % 11) for i in range(100000)]
    print(len(rows) * 0)


main()
