def main():
    i = 0
    s = 0
    while i < 1000000:
        s = s + i % 7
        i = i + 1
    print(s)


main()
