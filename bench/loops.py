def main():
    sum = 0
    i = 0
    while i < 4000:
        j = 0
        while j < 4000:
            sum = sum + i * j
            j = j + 1
        i = i + 1
    print(sum)


main()
