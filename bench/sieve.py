LIMIT = 60000
composite = [False] * LIMIT


def primes():
    count = 0
    for n in range(LIMIT):
        composite[n] = n < 2
    for n in range(LIMIT):
        if not composite[n]:
            count += 1
            for m in range(n * n, LIMIT, n):
                composite[m] = True
    return count


for _ in range(20):
    print(primes())
