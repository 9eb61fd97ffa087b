SIZE = 60
a = [[i + j for j in range(SIZE)] for i in range(SIZE)]
b = [[(i * i + 3 * j + 1) % 7 for j in range(SIZE)] for i in range(SIZE)]
c = [[0] * SIZE for _ in range(SIZE)]


def multiply():
    for i in range(SIZE):
        for j in range(SIZE):
            sum = 0
            for k in range(SIZE):
                sum += a[i][k] * b[k][j]
            c[i][j] = sum % 1000


for _ in range(10):
    multiply()
    for i in range(SIZE):
        a[i] = c[i][:]
print(c[1][2])
