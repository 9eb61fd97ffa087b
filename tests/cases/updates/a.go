package main

func count(n int) (sum int) {
	for n > 0 {
		sum += n
		n--
	}
	return
}

func main() {
	x := 7
	x += 5
	println(x)
	x -= 20
	println(x)
	x *= -1 - 2
	println(x)
	x /= 5
	println(x)
	x %= 3
	println(x)
	x <<= 5
	println(x)
	x |= 7
	println(x)
	x ^= 12
	println(x)
	x &= 58
	println(x)
	x &^= 10
	println(x)
	x >>= 3
	println(x)
	x++
	println(x)
	x--
	x--
	println(x)
	x += x
	println(x)
	x -= count(3)
	println(x, count(10))
	most := 9223372036854775807
	most++
	println(most)
	most--
	println(most)
	most *= most
	println(most)
	most <<= 63
	most >>= 64
	println(most)
}
