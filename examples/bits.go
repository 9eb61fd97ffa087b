package main

// How many bits of x are set.
func ones(x int) (count int) {
	for ; x != 0; x &= x - 1 {
		count++
	}
	return
}

func odd(x int) bool {
	return x&1 == 1
}

func main() {
	for i := range 5 {
		println(i, ones(i), odd(i))
	}
	println(ones(-1), 1<<62, -5>>1, 7&^2)
}
