package main

// Each call wants a frame of 19 words: 6 for the arguments and the result of the next one, 6 in which these are worked out, 5 for
// its own parameters, and 2 by which it returns. That of main has 13 words.
func sum(a [4]int, n int) int {
	if n == 0 {
		return a[0] + a[3]
	}
	a[n%4] += n
	return sum(a, n-1)
}

func main() {
	println(sum([4]int{1, 2, 3, 4}, 10))
}
