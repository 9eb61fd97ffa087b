package main

func readInt() (int, bool)

// Prints the sum of the numbers of the input, up to the first item that is none.
func main() {
	sum, count := 0, 0
	for {
		n, ok := readInt()
		if !ok {
			break
		}
		sum += n
		count++
	}
	if count == 0 {
		panic("no numbers")
	}
	println("numbers", count, "sum", sum, "mean", sum/count)
}
