package main

func readInt() (int, bool)

func main() {
	sum := 0
	for {
		n, ok := readInt()
		if !ok {
			break
		}
		sum += n
	}
	println(sum)
}
