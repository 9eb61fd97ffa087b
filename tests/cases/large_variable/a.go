package main

func main() {
	var composite [20000]bool
	count, last := 0, 0
	for i := 2; i < len(composite); i++ {
		if composite[i] {
			continue
		}
		count++
		last = i
		for j := i * i; j < len(composite); j += i {
			composite[j] = true
		}
	}
	println(count, last, composite[19998], composite[19997])
}
