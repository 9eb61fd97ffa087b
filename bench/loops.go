package main

func main() {
	sum := 0
	i := 0
	for i < 4000 {
		j := 0
		for j < 4000 {
			sum = sum + i*j
			j = j + 1
		}
		i = i + 1
	}
	println(sum)
}
