package main

func main() {
	for i := range 4 {
		if i&1 == 0 {
			continue
		}
		print(i)
	}
	println(7&^2, -7/2, -7%2, 1<<3|1)
}
